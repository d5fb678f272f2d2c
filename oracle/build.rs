//! Says whether the library is linked: alarm-index links it where ALARM_LIB names its archive. Without it the programs drive the stand-in.
fn main() {
    println!("cargo:rustc-check-cfg=cfg(linked)");
    if std::env::var_os("DEP_INDEX_C_ARCHIVE").is_some() {
        println!("cargo:rustc-cfg=linked");
    }
}
