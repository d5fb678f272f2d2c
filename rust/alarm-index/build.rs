//! Links the archive that `ALARM_LIB` names by its whole path (`libindex_c.a`), and tells a crate that depends on this one where it is: in
//! its build script `DEP_INDEX_C_ARCHIVE` has the path.
use std::path::Path;

fn main() {
    println!("cargo:rerun-if-env-changed=ALARM_LIB");
    let Ok(archive) = std::env::var("ALARM_LIB") else {
        println!("cargo:warning=ALARM_LIB names no archive: what calls the index will not link");
        return;
    };
    let path = Path::new(&archive);
    assert!(path.is_absolute() && path.is_file(), "ALARM_LIB names no archive by its whole path: {archive}");
    let name = path.file_stem().and_then(|s| s.to_str()).and_then(|s| s.strip_prefix("lib")).expect("lib*.a");
    println!("cargo:rerun-if-changed={}", path.display());
    println!("cargo:rustc-link-search=native={}", path.parent().expect("a folder").display());
    println!("cargo:rustc-link-lib=static={name}");
    println!("cargo:archive={}", path.display());
}
