//! Times, medians of many, as four markdown tables: the soundness test on full pools beside a sum of their words (`full`); the calls'
//! own times beside the third variant of the published module and BTreeMap (`calls`); packing beside a BTreeMap built anew (`packs`); and
//! listing in portions beside scans and a BTreeMap that is resumed (`portions`).
//!
//!     speed [MILLISECONDS] [TABLE ..] [--stand-in]
//!
//! The milliseconds, 300 where none are given, are the time for each figure. The tables are those named, or all.
mod calls;
mod clock;
mod full;
mod packs;
mod portions;

use oracle::library;
use std::time::Duration;

fn main() {
    let args: Vec<String> = std::env::args().skip(1).collect();
    let time = Duration::from_millis(args.iter().find_map(|a| a.parse().ok()).unwrap_or(300));
    let lib = library(args.iter().any(|a| a == "--stand-in"));
    println!("Timed: {}. Medians.", lib.name());
    let tables = ["full", "calls", "packs", "portions"].map(|t| args.iter().any(|a| a == t));
    let all = tables == [false; 4];
    if all || tables[0] {
        println!("\nThe soundness test on full pools, beside the sum of their bytes as 64-bit words.\n");
        full::table(&*lib, time);
    }
    if all || tables[1] {
        println!(
            "\nOwn times: a batch has {} new keys, set and then removed; a get {} held keys; a scan lists {}.\n",
            calls::KEYS,
            calls::LISTED,
            calls::LISTED
        );
        calls::table(&*lib, time);
    }
    if all || tables[2] {
        println!(
            "\nPacking a pool into another of as many nodes; a BTreeMap of the same entries walked and built anew; the target's bytes copied.\n"
        );
        packs::table(&*lib, time);
    }
    if all || tables[3] {
        println!(
            "\nPortions of {}: the own time of one from any place, of a scan from the same start, a BTreeMap resumed there; then the whole list.\n",
            calls::LISTED
        );
        portions::table(&*lib, time);
    }
}
