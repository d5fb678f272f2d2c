//! Drives the library, the plain model and the third variant of the published module with the same calls, and stops at the first
//! difference: the smallest input found is printed and the program ends with 1.
//!
//!     compare [--long SECONDS] [--seed NUMBER] [--stand-in]
//!
//! Without --long it takes about a minute. With it the exhaustive parts go further, and random parts fill the time.
use oracle::library;
use oracle::parts::Work;
use oracle::shrink::shrink;
use std::time::{Duration, Instant};

fn main() {
    let args: Vec<String> = std::env::args().skip(1).collect();
    let number = |name: &str| args.iter().position(|a| a == name).map(|i| args[i + 1].parse::<u64>().expect("a number"));
    let (long, seed) = (number("--long"), number("--seed").unwrap_or(1));
    let lib = library(args.iter().any(|a| a == "--stand-in"));
    println!("driving {}; seed {seed}; {}", lib.name(), long.map_or("bounded".to_string(), |s| format!("long, {s} s")));
    let mut work = Work::new(&*lib, seed, long.is_some());
    let begin = Instant::now();
    let seconds = long.unwrap_or(58) as f64;
    for (what, share, part) in Work::parts() {
        let start = Instant::now();
        if let Err((script, difference)) = part(&mut work, begin + Duration::from_secs_f64(seconds * share)) {
            println!("DIFFERENCE in {what}: {difference}");
            if let Some(script) = script {
                let (script, difference) = shrink(&*lib, script);
                println!("smallest input found:");
                script.print();
                println!("{difference}");
            }
            std::process::exit(1);
        }
        println!("{what}: agreed, {:.1} s", start.elapsed().as_secs_f64());
    }
    println!("compared:");
    work.tally.print();
    println!("{} comparisons agreed in {:.1} s, driving {}", work.tally.total(), begin.elapsed().as_secs_f64(), lib.name());
}
