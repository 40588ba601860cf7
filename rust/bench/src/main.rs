//! Times the proved code against plain Rust on the same input, in one run, and prints the ratios.
//!
//!     bench                        walks and lists
//!     bench walks BEFORE AFTER     the walks of two archives of the C function, taken in turn
//!     bench accesses BEFORE AFTER  the same of single accesses, through the machine's C functions
//!     bench runs BEFORE AFTER      the same of the longest lists, through the report's C function
//!     bench by-page, bench by-mib  the plain program that notes the rows in this way
mod accesses;
mod archive;
mod images;
mod lists;
mod runs;
mod timing;
mod walks;

use std::path::Path;
use std::{env, io};

const USAGE: &str =
    "usage: bench [walks BEFORE AFTER | accesses BEFORE AFTER | runs BEFORE AFTER | by-page | by-mib]";

fn main() -> io::Result<()> {
    let words: Vec<String> = env::args().skip(1).collect();
    let words: Vec<&str> = words.iter().map(String::as_str).collect();
    match words[..] {
        [] => {
            walks::against_model();
            println!();
            lists::reports();
            Ok(())
        }
        ["walks", before, after] => walks::against_before(Path::new(before), Path::new(after)),
        ["accesses", before, after] => {
            accesses::against_before(Path::new(before), Path::new(after))
        }
        ["runs", before, after] => runs::against_before(Path::new(before), Path::new(after)),
        [asked] => {
            let way = lists::WAYS.iter().find(|(name, _)| *name == asked);
            let (_, note) = way.ok_or_else(|| io::Error::other(USAGE))?;
            rival::run(*note)
        }
        _ => Err(io::Error::other(USAGE)),
    }
}
