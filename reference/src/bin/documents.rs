//! Checks the documents of the repository against what is there:
//!     cargo run --manifest-path reference/Cargo.toml --bin documents [ROOT]
//! Prints a line a fault, as FILE:LINE: what is wrong; fails if there is one.

use reference::documents::faults;
use reference::documents::repository::Repository;
use std::env;
use std::path::PathBuf;
use std::process::ExitCode;

fn main() -> ExitCode {
    let here = PathBuf::from(env!("CARGO_MANIFEST_DIR")).join("..");
    let root = env::args_os().nth(1).map_or(here, PathBuf::from);
    let there = match Repository::read(&root) {
        Ok(there) => there,
        Err(error) => {
            eprintln!("{}: {error}", root.display());
            return ExitCode::FAILURE;
        }
    };
    let faults = faults(&there);
    for fault in &faults {
        println!("{fault}");
    }
    println!("{} faults", faults.len());
    if faults.is_empty() {
        ExitCode::SUCCESS
    } else {
        ExitCode::FAILURE
    }
}
