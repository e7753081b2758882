//! Writes what the tool's `records` is tried on, and what it must write, as the reference has it:
//!     cargo run --manifest-path reference/Cargo.toml --bin records -- crates/d450

use std::path::Path;
use std::{env, fs, io};

use reference::listing::{out_of_order, records, SETTING};
use reference::register::HandedIn;

fn main() -> io::Result<()> {
    let folder = env::args().nth(1).expect("usage: records FOLDER");
    let folder = Path::new(&folder);
    let data = folder.join("data");
    fs::create_dir_all(&data)?;
    let octets = out_of_order();
    let expected = records(&octets, HandedIn::of(SETTING, true));
    fs::write(data.join("out-of-order"), octets)?;
    fs::write(folder.join("args"), "records\n--compare\nout-of-order\n")?;
    fs::write(folder.join("stdout"), expected)
}
