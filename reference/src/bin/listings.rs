//! Writes what the program `list` is tried on, and what it must write, as the reference lists it:
//!     cargo run --manifest-path reference/Cargo.toml --bin listings -- crates/list

use std::path::Path;
use std::{env, fs, io};

use reference::listing::{files, listing, RECORDED};

fn main() -> io::Result<()> {
    let folder = env::args().nth(1).expect("usage: listings FOLDER");
    let folder = Path::new(&folder);
    let data = folder.join("data");
    fs::create_dir_all(&data)?;
    let (mut arguments, mut expected) = (String::new(), String::new());
    for (name, octets) in files() {
        arguments += &format!("{name}\n");
        expected += &format!("{name}:\n{}", listing(&octets, RECORDED));
        let path = if name == "-" {
            folder.join("stdin")
        } else {
            data.join(name)
        };
        fs::write(path, octets)?;
    }
    fs::write(folder.join("args"), arguments)?;
    fs::write(folder.join("stdout"), expected)
}
