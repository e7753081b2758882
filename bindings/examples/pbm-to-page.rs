//! Writes a page file from a portable bitmap and reads it back: how a Rust program uses the proved library.
//!     tools/build exports
//!     cargo run --release --manifest-path bindings/Cargo.toml --example pbm-to-page -- samples/transcript.pbm transcript.page

use std::fmt::Display;
use std::path::{Path, PathBuf};
use std::process::ExitCode;

use dacom450::{
    bitmap_octets, most_file_octets, read_page, write_page, Check, Refusal, LOW_BIT_FIRST,
    MOST_LINES,
};

/// The scope paper's setting. Frames off real tapes carry the check high bit first: for those, `order` is `HIGH_BIT_FIRST`.
const CHECK: Check = Check {
    generator: 425,
    start: 0,
    first_bit: 0,
    compare: 1,
    order: LOW_BIT_FIRST,
};

/// Detail mode, eleven inch.
const SETTINGS: u64 = 4;

const RATE: u64 = 4800;

/// The pels and the octets of a row.
const WIDTH: usize = 1726;
const ROW: usize = WIDTH.div_ceil(8);

/// The lines of a portable bitmap in its raw form, P4, and its rows.
fn parsed(pbm: &[u8]) -> Result<(usize, &[u8]), String> {
    let rest = pbm
        .strip_prefix(b"P4")
        .ok_or("is not a portable bitmap (P4)")?;
    let (width, rest) = number(rest).ok_or("has no width")?;
    let (lines, rest) = number(rest).ok_or("has no height")?;
    if width != WIDTH {
        return Err(format!("is {width} pels wide, not {WIDTH}"));
    }
    if lines % 2 == 1 || lines == 0 || lines > MOST_LINES {
        return Err(format!(
            "has {lines} lines, not an even number from 2 to {MOST_LINES}"
        ));
    }
    // Just one octet of white space; the next is the first row's, whatever it is.
    let rows = match rest.split_first() {
        Some((octet, rows)) if octet.is_ascii_whitespace() => rows,
        _ => return Err("has no white space behind its height".to_string()),
    };
    match rows.get(..ROW * lines) {
        Some(rows) => Ok((lines, rows)),
        None => Err(format!(
            "has {} octets of rows, not {}",
            rows.len(),
            ROW * lines
        )),
    }
}

/// The number that comes next in a header, and what follows it. White space comes before it, and comments, which go from # to the end of
/// their line.
fn number(header: &[u8]) -> Option<(usize, &[u8])> {
    let mut rest = header;
    loop {
        rest = match rest.split_first()? {
            (b'#', _) => &rest[rest.iter().position(|octet| b"\n\r".contains(octet))?..],
            (octet, after) if octet.is_ascii_whitespace() => after,
            _ => break,
        };
    }
    let digits = rest.iter().take_while(|octet| octet.is_ascii_digit());
    let (digits, after) = rest.split_at(digits.count());
    let separate = rest.len() < header.len();
    let number = std::str::from_utf8(digits).ok()?.parse().ok()?;
    separate.then_some((number, after))
}

/// The rows as the bitmap form, in which the bits behind a row's last pel are 0. In a portable bitmap they may be anything.
fn bitmap_of(lines: usize, rows: &[u8]) -> Vec<u8> {
    let [width, height] = [WIDTH, lines].map(|n| (n as u16).to_le_bytes());
    let mut bitmap = [width, height].concat();
    for row in rows.chunks(ROW) {
        bitmap.extend(row);
        *bitmap.last_mut().expect("a row was put") &= 0xFF << (8 * ROW - WIDTH);
    }
    bitmap
}

/// The octets of the page file.
fn written(lines: usize, bitmap: &[u8]) -> Result<Vec<u8>, Refusal> {
    let mut out = vec![0; most_file_octets(lines)];
    let file = write_page(bitmap, SETTINGS, RATE, &CHECK, &mut out)?;
    out.truncate(file.octets as usize);
    Ok(out)
}

/// The bitmap of a page file.
fn read(file: &[u8]) -> Result<Vec<u8>, Refusal> {
    let mut out = vec![0; bitmap_octets(MOST_LINES)];
    let page = read_page(file, &CHECK, &mut out)?;
    out.truncate(bitmap_octets(page.lines as usize));
    Ok(out)
}

/// Writes the page file, and says what it did; or why it did not.
fn run(input: &Path, output: &Path) -> Result<String, String> {
    let of = |name: &Path, error: &dyn Display| format!("{}: {error}", name.display());
    let pbm = std::fs::read(input).map_err(|error| of(input, &error))?;
    let (lines, rows) = parsed(&pbm).map_err(|error| of(input, &error))?;
    let bitmap = bitmap_of(lines, rows);
    let file = written(lines, &bitmap).map_err(|refusal| of(input, &refusal))?;
    let again = read(&file).map_err(|refusal| format!("the page does not read back: {refusal}"))?;
    if again != bitmap {
        return Err("the page reads back as another".to_string());
    }
    std::fs::write(output, &file).map_err(|error| of(output, &error))?;
    Ok(format!(
        "{lines} lines in {} octets; they read back as they were",
        file.len()
    ))
}

fn main() -> ExitCode {
    let arguments: Vec<PathBuf> = std::env::args_os().map(PathBuf::from).collect();
    let done = match &arguments[..] {
        [_, input, output] => run(input, output),
        _ => Err("usage: pbm-to-page IN.pbm OUT".to_string()),
    };
    match done {
        Ok(said) => {
            println!("{said}");
            ExitCode::SUCCESS
        }
        Err(why) => {
            eprintln!("pbm-to-page: {why}");
            ExitCode::FAILURE
        }
    }
}
