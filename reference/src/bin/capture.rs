//! Makes a raw capture of a page file's frames, in noise, and sees to it that the reference finds them all and no others:
//!     cargo run --manifest-path reference/Cargo.toml --bin capture -- samples/transcript-4800.page samples/transcript.capture
//!
//! The frames are sent in order, each as its 585 bits. Between them is noise of any length, so that they start at all eight bits of an octet. Among it
//! are beginnings of the sync, also such as run into the sync of the next frame, and syncs whose check differs: alone, with as many bits behind them
//! as a frame has, and as frames of which a bit was turned. The same capture comes out each time.

use std::process::ExitCode;
use std::{env, fs};

use reference::capture::{bits, list, records_of_frames, starts, sync, FRAME, SYNC};
use reference::file::{END, RECORD};
use reference::frame::{CHECK, DATA};
use reference::listing::SETTING;
use reference::octets::{all_turned, packed};
use reference::random::{noise, turn_one, Random};
use reference::register::{Order, Setting};

const SEED: u64 = 450;

fn main() -> ExitCode {
    let names: Vec<String> = env::args().skip(1).collect();
    let [page, capture] = &names[..] else {
        eprintln!("usage: capture PAGE CAPTURE");
        return ExitCode::from(2);
    };
    match made(page, capture) {
        Ok(line) => println!("{line}"),
        Err(why) => {
            eprintln!("capture: {why}");
            return ExitCode::FAILURE;
        }
    }
    ExitCode::SUCCESS
}

fn made(page: &str, name: &str) -> Result<String, String> {
    let file = fs::read(page).map_err(|error| format!("{page}: {error}"))?;
    let (records, end) = file.as_chunks::<RECORD>();
    if end != END {
        return Err(format!("{page}: does not end with its end record"));
    }
    let (octets, sent) = capture_of(records);

    let found = starts(&bits(&octets), SETTING);
    if found != sent {
        return Err("other frames are found than were sent; take another seed".to_string());
    }
    if (0..8).any(|bit| found.iter().all(|start| start % 8 != bit)) {
        return Err("the frames do not start at all eight bits; take another seed".to_string());
    }
    if records_of_frames(&octets, &list(&found), file.len()) != Ok(file) {
        return Err("the frames found are not the page file".to_string());
    }
    fs::write(name, &octets).map_err(|error| format!("{name}: {error}"))?;

    let by_rfc = Setting {
        order: Order::HighFirst,
        ..SETTING
    };
    let both = starts(&bits(&octets), by_rfc).len();
    Ok(format!(
        "{name}: {} octets, {} frames, of which {} start at bit 0, and {} syncs that start none; high bit first {both} frames agree",
        octets.len(),
        found.len(),
        found.iter().filter(|start| *start % 8 == 0).count(),
        others(&bits(&octets), &found),
    ))
}

/// The syncs outside the frames.
fn others(bits: &[u8], frames: &[usize]) -> usize {
    let sync = sync();
    let is_outside = |i: &usize| {
        let mut frames = frames.iter();
        frames.all(|start| !(*start..start + FRAME).contains(i))
    };
    let syncs = (0..bits.len()).filter(|i| bits[*i..].starts_with(&sync));
    syncs.filter(is_outside).count()
}

/// The octets of a capture of these records' frames, and the bits at which those start.
fn capture_of(records: &[[u8; RECORD]]) -> (Vec<u8>, Vec<usize>) {
    let mut random = Random::new(SEED);
    let mut capture = noise(&mut random, 1001);
    let mut starts = Vec::new();
    for record in records {
        let frame = bits(&all_turned(&record[2..]))[..FRAME].to_vec();
        capture.extend(gap(&mut random, &frame));
        starts.push(capture.len());
        capture.extend(frame);
    }
    capture.extend(noise(&mut random, 700));
    capture.extend(sync());
    capture.extend(noise(&mut random, 400));
    let more = (8 - capture.len() % 8) % 8;
    capture.extend(noise(&mut random, more));
    (packed(&capture), starts)
}

/// What stands before a frame.
fn gap(random: &mut Random, frame: &[u8]) -> Vec<u8> {
    let length = random.below(64) as usize;
    let mut gap = noise(random, length);
    match random.below(32) {
        // None at all.
        0..=3 => gap.clear(),
        // A beginning of the sync, or a sync that the next one overlaps or follows.
        4..=11 => {
            let length = random.pick(&[1, 3, 4, 7, 8, 13, 14, 17, 18, 20, 21, 22, 23, SYNC]);
            gap.extend(&sync()[..length]);
        }
        // A sync and what is no frame.
        12 => {
            gap.extend(sync());
            gap.extend(noise(random, FRAME - SYNC));
        }
        // The frame itself, damaged.
        13 => {
            let mut damaged = frame.to_vec();
            let (from, to) = random.pick(&[(DATA, CHECK), (CHECK, FRAME), (0, SYNC)]);
            turn_one(random, &mut damaged[from..to]);
            gap.extend(damaged);
        }
        // A sync alone, somewhere.
        14..=15 => {
            gap.extend(sync());
            gap.extend(noise(random, length));
        }
        // A line that is idle.
        16..=17 => gap.extend(vec![random.below(2) as u8; 100]),
        _ => {}
    }
    gap
}
