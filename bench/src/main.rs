//! Reads and writes pages, and finds frames in raw captures, with the proved archive, in C, and with the plain reference, and tells how they compare.

use std::hint::black_box;
use std::process::ExitCode;
use std::time::{Duration, Instant};

use dacom450::{calls, most_list_numbers, Check, File, Frames, Page, LOW_BIT_FIRST};
use reference::capture::find_frames;
use reference::file::{read, write};
use reference::random::Random;
use reference::register::HandedIn;

type ReadCall = fn(&[u8], &Check, &mut [u8], &mut Page) -> u64;
type WriteCall = fn(&[u8], u64, u64, &Check, &mut [u8], &mut File) -> u64;
type FindCall = fn(&[u8], &Check, &mut [u64], &mut Frames) -> u64;

extern "C" {
    fn plain_read_page(
        file: *const u8,
        n: usize,
        check: *const Check,
        out: *mut u8,
        room: usize,
        answer: *mut Page,
    ) -> u64;
    fn plain_write_page(
        bitmap: *const u8,
        n: usize,
        settings: u64,
        rate: u64,
        check: *const Check,
        out: *mut u8,
        room: usize,
        answer: *mut File,
    ) -> u64;
    fn plain_find_frames(
        octets: *const u8,
        n: usize,
        check: *const Check,
        list: *mut u64,
        list_n: usize,
        answer: *mut Frames,
    ) -> u64;
}

// SAFETY, of each: each pointer is that of a reference, or with its length that of a slice, and the mutable ones are lent to nobody else.

fn plain_read(file: &[u8], check: &Check, out: &mut [u8], answer: &mut Page) -> u64 {
    unsafe {
        plain_read_page(
            file.as_ptr(),
            file.len(),
            check,
            out.as_mut_ptr(),
            out.len(),
            answer,
        )
    }
}

fn plain_write(
    bitmap: &[u8],
    settings: u64,
    rate: u64,
    check: &Check,
    out: &mut [u8],
    answer: &mut File,
) -> u64 {
    unsafe {
        plain_write_page(
            bitmap.as_ptr(),
            bitmap.len(),
            settings,
            rate,
            check,
            out.as_mut_ptr(),
            out.len(),
            answer,
        )
    }
}

fn plain_find(octets: &[u8], check: &Check, list: &mut [u64], answer: &mut Frames) -> u64 {
    unsafe {
        plain_find_frames(
            octets.as_ptr(),
            octets.len(),
            check,
            list.as_mut_ptr(),
            list.len(),
            answer,
        )
    }
}

const LINES: [usize; 4] = [2, 200, 2200, 6000];
const PAGES: [&str; 3] = ["white", "text", "noise"];
const CAPTURES: [&str; 2] = ["noise", "sample"];
const OCTETS: usize = 4 << 20;
const DETAIL: u64 = 4;
const RATE: u64 = 4800;
const CHECK: Check = Check {
    generator: 425,
    start: 0,
    first_bit: 0,
    compare: 1,
    order: LOW_BIT_FIRST,
};
const HANDED_IN: HandedIn = HandedIn {
    generator: CHECK.generator,
    start: CHECK.start,
    first_bit: CHECK.first_bit,
    compare: CHECK.compare,
    order: CHECK.order,
};

const USAGE: &str = "\
usage: bench                                times every page and capture, proved, in C and by the reference
       bench once SIDE CALL PAGE LINES      one call, to be counted by callgrind
                                            SIDE proved or c or reference or nothing, CALL read or write, PAGE white or text or noise
       bench once SIDE find CAPTURE OCTETS  the same, CAPTURE noise or sample";

fn main() -> ExitCode {
    let arguments: Vec<String> = std::env::args().skip(1).collect();
    let words: Vec<&str> = arguments.iter().map(String::as_str).collect();
    match words[..] {
        [] => {
            table();
            println!();
            table_of_captures();
        }
        ["once", side, "find", capture, octets] => {
            match (octets.parse(), CAPTURES.contains(&capture)) {
                (Ok(octets), true) => return find_once(side, capture, octets),
                _ => return usage(),
            }
        }
        ["once", side, call, page, lines] => match (lines.parse(), PAGES.contains(&page)) {
            (Ok(lines), true) => return once(side, call, page, lines),
            _ => return usage(),
        },
        _ => return usage(),
    }
    ExitCode::SUCCESS
}

fn usage() -> ExitCode {
    eprintln!("{USAGE}");
    ExitCode::FAILURE
}

/// A page's bitmap and its file.
struct Job {
    bitmap: Vec<u8>,
    file: Vec<u8>,
}

impl Job {
    fn of(page: &str, lines: usize) -> Job {
        let bitmap = bitmap(page, lines);
        let file = write::write_page(&bitmap, DETAIL, RATE, HANDED_IN, usize::MAX)
            .expect("the page can be told");
        Job { bitmap, file }
    }
}

/// A page: white; the transcript's lines from the first course on, over and over; the form; or noise, in which every pel is black by one chance in two.
fn bitmap(page: &str, lines: usize) -> Vec<u8> {
    let mut octets = vec![190, 6, (lines % 256) as u8, (lines / 256) as u8];
    match page {
        "white" => octets.resize(4 + 216 * lines, 0),
        "form" => {
            let sample = include_bytes!("../../samples/form.pbm");
            octets.extend(&sample[sample.len() - 216 * lines..]);
        }
        "text" => {
            let sample = include_bytes!("../../samples/transcript.pbm");
            let rows = &sample[sample.len() - 216 * 2200..];
            let first = if lines < 2200 { 560 } else { 0 };
            octets.extend(
                rows[216 * first..]
                    .iter()
                    .chain(rows.iter().cycle())
                    .take(216 * lines),
            );
        }
        _ => {
            let mut random = Random::new(450);
            octets.extend(
                (0..216 * lines)
                    .map(|i| random.number() as u8 & if i % 216 == 215 { 252 } else { 255 }),
            );
            let end = octets.len();
            octets[end - 1] &= 248;
            octets[end - 1 - 216] &= 248;
        }
    }
    octets
}

fn read_by(call: ReadCall, job: &Job, out: &mut [u8]) {
    let mut answer = Page::default();
    let r = call(&job.file, &CHECK, out, &mut answer);
    assert_eq!(r, 0, "the file is read");
    black_box(answer);
}

fn write_by(call: WriteCall, job: &Job, out: &mut [u8]) {
    let mut answer = File::default();
    let r = call(&job.bitmap, DETAIL, RATE, &CHECK, out, &mut answer);
    assert_eq!(r, 0, "the page is written");
    assert_eq!(answer.octets as usize, job.file.len());
}

/// One call of one side, into an output that was not cleared first.
fn run(side: &str, call: &str, job: &Job, out: &mut [u8]) -> bool {
    match (side, call) {
        ("proved", "read") => read_by(calls::read_page, job, out),
        ("c", "read") => read_by(plain_read, job, out),
        ("reference", "read") => drop(black_box(
            read::read_page(&job.file, HANDED_IN, out.len()).expect("the file is read"),
        )),
        ("proved", "write") => write_by(calls::write_page, job, out),
        ("c", "write") => write_by(plain_write, job, out),
        ("reference", "write") => drop(black_box(
            write::write_page(&job.bitmap, DETAIL, RATE, HANDED_IN, out.len())
                .expect("the page is written"),
        )),
        ("nothing", _) => {}
        _ => return false,
    }
    true
}

fn once(side: &str, call: &str, page: &str, lines: usize) -> ExitCode {
    let job = Job::of(page, lines);
    let mut out = vec![0u8; job.bitmap.len().max(job.file.len())];
    match run(side, call, &job, &mut out) {
        true => ExitCode::SUCCESS,
        false => usage(),
    }
}

/// The shortest time of a call, of as many as half a second has, seven at least.
fn shortest(mut call: impl FnMut()) -> Duration {
    let mut best = Duration::MAX;
    let start = Instant::now();
    let mut calls = 0;
    while calls < 7 || start.elapsed() < Duration::from_millis(500) {
        let from = Instant::now();
        call();
        best = best.min(from.elapsed());
        calls += 1;
    }
    best
}

fn table() {
    println!("| call | page | lines | proved, µs | pages a second | reference / proved | proved / C | proved / clearing |");
    println!("|---|---|---:|---:|---:|---:|---:|---:|");
    for call in ["read", "write"] {
        // Not timed: a page whose runs end at the right edge.
        check(call, "form", 440);
        for page in PAGES {
            for lines in LINES {
                row(call, page, lines);
            }
        }
    }
}

/// A page on which both sides do as the reference does.
fn check(call: &str, page: &str, lines: usize) -> Job {
    let job = Job::of(page, lines);
    let mut out = vec![0u8; job.bitmap.len().max(job.file.len())];
    for side in ["proved", "c"] {
        out.fill(0xA5);
        run(side, call, &job, &mut out);
        let expected = if call == "read" {
            &job.bitmap
        } else {
            &job.file
        };
        assert_eq!(
            &out[..expected.len()],
            &expected[..],
            "{side} {call} {page} {lines}"
        );
    }
    job
}

fn row(call: &str, page: &str, lines: usize) {
    let job = check(call, page, lines);
    let mut out = vec![0u8; job.bitmap.len().max(job.file.len())];
    let [proved, c, reference] = ["proved", "c", "reference"]
        .map(|side| shortest(|| assert!(run(side, call, &job, &mut out))));
    let clearing = shortest(|| black_box(&mut out[..job.bitmap.len()]).fill(0));
    let ratio = |a: Duration, b: Duration| a.as_secs_f64() / b.as_secs_f64();
    println!(
        "| {call} | {page} | {lines} | {:.1} | {:.0} | {:.1} | {:.2} | {:.1} |",
        proved.as_secs_f64() * 1e6,
        1.0 / proved.as_secs_f64(),
        ratio(reference, proved),
        ratio(proved, c),
        ratio(proved, clearing),
    );
}

/// A raw capture of so many octets: noise, in which every bit is 1 by one chance in two; or the sample, over and over.
fn capture(name: &str, octets: usize) -> Vec<u8> {
    match name {
        "sample" => {
            let sample = include_bytes!("../../samples/transcript.capture");
            sample.iter().copied().cycle().take(octets).collect()
        }
        _ => {
            let mut random = Random::new(450);
            (0..octets).map(|_| random.number() as u8).collect()
        }
    }
}

/// One search by one side with a list that suffices, which it goes through the capture once for. Answers the numbers listed.
fn find(side: &str, capture: &[u8], list: &mut [u64]) -> Option<usize> {
    let call: FindCall = match side {
        "proved" => calls::find_frames,
        "c" => plain_find,
        "reference" => {
            let found = find_frames(capture, HANDED_IN, list.len()).expect("the list suffices");
            list[..found.len()].copy_from_slice(&found);
            return Some(found.len());
        }
        "nothing" => return Some(0),
        _ => return None,
    };
    let mut answer = Frames::default();
    let r = call(capture, &CHECK, list, &mut answer);
    assert_eq!(r, 0, "the list suffices");
    Some(2 * answer.frames as usize)
}

fn find_once(side: &str, name: &str, octets: usize) -> ExitCode {
    let capture = capture(name, octets);
    let mut list = vec![0; most_list_numbers(octets)];
    match find(side, &capture, &mut list) {
        Some(_) => ExitCode::SUCCESS,
        None => usage(),
    }
}

fn table_of_captures() {
    println!("| capture | octets | frames | proved, MB a second | C, MB a second | reference / proved | proved / C |");
    println!("|---|---:|---:|---:|---:|---:|---:|");
    for name in CAPTURES {
        let capture = capture(name, OCTETS);
        let mut list = vec![0; most_list_numbers(OCTETS)];
        let found = |side, list: &mut [u64]| {
            list.fill(u64::MAX);
            let numbers = find(side, &capture, list).expect("a side");
            list[..numbers].to_vec()
        };
        let due = found("reference", &mut list);
        for side in ["proved", "c"] {
            assert_eq!(found(side, &mut list), due, "{side} {name}");
        }
        let [proved, c, reference] = ["proved", "c", "reference"].map(|side| {
            let time = shortest(|| assert!(find(side, &capture, black_box(&mut list)).is_some()));
            time.as_secs_f64()
        });
        let speed = |time: f64| OCTETS as f64 / time / 1e6;
        println!(
            "| {name} | {OCTETS} | {} | {:.1} | {:.1} | {:.1} | {:.2} |",
            due.len() / 2,
            speed(proved),
            speed(c),
            reference / proved,
            proved / c,
        );
    }
}
