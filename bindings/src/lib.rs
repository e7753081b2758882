//! Dacom 450 facsimile pages: the proved library for Rust programs.
//!
//! It reads a page file into a bitmap and writes a bitmap as a page file
//! ([`read_page`], [`write_page`]), gives a page's run words and the page of run
//! words ([`words_of_bitmap`], [`bitmap_of_words`]), finds the frames in a raw
//! capture of the line's bits and gives them as a page file ([`find_frames`],
//! [`records_of_capture`]), and reads one data part ([`read_part`]). The two forms
//! of a page, what each call judges and in which order, and what the numbers of
//! refusals mean, is said in `include/dacom450.h`.
//!
//! Any values may be handed in. A call writes into the memory that it is lent
//! and nowhere else; where it refuses, it leaves all of that as it was.
//!
//! # Building
//!
//! Every call goes to a static archive, which the Rattle kit proves and builds
//! at the repository's root:
//!
//! ```text
//! tools/build exports
//! ```
//!
//! A program then names this package by its path, as
//! `dacom450 = { path = "../pantirubok/bindings" }`.
//!
//! # Example
//!
//! A white page of two lines, written as a page file and read back:
//!
//! ```
//! use dacom450::{bitmap_octets, most_file_octets, read_page, write_page, Check, HIGH_BIT_FIRST};
//!
//! const DETAIL: u64 = 4;
//! let check = Check { generator: 425, start: 0, first_bit: 0, compare: 1, order: HIGH_BIT_FIRST };
//!
//! let mut bitmap = vec![0; bitmap_octets(2)];
//! bitmap[..4].copy_from_slice(&[190, 6, 2, 0]); // 1726 pels, 2 lines
//!
//! let mut file = vec![0; most_file_octets(2)];
//! let written = write_page(&bitmap, DETAIL, 4800, &check, &mut file)?;
//! file.truncate(written.octets as usize);
//!
//! let mut again = vec![0; bitmap_octets(2)];
//! let page = read_page(&file, &check, &mut again)?;
//! assert_eq!((page.lines, page.settings), (2, DETAIL));
//! assert_eq!(again, bitmap);
//! # Ok::<(), dacom450::Refusal>(())
//! ```

use std::error::Error;
use std::fmt;

pub mod calls;

/// The most lines of a page.
pub const MOST_LINES: usize = 6000;

/// The most columns that one data part lays.
pub const MOST_PART_COLUMNS: usize = 9271;

/// The octets of a bitmap of so many lines.
pub const fn bitmap_octets(lines: usize) -> usize {
    4 + 216 * lines
}

/// A room in which the page file of so many lines always fits.
pub const fn most_file_octets(lines: usize) -> usize {
    551 * lines + 230
}

/// A room in which the run words of so many lines always fit.
pub const fn most_words(lines: usize) -> usize {
    1727 * lines + 1
}

/// The octets of a page file of so many frames.
pub const fn records_octets(frames: usize) -> usize {
    76 * frames + 2
}

/// A list in which the frames of a capture of so many octets always fit, in
/// numbers: two for each 585 bits.
pub const fn most_list_numbers(octets: usize) -> usize {
    // An octet is eight bits, and 585 octets are eight times 585 of them.
    2 * (8 * (octets / 585) + 8 * (octets % 585) / 585)
}

/// The [`order`](Check::order) of the scope paper: the check's low bit is sent first.
pub const LOW_BIT_FIRST: u64 = 0;

/// The [`order`](Check::order) of real frames: the check's high bit is sent first. By
/// it, generator 425, start 0 and first bit 0 fit the five frames in the appendix of
/// RFC 798.
pub const HIGH_BIT_FIRST: u64 = 1;

/// A struct of the header, with the numbers in its order.
macro_rules! of_numbers {
    ($(#[$about:meta])* $name:ident [$n:literal] { $($(#[$of:meta])* $field:ident,)* }) => {
        $(#[$about])*
        #[repr(C)]
        #[derive(Clone, Copy, Debug, Default, PartialEq, Eq)]
        pub struct $name {
            $($(#[$of])* pub $field: u64,)*
        }

        /// The numbers in the struct's order, as the struct, in place.
        impl<'a> From<&'a mut [u64; $n]> for &'a mut $name {
            fn from(numbers: &'a mut [u64; $n]) -> &'a mut $name {
                const { assert!(size_of::<$name>() == size_of::<[u64; $n]>()) };
                // SAFETY: in C's layout the struct is just so many u64.
                unsafe { &mut *std::ptr::from_mut(numbers).cast() }
            }
        }
    };
}

of_numbers! {
    /// What the check of a frame is made by.
    Check [5] {
        /// The generator's twelve low coefficients: an odd number below 4096.
        generator,
        /// What the register starts from: below 4096.
        start,
        /// The first bit of a frame that the register takes: 0 or 24.
        first_bit,
        /// Whether checks are compared: 1 or 0.
        compare,
        /// The order of the check field's bits: [`LOW_BIT_FIRST`] or [`HIGH_BIT_FIRST`].
        order,
    }
}

of_numbers! {
    /// What [`read_part`] answers.
    Part [5] {
        /// The bits taken.
        bits,
        /// The columns laid; an open one is not among them.
        columns,
        /// The state at the end, by its two pels, or 4 where the last column is open.
        end,
        /// The black field length at the end.
        black,
        /// The white field length at the end.
        white,
    }
}

of_numbers! {
    /// What [`read_page`] answers.
    Page [5] {
        /// The octets of the file that were used.
        octets,
        lines,
        /// Speed 8, detail 4, 14 inch 2, 5.5 inch 1.
        settings,
        /// The data bits.
        bits,
        columns,
    }
}

of_numbers! {
    /// What [`write_page`] answers.
    File [1] {
        /// The octets written.
        octets,
    }
}

of_numbers! {
    /// What [`words_of_bitmap`] answers.
    Words [1] {
        /// The words written, the last 0 among them.
        words,
    }
}

of_numbers! {
    /// What [`bitmap_of_words`] answers.
    Bitmap [2] {
        /// The octets written.
        octets,
        /// The words used, the last 0 among them.
        words,
    }
}

of_numbers! {
    /// What [`find_frames`] answers.
    Frames [1] {
        /// The frames found.
        frames,
    }
}

of_numbers! {
    /// What [`records_of_capture`] answers.
    Records [1] {
        /// The octets written.
        octets,
    }
}

/// Why a call did not do what it was asked for.
#[derive(Clone, Copy, Debug, PartialEq, Eq)]
pub struct Refusal {
    /// Its number in the list of `include/dacom450.h`.
    pub number: u64,
    /// The index of the record that it falls at, from 0; 0 where there are no
    /// records.
    pub record: u64,
    /// Of 11, a data part that has no reading: where it stops, the length in bits of
    /// its longest beginning that has one, 0 to 511. 0 of every other number.
    pub bit: u64,
}

impl Refusal {
    /// The refusal in what a call of [`calls`] returns, or nothing where that is
    /// 0.
    pub const fn of(returned: u64) -> Option<Refusal> {
        if returned == 0 {
            return None;
        }
        Some(Refusal {
            number: returned & 0xFF,
            record: returned >> 24,
            bit: returned >> 8 & 0xFFFF,
        })
    }
}

impl fmt::Display for Refusal {
    fn fmt(&self, f: &mut fmt::Formatter) -> fmt::Result {
        write!(f, "refused {} at {}", self.number, self.record)?;
        if self.number == 11 {
            write!(f, " bit {}", self.bit)?;
        }
        Ok(())
    }
}

impl Error for Refusal {}

/// The answer of a call, if it did not refuse.
fn answered<A: Default>(call: impl FnOnce(&mut A) -> u64) -> Result<A, Refusal> {
    let mut answer = A::default();
    match Refusal::of(call(&mut answer)) {
        None => Ok(answer),
        Some(refusal) => Err(refusal),
    }
}

/// Reads one data part: the first `count` bits of sent octets, from a state (its
/// two pels as a number, top pel first), the two field lengths, and X, the index
/// in its row pair of the last column laid before, 0 to 1725. Writes a column an
/// octet, by its two pels.
///
/// A page's first part has X 1725, whatever its header says. The next part's X is
/// (x + columns + 1 if open) modulo 1726, where open is that `end` is 4.
///
/// The answer does not tell a part that ends on a closing word from one that ends
/// in the same state by another step. So the caller cannot judge 12, that an image
/// frame follows one which ended on a closing word; [`read_page`] judges it.
pub fn read_part(
    octets: &[u8],
    count: u64,
    state: u64,
    black: u64,
    white: u64,
    x: u64,
    out: &mut [u8],
) -> Result<Part, Refusal> {
    answered(|answer| calls::read_part(octets, count, state, black, white, x, out, answer))
}

/// Reads a page file and writes its page as a bitmap.
pub fn read_page(file: &[u8], check: &Check, out: &mut [u8]) -> Result<Page, Refusal> {
    answered(|answer| calls::read_page(file, check, out, answer))
}

/// Writes the page of a bitmap as a page file, with these settings (speed 8,
/// detail 4, 14 inch 2, 5.5 inch 1) and at a rate of 2400, 4800 or 9600 bits a
/// second.
pub fn write_page(
    bitmap: &[u8],
    settings: u64,
    rate: u64,
    check: &Check,
    out: &mut [u8],
) -> Result<File, Refusal> {
    answered(|answer| calls::write_page(bitmap, settings, rate, check, out, answer))
}

/// Writes the run words of a bitmap.
pub fn words_of_bitmap(bitmap: &[u8], out: &mut [i16]) -> Result<Words, Refusal> {
    answered(|answer| calls::words_of_bitmap(bitmap, out, answer))
}

/// Writes the bitmap of run words.
pub fn bitmap_of_words(words: &[i16], out: &mut [u8]) -> Result<Bitmap, Refusal> {
    answered(|answer| calls::bitmap_of_words(words, out, answer))
}

/// Looks for frames in a raw capture: octets in sent order, the high bit of an
/// octet first, with no records. `check` must compare. Lists each frame as two
/// numbers, the octet and the bit (0 the high one) where it starts;
/// [`most_list_numbers`] always suffices, and with a list so long the capture is
/// gone through once only.
pub fn find_frames(octets: &[u8], check: &Check, list: &mut [u64]) -> Result<Frames, Refusal> {
    answered(|answer| calls::find_frames(octets, check, list, answer))
}

/// Writes the frames of a list, as [`find_frames`] makes it, as a page file of
/// [`records_octets`]. A number behind the last whole entry is not read.
pub fn records_of_capture(octets: &[u8], list: &[u64], out: &mut [u8]) -> Result<Records, Refusal> {
    answered(|answer| calls::records_of_capture(octets, list, out, answer))
}
