//! Each call with null pointers of length 0, as a C program may hand them in.

use std::ptr::{null, null_mut};

use dacom450::*;

extern "C" {
    fn dacom_read_part(
        octets: *const u8,
        octets_n: usize,
        count: u64,
        state: u64,
        black: u64,
        white: u64,
        x: u64,
        out: *mut u8,
        out_n: usize,
        answer: *mut Part,
    ) -> u64;

    fn dacom_read_page(
        file: *const u8,
        file_n: usize,
        check: *const Check,
        out: *mut u8,
        out_n: usize,
        answer: *mut Page,
    ) -> u64;

    fn dacom_write_page(
        bitmap: *const u8,
        bitmap_n: usize,
        settings: u64,
        rate: u64,
        check: *const Check,
        out: *mut u8,
        out_n: usize,
        answer: *mut File,
    ) -> u64;

    fn dacom_words_of_bitmap(
        bitmap: *const u8,
        bitmap_n: usize,
        out: *mut i16,
        out_n: usize,
        answer: *mut Words,
    ) -> u64;

    fn dacom_bitmap_of_words(
        words: *const i16,
        words_n: usize,
        out: *mut u8,
        out_n: usize,
        answer: *mut Bitmap,
    ) -> u64;

    fn dacom_find_frames(
        octets: *const u8,
        octets_n: usize,
        check: *const Check,
        list: *mut u64,
        list_n: usize,
        answer: *mut Frames,
    ) -> u64;

    fn dacom_records_of_capture(
        octets: *const u8,
        octets_n: usize,
        list: *const u64,
        list_n: usize,
        out: *mut u8,
        out_n: usize,
        answer: *mut Records,
    ) -> u64;
}

// SAFETY, of each call below: a null pointer has length 0, which the header allows.

const CHECK: Check = Check {
    generator: 425,
    start: 0,
    first_bit: 0,
    compare: 1,
    order: LOW_BIT_FIRST,
};

#[test]
fn no_octets_are_no_data_part_unless_of_no_bits() {
    let mut part = Part::default();
    let mut read =
        |count| unsafe { dacom_read_part(null(), 0, count, 0, 7, 7, 0, null_mut(), 0, &mut part) };
    assert_eq!(read(0), 0);
    assert_eq!(read(1), 8);
}

#[test]
fn no_octets_are_no_page_file() {
    let mut page = Page::default();
    let returned = unsafe { dacom_read_page(null(), 0, &CHECK, null_mut(), 0, &mut page) };
    assert_eq!(returned, 1);
}

/// The bitmap of two white lines.
fn bitmap() -> Vec<u8> {
    let mut bitmap = vec![0; bitmap_octets(2)];
    bitmap[..4].copy_from_slice(&[190, 6, 2, 0]);
    bitmap
}

#[test]
fn no_octets_are_no_bitmap_and_no_room_for_a_file() {
    let (none, whole) = (null(), bitmap());
    let mut file = File::default();
    let mut write = |bitmap, n| unsafe {
        dacom_write_page(bitmap, n, 4, 4800, &CHECK, null_mut(), 0, &mut file)
    };
    assert_eq!(write(none, 0), 17);
    assert_eq!(write(whole.as_ptr(), whole.len()), 16);
}

#[test]
fn no_octets_are_no_bitmap_and_no_words_no_page() {
    let whole = bitmap();
    let (mut words, mut bitmap) = (Words::default(), Bitmap::default());
    unsafe {
        let returned = dacom_words_of_bitmap(null(), 0, null_mut(), 0, &mut words);
        assert_eq!(returned, 17);
        let (octets, n) = (whole.as_ptr(), whole.len());
        let returned = dacom_words_of_bitmap(octets, n, null_mut(), 0, &mut words);
        assert_eq!(returned, 16);
        let returned = dacom_bitmap_of_words(null(), 0, null_mut(), 0, &mut bitmap);
        assert_eq!(returned, 22);
    }
}

#[test]
fn no_octets_have_no_frames() {
    let mut frames = Frames { frames: 9 };
    let returned = unsafe { dacom_find_frames(null(), 0, &CHECK, null_mut(), 0, &mut frames) };
    assert_eq!((returned, frames.frames), (0, 0));
}

#[test]
fn a_list_of_none_gives_the_end_record() {
    let mut records = Records { octets: 9 };
    let mut out = [7; 3];
    unsafe {
        let none = dacom_records_of_capture(null(), 0, null(), 0, null_mut(), 0, &mut records);
        assert_eq!((none, records.octets), (16, 9));
        let (room, n) = (out.as_mut_ptr(), out.len());
        let end = dacom_records_of_capture(null(), 0, null(), 0, room, n, &mut records);
        assert_eq!((end, records.octets), (0, 2));
        let entry = [0, 0];
        let outside = dacom_records_of_capture(null(), 0, entry.as_ptr(), 2, room, n, &mut records);
        assert_eq!(outside, 25);
    }
    assert_eq!(out, [2, 58, 7]);
}
