//! The calls as `include/dacom450.h` has them: the answer is lent, and what
//! comes back is 0 or a refusal as one number
//! ([`Refusal::of`](crate::Refusal::of)).

use crate::{Bitmap, Check, File, Frames, Page, Part, Records, Words};

extern "C" {
    fn dacom_read_part(
        octets: *const u8,
        octets_n: usize,
        count: u64,
        state: u64,
        black: u64,
        white: u64,
        x: u64,
        out: *mut u8,
        out_n: usize,
        answer: *mut Part,
    ) -> u64;

    fn dacom_read_page(
        file: *const u8,
        file_n: usize,
        check: *const Check,
        out: *mut u8,
        out_n: usize,
        answer: *mut Page,
    ) -> u64;

    fn dacom_write_page(
        bitmap: *const u8,
        bitmap_n: usize,
        settings: u64,
        rate: u64,
        check: *const Check,
        out: *mut u8,
        out_n: usize,
        answer: *mut File,
    ) -> u64;

    fn dacom_words_of_bitmap(
        bitmap: *const u8,
        bitmap_n: usize,
        out: *mut i16,
        out_n: usize,
        answer: *mut Words,
    ) -> u64;

    fn dacom_bitmap_of_words(
        words: *const i16,
        words_n: usize,
        out: *mut u8,
        out_n: usize,
        answer: *mut Bitmap,
    ) -> u64;

    fn dacom_find_frames(
        octets: *const u8,
        octets_n: usize,
        check: *const Check,
        list: *mut u64,
        list_n: usize,
        answer: *mut Frames,
    ) -> u64;

    fn dacom_records_of_capture(
        octets: *const u8,
        octets_n: usize,
        list: *const u64,
        list_n: usize,
        out: *mut u8,
        out_n: usize,
        answer: *mut Records,
    ) -> u64;
}

// SAFETY, of each call below: each pointer is that of a reference, or with its
// length that of a slice, and the mutable ones are lent to nobody else.

// The parameters are those of the C call.
#[allow(clippy::too_many_arguments)]
pub fn read_part(
    octets: &[u8],
    count: u64,
    state: u64,
    black: u64,
    white: u64,
    x: u64,
    out: &mut [u8],
    answer: &mut Part,
) -> u64 {
    unsafe {
        dacom_read_part(
            octets.as_ptr(),
            octets.len(),
            count,
            state,
            black,
            white,
            x,
            out.as_mut_ptr(),
            out.len(),
            answer,
        )
    }
}

pub fn read_page(file: &[u8], check: &Check, out: &mut [u8], answer: &mut Page) -> u64 {
    unsafe {
        dacom_read_page(
            file.as_ptr(),
            file.len(),
            check,
            out.as_mut_ptr(),
            out.len(),
            answer,
        )
    }
}

pub fn write_page(
    bitmap: &[u8],
    settings: u64,
    rate: u64,
    check: &Check,
    out: &mut [u8],
    answer: &mut File,
) -> u64 {
    unsafe {
        dacom_write_page(
            bitmap.as_ptr(),
            bitmap.len(),
            settings,
            rate,
            check,
            out.as_mut_ptr(),
            out.len(),
            answer,
        )
    }
}

pub fn words_of_bitmap(bitmap: &[u8], out: &mut [i16], answer: &mut Words) -> u64 {
    unsafe {
        dacom_words_of_bitmap(
            bitmap.as_ptr(),
            bitmap.len(),
            out.as_mut_ptr(),
            out.len(),
            answer,
        )
    }
}

pub fn bitmap_of_words(words: &[i16], out: &mut [u8], answer: &mut Bitmap) -> u64 {
    unsafe {
        dacom_bitmap_of_words(
            words.as_ptr(),
            words.len(),
            out.as_mut_ptr(),
            out.len(),
            answer,
        )
    }
}

pub fn find_frames(octets: &[u8], check: &Check, list: &mut [u64], answer: &mut Frames) -> u64 {
    unsafe {
        dacom_find_frames(
            octets.as_ptr(),
            octets.len(),
            check,
            list.as_mut_ptr(),
            list.len(),
            answer,
        )
    }
}

pub fn records_of_capture(
    octets: &[u8],
    list: &[u64],
    out: &mut [u8],
    answer: &mut Records,
) -> u64 {
    unsafe {
        dacom_records_of_capture(
            octets.as_ptr(),
            octets.len(),
            list.as_ptr(),
            list.len(),
            out.as_mut_ptr(),
            out.len(),
            answer,
        )
    }
}
