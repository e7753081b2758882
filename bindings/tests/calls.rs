//! Each call once where it answers, and once where it refuses.

use dacom450::*;

const CHECK: Check = Check {
    generator: 425,
    start: 0,
    first_bit: 0,
    compare: 1,
    order: LOW_BIT_FIRST,
};

/// Two white lines.
fn bitmap() -> Vec<u8> {
    let mut bitmap = vec![0; bitmap_octets(2)];
    bitmap[..4].copy_from_slice(&[190, 6, 2, 0]);
    bitmap
}

/// Detail mode, at 4800 bits a second.
fn file_by(check: &Check) -> Vec<u8> {
    let mut out = vec![0; most_file_octets(2)];
    let file = write_page(&bitmap(), 4, 4800, check, &mut out).expect("a page file");
    out.truncate(file.octets as usize);
    out
}

fn file() -> Vec<u8> {
    file_by(&CHECK)
}

fn refusal<T>(number: u64, record: u64) -> Result<T, Refusal> {
    Err(Refusal {
        number,
        record,
        bit: 0,
    })
}

fn no_reading<T>(record: u64, bit: u64) -> Result<T, Refusal> {
    Err(Refusal {
        number: 11,
        record,
        bit,
    })
}

#[test]
fn a_page_is_written_and_read() {
    let file = file();
    let mut out = vec![7; bitmap_octets(2)];
    let page = Page {
        octets: file.len() as u64,
        lines: 2,
        settings: 4,
        bits: 98,
        columns: 1726,
    };
    assert_eq!(read_page(&file, &CHECK, &mut out), Ok(page));
    assert_eq!(out, bitmap());
}

#[test]
fn a_refusal_names_the_record_and_changes_nothing() {
    let file = file();
    let mut out = vec![7; bitmap_octets(2)];
    assert_eq!(read_page(&file[..200], &CHECK, &mut out), refusal(1, 2));
    let mut page = Page {
        lines: 9,
        ..Page::default()
    };
    let returned = calls::read_page(&file, &CHECK, &mut out[1..], &mut page);
    assert_eq!(Refusal::of(returned), refusal::<()>(16, 3).err());
    assert_eq!(page.lines, 9);
    assert_eq!(out, vec![7; bitmap_octets(2)]);
}

#[test]
fn writing_must_compare() {
    let check = Check {
        compare: 0,
        ..CHECK
    };
    let mut out = vec![0; most_file_octets(2)];
    assert_eq!(
        write_page(&bitmap(), 4, 4800, &check, &mut out),
        refusal(20, 0)
    );
}

#[test]
fn the_order_is_0_or_1() {
    for order in [2, 3, 256, (1 << 32) + 1, u64::MAX] {
        for compare in [0, 1] {
            let check = Check {
                compare,
                order,
                ..CHECK
            };
            let mut out = vec![7; most_file_octets(2)];
            assert_eq!(read_page(&file(), &check, &mut out), refusal(20, 0));
            assert_eq!(
                write_page(&bitmap(), 4, 4800, &check, &mut out),
                refusal(20, 0)
            );
            assert_eq!(out, vec![7; most_file_octets(2)]);
        }
    }
}

#[test]
fn a_page_is_read_by_the_order_it_was_written_by() {
    let high_first = Check {
        order: HIGH_BIT_FIRST,
        ..CHECK
    };
    for (written, other) in [(CHECK, high_first), (high_first, CHECK)] {
        let file = file_by(&written);
        let mut out = vec![7; bitmap_octets(2)];
        assert_eq!(read_page(&file, &other, &mut out), refusal(5, 0));
        assert_eq!(out, vec![7; bitmap_octets(2)]);
        let not_compared = Check {
            compare: 0,
            ..other
        };
        for check in [written, not_compared] {
            out.fill(7);
            let page = read_page(&file, &check, &mut out).expect("a page");
            assert_eq!((page.lines, page.columns), (2, 1726));
            assert_eq!(out, bitmap());
        }
    }
}

/// The two orders differ in the bits 573 to 584 of each frame, and in nothing else.
#[test]
fn the_order_turns_the_check_field_about() {
    let high_first = Check {
        order: HIGH_BIT_FIRST,
        ..CHECK
    };
    let (low, high) = (file_by(&CHECK), file_by(&high_first));
    assert_eq!(low.len(), high.len());
    // The bits of an octet are stored turned about.
    let bit = |frame: &[u8], i: usize| frame[i / 8] >> (i % 8) & 1;
    for record in 0..low.len() / 76 {
        let [low, high] = [&low, &high].map(|file| &file[76 * record..][..76]);
        assert_eq!(low[..2], high[..2]);
        let (low, high) = (&low[2..], &high[2..]);
        for i in 0..8 * 74 {
            let at = match i {
                573..=584 => 573 + 584 - i,
                _ => i,
            };
            assert_eq!(bit(low, i), bit(high, at), "record {record} bit {i}");
        }
    }
}

#[test]
fn words_go_both_ways() {
    let mut words = vec![7; most_words(2)];
    let listed = words_of_bitmap(&bitmap(), &mut words);
    assert_eq!(listed, Ok(Words { words: 5 }));
    assert_eq!(words[..6], [1, 0, 1, 0, 0, 7]);
    let mut out = vec![7; bitmap_octets(2)];
    let drawn = Bitmap {
        octets: bitmap_octets(2) as u64,
        words: 5,
    };
    assert_eq!(bitmap_of_words(&words, &mut out), Ok(drawn));
    assert_eq!(out, bitmap());
    assert_eq!(words_of_bitmap(&out[1..], &mut words), refusal(17, 0));
    assert_eq!(bitmap_of_words(&[5, 0, 0], &mut out), refusal(22, 0));
}

/// From WW with a white length of 3: 011 closes a run of six, 10 moves to BW.
#[test]
fn a_data_part_is_read() {
    let mut out = [9; 9];
    let part = Part {
        bits: 5,
        columns: 8,
        end: 2,
        black: 7,
        white: 3,
    };
    let octets = [0b0111_0000];
    assert_eq!(read_part(&octets, 5, 0, 7, 3, 1725, &mut out), Ok(part));
    assert_eq!(out, [0, 0, 0, 0, 0, 0, 2, 2, 9]);
}

#[test]
fn a_start_of_a_data_part_is_judged() {
    let mut out = [9; 9];
    let mut read = |state, black, x| read_part(&[], 0, state, black, 3, x, &mut out);
    assert_eq!(read(4, 7, 1725), refusal(10, 0));
    assert_eq!(read(4, 8, 1725), refusal(9, 0));
    assert_eq!(read(3, 7, 1726), refusal(10, 0));
    assert_eq!(read(3, 8, 1726), refusal(9, 0));
    assert!(read(3, 7, 0).is_ok());
    assert_eq!(out, [9; 9]);
}

/// From WW with a white length of 3: 111 lays 7 columns and makes it 4, and 1100
/// closes a run of ten. Where that ends at the right edge the length falls.
#[test]
fn a_run_may_end_at_the_right_edge() {
    let mut out = [9; 10];
    let mut read = |x| read_part(&[0b1111_1000], 7, 0, 7, 3, x, &mut out);
    let part = |white| Part {
        bits: 7,
        columns: 10,
        end: 0,
        black: 7,
        white,
    };
    assert_eq!(read(1714), Ok(part(4)));
    assert_eq!(read(1715), Ok(part(3)));
    assert_eq!(read(1716), Ok(part(4)));
    assert_eq!(out, [0; 10]);
}

/// From BW: 0110 begins with the move 0, and 01010 with the moves 010 and 1.
#[test]
fn a_data_part_without_a_reading_says_where_it_stops() {
    let mut out = [9; 9];
    let mut read = |octet, count| read_part(&[octet], count, 2, 2, 2, 1725, &mut out);
    assert_eq!(read(0b0110_0000, 4), no_reading(0, 1));
    assert_eq!(read(0b0101_0000, 5), no_reading(0, 4));
    assert_eq!(read(0b1000_0000, 8), no_reading(0, 0));
    assert_eq!(out, [9; 9]);
}

/// The page's words are 13 of ones and 1101001. With the first bit turned, 0111111
/// closes the run and the next 1 moves to WB. From there, 84 more ones and 1101001
/// are moves up to the last two bits, 01: its 0 is one by itself.
#[test]
fn a_page_without_a_reading_says_where_it_stops() {
    const FIRST_DATA_BIT: usize = 24 + 37;
    let mut file = file();
    // The bits of an octet are stored turned about.
    file[2 * 76 + 2 + FIRST_DATA_BIT / 8] ^= 1 << (FIRST_DATA_BIT % 8);
    let mut out = vec![7; bitmap_octets(2)];
    let check = Check {
        compare: 0,
        ..CHECK
    };
    assert_eq!(read_page(&file, &CHECK, &mut out), refusal(5, 2));
    assert_eq!(read_page(&file, &check, &mut out), no_reading(2, 97));
    assert_eq!(out, vec![7; bitmap_octets(2)]);
}

#[test]
fn a_refusal_is_shown_with_its_bit_if_it_has_no_reading() {
    let shown = |returned| Refusal::of(returned).expect("a refusal").to_string();
    assert_eq!(
        shown(11 + (213 << 8) + (40 << 24)),
        "refused 11 at 40 bit 213"
    );
    assert_eq!(shown(11), "refused 11 at 0 bit 0");
    assert_eq!(shown(7 + (3 << 24)), "refused 7 at 3");
}

/// The 585 bits of each frame of a file as they are sent, each 0 or 1.
fn frames_of(file: &[u8]) -> Vec<Vec<u8>> {
    let records = file.chunks_exact(76).map(|record| &record[2..]);
    // The bits of an octet are stored turned about, and complemented.
    let sent = |frame: &[u8], i: usize| !frame[i / 8] >> (i % 8) & 1;
    records
        .map(|frame| (0..585).map(|i| sent(frame, i)).collect())
        .collect()
}

/// The octets of bits, the last one filled with 0.
fn packed(bits: &[u8]) -> Vec<u8> {
    let octet = |eight: &[u8]| {
        (0..)
            .zip(eight)
            .fold(0, |sum, (i, bit)| sum | bit << (7 - i))
    };
    bits.chunks(8).map(octet).collect()
}

/// A capture with so many 0 before each of a file's frames, and the frames' list.
fn capture_of(file: &[u8], before: usize) -> (Vec<u8>, Vec<u64>) {
    let (mut bits, mut list) = (Vec::new(), Vec::new());
    for frame in frames_of(file) {
        bits.extend(vec![0; before]);
        list.extend([bits.len() as u64 / 8, bits.len() as u64 % 8]);
        bits.extend(frame);
    }
    (packed(&bits), list)
}

#[test]
fn frames_are_found_and_come_back_as_the_file() {
    let file = file();
    for before in 0..16 {
        let (capture, list) = capture_of(&file, before);
        let mut found = vec![7; most_list_numbers(capture.len())];
        let frames = find_frames(&capture, &CHECK, &mut found);
        assert_eq!(frames, Ok(Frames { frames: 3 }));
        assert_eq!(found[..6], list);
        let mut out = vec![7; records_octets(3) + 1];
        let records = records_of_capture(&capture, &list, &mut out);
        let octets = records_octets(3) as u64;
        assert_eq!(records, Ok(Records { octets }));
        assert_eq!(out, [&file[..], &[7]].concat());
        let page = read_page(&out, &CHECK, &mut vec![0; bitmap_octets(2)]);
        assert_eq!(page.map(|page| page.lines), Ok(2));
    }
}

/// With a list just long enough, which the capture is gone through twice for.
#[test]
fn a_list_may_be_just_long_enough() {
    let (capture, list) = capture_of(&file(), 700);
    assert!(list.len() < most_list_numbers(capture.len()));
    let mut found = vec![7; 6];
    let frames = find_frames(&capture, &CHECK, &mut found);
    assert_eq!(frames, Ok(Frames { frames: 3 }));
    assert_eq!(found, list);
    let mut longer = vec![7; 9];
    let frames = find_frames(&capture, &CHECK, &mut longer);
    assert_eq!(frames, Ok(Frames { frames: 3 }));
    assert_eq!(longer, [&list[..], &[7; 3]].concat());
}

#[test]
fn a_search_that_is_refused_changes_nothing() {
    let (capture, _) = capture_of(&file(), 3);
    let not_compared = Check {
        compare: 0,
        ..CHECK
    };
    let no_order = Check { order: 2, ..CHECK };
    for (check, numbers, number) in [
        (CHECK, 5, 16),
        (CHECK, 0, 16),
        (not_compared, 6, 20),
        (not_compared, 0, 20),
        (no_order, 6, 20),
    ] {
        let mut list = vec![7; numbers];
        let mut answer = Frames { frames: 9 };
        let returned = calls::find_frames(&capture, &check, &mut list, &mut answer);
        assert_eq!(Refusal::of(returned), refusal::<()>(number, 0).err());
        assert_eq!((list, answer.frames), (vec![7; numbers], 9));
    }
}

#[test]
fn a_capture_without_frames_has_none() {
    for capture in [&[][..], &[0x62], &[0x62, 0x79, 0xD8], &[0; 1000]] {
        let frames = find_frames(capture, &CHECK, &mut []);
        assert_eq!(frames, Ok(Frames { frames: 0 }));
    }
    let (capture, _) = capture_of(&file(), 0);
    let cut = &capture[..73];
    assert_eq!(find_frames(cut, &CHECK, &mut []), Ok(Frames { frames: 0 }));
    let whole = &capture[..74];
    let frames = find_frames(whole, &CHECK, &mut [7; 2]);
    assert_eq!(frames, Ok(Frames { frames: 1 }));
}

#[test]
fn a_list_that_reaches_outside_is_refused() {
    let capture = [0; 100];
    let mut out = vec![7; records_octets(2)];
    for entry in [
        [0, 8],
        [0, u64::MAX],
        [27, 0],
        [26, 8],
        [100, 0],
        [1 << 61, 0],
        [(1 << 61) - 1, 7],
        [u64::MAX, 7],
    ] {
        for list in [[entry, [0, 0]].concat(), [[0, 0], entry].concat()] {
            for room in [records_octets(2), 0] {
                let mut answer = Records { octets: 9 };
                let out = &mut out[..room];
                let returned = calls::records_of_capture(&capture, &list, out, &mut answer);
                assert_eq!(Refusal::of(returned), refusal::<()>(25, 0).err());
                assert_eq!(answer.octets, 9);
            }
        }
    }
    assert_eq!(
        records_of_capture(&capture, &[0, 0, 26, 7], &mut out[1..]),
        refusal(16, 0)
    );
    assert_eq!(out, vec![7; records_octets(2)]);
    let records = records_of_capture(&capture, &[26, 7, 0, 0], &mut out);
    assert_eq!(records, Ok(Records { octets: 154 }));
}

#[test]
fn a_list_of_no_whole_entry_gives_the_end_record() {
    let mut out = [7; 3];
    for list in [&[][..], &[u64::MAX]] {
        out.fill(7);
        let records = records_of_capture(&[], list, &mut out);
        assert_eq!(records, Ok(Records { octets: 2 }));
        assert_eq!(out, [2, 58, 7]);
        assert_eq!(records_of_capture(&[], list, &mut [7]), refusal(16, 0));
    }
}

#[test]
fn the_list_that_always_suffices_has_two_numbers_for_585_bits() {
    for octets in [0, 73, 74, 146, 147, 584, 585, 586, 4_194_304] {
        assert_eq!(most_list_numbers(octets), 2 * (8 * octets / 585));
    }
    assert!(most_list_numbers(usize::MAX) > usize::MAX / 37);
}
