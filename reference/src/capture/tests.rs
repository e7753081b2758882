use super::*;
use crate::appendix;
use crate::file::read::read_page;
use crate::file::write::{write_page, RATES};
use crate::file::RECORD;
use crate::frame::{Frame, Header, CHECK, RUN};
use crate::page::bitmap;
use crate::random::{self, Random};
use crate::register::Order;

/// The setting of the scope paper.
const SCOPE: Setting = Setting {
    generator: 425,
    start: 0,
    first_bit: 0,
    order: Order::LowFirst,
};

/// What real frames carry.
const RFC: Setting = Setting {
    order: Order::HighFirst,
    ..SCOPE
};

/// The 585 bits of a data frame with these data bits.
fn frame_of(data: &[u8], setting: Setting) -> Vec<u8> {
    let header = Header {
        sequence: 2,
        flags: RUN,
        count: 500,
        x: 17,
        black: 3,
        white: 5,
        state: 1,
    };
    let sent = Frame::new(header, data).sent(setting);
    bits(&sent)[..FRAME].to_vec()
}

fn noisy_frame(random: &mut Random, setting: Setting) -> Vec<u8> {
    frame_of(&random::noise(random, 512), setting)
}

/// The octets of bits, and the list of the frames found in them.
fn found(bits: &[u8], setting: Setting) -> Vec<usize> {
    let octets = packed(bits);
    let check = HandedIn::of(setting, true);
    let list = find_frames(&octets, check, usize::MAX).expect("a list");
    list.chunks_exact(2)
        .map(|entry| {
            assert!(entry[1] < 8);
            (8 * entry[0] + entry[1]) as usize
        })
        .collect()
}

/// Zeros, in which no sync begins that does not stand behind them.
fn zeros(number: usize) -> Vec<u8> {
    vec![0; number]
}

#[test]
fn the_sync_overlaps_itself_at_18_and_at_23_bits() {
    let sync = sync();
    assert_eq!(sync[..], bits(&[0x62, 0x79, 0xD8]));
    let overlaps = |shift: &usize| sync.starts_with(&sync[*shift..]);
    let shifts: Vec<usize> = (1..SYNC).filter(overlaps).collect();
    assert_eq!(shifts, [18, 23]);
}

#[test]
fn the_header_of_a_set_up_is_the_one_that_frames_have() {
    let set_up = Frame::new(Header::OF_SET_UP, &[]).sent(SCOPE);
    let bits = bits(&set_up);
    assert_eq!(bits[BEHIND_SEQUENCE..][..35], OF_SET_UP);
    assert!(is_set_up(&bits));
    let first = &OF_SET_UP[..5];
    assert_eq!(
        (first, OF_SET_UP[5..] == [1; 30]),
        (&[0, 0, 1, 0, 1][..], true)
    );
}

#[test]
fn frames_are_found_at_every_bit_of_an_octet() {
    let mut random = Random::new(8);
    for setting in [SCOPE, RFC] {
        for before in 0..24 {
            let frame = noisy_frame(&mut random, setting);
            let capture = [zeros(before), frame, zeros(100)].concat();
            assert_eq!(found(&capture, setting), [before]);
        }
    }
}

#[test]
fn frames_may_stand_one_behind_the_other() {
    let mut random = Random::new(585);
    let frames: Vec<Vec<u8>> = (0..9).map(|_| noisy_frame(&mut random, SCOPE)).collect();
    let starts: Vec<usize> = (0..9).map(|i| 585 * i).collect();
    assert_eq!(found(&frames.concat(), SCOPE), starts);
    let list = find_frames(
        &packed(&frames.concat()),
        HandedIn::of(SCOPE, true),
        usize::MAX,
    );
    assert_eq!(list.expect("a list")[..6], [0, 0, 73, 1, 146, 2]);
}

#[test]
fn nothing_is_found_in_nothing() {
    for capture in [&[][..], &[0x62], &[0x62, 0x79, 0xD8], &[0; 100]] {
        let list = find_frames(capture, HandedIn::of(SCOPE, true), 0);
        assert_eq!(list, Ok(Vec::new()));
    }
}

#[test]
fn a_frame_has_585_bits_left() {
    let mut random = Random::new(584);
    for before in 0..16 {
        let frame = noisy_frame(&mut random, SCOPE);
        let capture = [zeros(before), frame].concat();
        let octets = packed(&capture);
        let whole = before + FRAME <= 8 * (octets.len() - 1);
        let starts = starts(&bits(&octets[..octets.len() - 1]), SCOPE);
        assert_eq!(starts, if whole { vec![before] } else { vec![] });
        assert!(is_frame(&capture[before..], SCOPE));
        assert!(!is_frame(&capture[before..before + FRAME - 1], SCOPE));
    }
    // From bit 7 of an octet the frame ends with an octet, from bit 0 it needs
    // one bit of the next.
    for (before, left) in [(7, 585), (15, 585), (0, 584), (8, 584)] {
        let frame = noisy_frame(&mut random, SCOPE);
        let octets = packed(&[zeros(before), frame].concat());
        let cut = &octets[..(before + 585) / 8];
        assert_eq!(8 * cut.len() - before, left);
        let found = starts(&bits(cut), SCOPE);
        assert_eq!(found.is_empty(), left == 584);
    }
}

#[test]
fn each_bit_of_a_frame_counts() {
    let mut random = Random::new(425);
    let frame = noisy_frame(&mut random, RFC);
    for i in 0..FRAME {
        let mut damaged = frame.clone();
        damaged[i] ^= 1;
        assert_eq!(found(&damaged, RFC), Vec::<usize>::new(), "bit {i}");
        // What is damaged hides nothing behind it.
        let capture = [damaged, frame.clone()].concat();
        assert_eq!(found(&capture, RFC), [FRAME], "bit {i}");
    }
}

#[test]
fn the_order_of_the_check_is_that_of_the_setting() {
    let mut random = Random::new(573);
    // One frame in 64 has a check that is the same from either end.
    let mut both = 0;
    for _ in 0..1000 {
        for (own, other) in [(SCOPE, RFC), (RFC, SCOPE)] {
            let frame = noisy_frame(&mut random, own);
            assert_eq!(found(&frame, own), [0]);
            let check = &frame[CHECK..];
            let is_same_from_behind = check.iter().eq(check.iter().rev());
            both += usize::from(is_same_from_behind);
            assert_eq!(found(&frame, other).is_empty(), !is_same_from_behind);
        }
    }
    assert!((10..60).contains(&both), "{both}");
}

/// A sync before a frame, with as many bits between as the two share.
#[test]
fn a_frame_may_start_within_a_sync_that_starts_none() {
    let mut random = Random::new(18);
    for shift in [18, 23, 24] {
        for before in 0..8 {
            let frame = noisy_frame(&mut random, SCOPE);
            let start = sync()[..shift].to_vec();
            let capture = [zeros(before), start, frame, zeros(30)].concat();
            assert!(capture[before..].starts_with(&sync()));
            assert_eq!(found(&capture, SCOPE), [before + shift]);
        }
    }
}

#[test]
fn beginnings_of_the_sync_hide_no_frame() {
    let mut random = Random::new(24);
    for length in 1..SYNC {
        let frame = noisy_frame(&mut random, SCOPE);
        let beginning = sync()[..length].to_vec();
        let capture = [beginning.repeat(2), frame].concat();
        assert_eq!(found(&capture, SCOPE), [2 * length]);
    }
}

#[test]
fn a_sync_within_a_frame_is_not_taken() {
    let mut random = Random::new(62);
    for at in [0, 1, 7, 100, 400, 512 - SYNC] {
        let mut data = random::noise(&mut random, 512);
        data[at..at + SYNC].copy_from_slice(&sync());
        let capture = [frame_of(&data, SCOPE), random::noise(&mut random, 1000)].concat();
        assert_eq!(found(&capture, SCOPE), [0]);
    }
}

/// Two frames of which the later one starts in the data of the earlier one, each
/// with its check. The second value is where it starts.
fn two_that_overlap(random: &mut Random, at: usize) -> (Vec<u8>, usize) {
    let mut data = random::noise(random, 512);
    data[at..at + SYNC].copy_from_slice(&sync());
    let start = 61 + at;
    let mut capture = frame_of(&data, SCOPE);
    capture.extend(random::noise(random, start + CHECK - capture.len()));
    let check = SCOPE.check(&packed(&capture[start..])).into();
    capture.extend(crate::octets::bits_low_first(check, 12));
    (capture, start)
}

#[test]
fn a_frame_within_a_frame_is_taken_only_if_that_is_damaged() {
    let mut random = Random::new(79);
    for at in [0, 1, 7, 100, 400, 512 - SYNC] {
        let (capture, start) = two_that_overlap(&mut random, at);
        assert!(is_frame(&capture, SCOPE) && is_frame(&capture[start..], SCOPE));
        assert_eq!(found(&capture, SCOPE), [0]);
        for bit in [0, 23, 24, 60] {
            let mut damaged = capture.clone();
            damaged[bit] ^= 1;
            assert_eq!(found(&damaged, SCOPE), [start]);
        }
    }
}

#[test]
fn the_setting_is_judged_before_the_room() {
    let mut random = Random::new(20);
    let octets = packed(&noisy_frame(&mut random, SCOPE));
    let refused = |check, room| find_frames(&octets, check, room).map_err(|r| r.number);
    let check = HandedIn::of(SCOPE, true);
    assert_eq!(refused(check, 2), Ok(vec![0, 0]));
    assert_eq!(refused(check, 1), Err(16));
    assert_eq!(refused(HandedIn::of(SCOPE, false), 1), Err(20));
    for compare in [2, 1 << 32, u64::MAX] {
        assert_eq!(refused(HandedIn { compare, ..check }, 9), Err(20));
    }
    for order in [2, 1 << 32, u64::MAX] {
        assert_eq!(refused(HandedIn { order, ..check }, 9), Err(20));
    }
    assert_eq!(
        refused(
            HandedIn {
                generator: 424,
                ..check
            },
            9
        ),
        Err(20)
    );
}

#[test]
fn the_frames_of_the_appendix_are_found_and_come_back() {
    let mut random = Random::new(798);
    let mut capture = random::noise(&mut random, 13);
    let mut starts = Vec::new();
    for record in appendix::sent() {
        starts.push(capture.len());
        capture.extend(&bits(&appendix::frame(&record))[..FRAME]);
        let gap = random.below(50) as usize;
        capture.extend(random::noise(&mut random, gap));
    }
    assert_eq!(found(&capture, RFC), starts);
    let octets = packed(&capture);
    let file = records_of_frames(&octets, &list(&starts), usize::MAX).expect("a file");
    let mut stored = appendix::stored().concat();
    // The set-up frame in the appendix has other padding.
    for last in (1..=5).map(|record| RECORD * record - 1) {
        stored[last] |= 0xFE;
    }
    assert_eq!(file, [stored, END.to_vec()].concat());
}

/// The frames of a file as they are sent, with noise around them.
fn capture_of(random: &mut Random, file: &[u8]) -> (Vec<u8>, Vec<usize>) {
    let (records, end) = file.as_chunks::<RECORD>();
    assert_eq!(end, END);
    let mut capture = Vec::new();
    let mut starts = Vec::new();
    for record in records {
        let gap = random.below(200) as usize;
        capture.extend(random::noise(random, gap));
        starts.push(capture.len());
        capture.extend(&bits(&all_turned(&record[2..]))[..FRAME]);
    }
    capture.extend(random::noise(random, 700));
    (capture, starts)
}

#[test]
fn a_written_page_comes_back_out_of_noise() {
    let mut random = Random::new(450);
    for _ in 0..100 {
        let page = random::page::of_lines(&mut random, 2);
        let bitmap = bitmap::written(&page);
        let check = HandedIn::of(random::file::setting(&mut random), true);
        let (settings, rate) = (4, random.pick(&RATES));
        let Ok(file) = write_page(&bitmap, settings, rate, check, usize::MAX) else {
            continue;
        };
        let (capture, starts) = capture_of(&mut random, &file);
        let octets = packed(&capture);
        let found = find_frames(&octets, check, usize::MAX).expect("a list");
        assert_eq!(found, list(&starts));
        let again = records_of_frames(&octets, &found, file.len()).expect("a file");
        assert_eq!(again, file);
        let read = read_page(&again, check, usize::MAX).expect("a page");
        assert_eq!((read.bitmap, read.settings), (bitmap, settings));
    }
}

/// With no noise, as a law of the proved library has it.
#[test]
fn a_written_page_comes_back_from_its_frames_alone() {
    let mut random = Random::new(803);
    let check = HandedIn::of(SCOPE, true);
    let bitmap = bitmap::written(&random::page::of_lines(&mut random, 40));
    let file = write_page(&bitmap, 0, 4800, check, usize::MAX).expect("a file");
    let frames: Vec<u8> = file
        .as_chunks::<RECORD>()
        .0
        .iter()
        .flat_map(|record| bits(&all_turned(&record[2..]))[..FRAME].to_vec())
        .collect();
    let octets = packed(&frames);
    let found = find_frames(&octets, check, usize::MAX).expect("a list");
    assert_eq!(found.len(), 2 * (file.len() / RECORD));
    assert_eq!(found.len(), 2 * (8 * octets.len() / FRAME));
    assert_eq!(records_of_frames(&octets, &found, usize::MAX), Ok(file));
}

fn refused(octets: &[u8], list: &[u64], room: usize) -> u64 {
    let file = records_of_frames(octets, list, room);
    file.map_or_else(|refusal| refusal.returned(), |_| 0)
}

#[test]
fn entries_have_a_bit_below_8_and_585_bits_left() {
    let octets = [0; 100];
    for octet in 0..30 {
        for bit in 0..20 {
            let fits = bit <= 7 && 8 * octet + bit + 585 <= 800;
            let number = refused(&octets, &[octet, bit], usize::MAX);
            assert_eq!(number, if fits { 0 } else { 25 });
        }
    }
    for huge in [100, 1 << 32, 1 << 61, (1 << 61) - 1, 1 << 63, u64::MAX] {
        assert_eq!(refused(&octets, &[huge, 0], usize::MAX), 25);
        assert_eq!(refused(&octets, &[0, huge], usize::MAX), 25);
        assert_eq!(refused(&octets, &[huge, 7], usize::MAX), 25);
        assert_eq!(refused(&octets, &[0, 0, huge, huge], usize::MAX), 25);
    }
    assert_eq!(refused(&[0; 73], &[0, 0], usize::MAX), 25);
    assert_eq!(refused(&[0; 74], &[0, 0], usize::MAX), 0);
    assert_eq!(refused(&[], &[0, 0], usize::MAX), 25);
}

#[test]
fn all_entries_are_judged_before_the_room() {
    let octets = [0; 100];
    assert_eq!(refused(&octets, &[0, 0, 1, 1], 154), 0);
    assert_eq!(refused(&octets, &[0, 0, 1, 1], 153), 16);
    assert_eq!(refused(&octets, &[0, 0, 1, 8], 0), 25);
    assert_eq!(refused(&octets, &[0, 8, 1, 1], 0), 25);
    assert_eq!(refused(&octets, &[], 2), 0);
    assert_eq!(refused(&octets, &[], 1), 16);
}

#[test]
fn a_broken_last_entry_is_not_read() {
    let octets = [0; 100];
    let whole = records_of_frames(&octets, &[3, 2], usize::MAX);
    assert_eq!(whole.as_ref().map(Vec::len), Ok(78));
    for last in [0, 99, u64::MAX] {
        let broken = records_of_frames(&octets, &[3, 2, last], 78);
        assert_eq!(broken, whole);
        assert_eq!(records_of_frames(&octets, &[last], 2), Ok(END.to_vec()));
    }
}

#[test]
fn neither_sync_nor_check_nor_order_of_a_list_is_judged() {
    let mut random = Random::new(74);
    let octets = packed(&random::noise(&mut random, 1600));
    let bits = bits(&octets);
    let entries = [50, 7, 0, 3, 0, 3, 1, 0];
    let file = records_of_frames(&octets, &entries, usize::MAX).expect("a file");
    let (records, end) = file.as_chunks::<RECORD>();
    assert_eq!((records.len(), end), (4, &END[..]));
    for (record, start) in records.iter().zip([407, 3, 3, 8]) {
        assert_eq!(record[..2], DATA);
        let frame = crate::capture::bits(&all_turned(&record[2..]));
        assert_eq!(frame[..FRAME], bits[start..start + FRAME]);
        assert_eq!(frame[FRAME..], [0; 7]);
    }
}

#[test]
fn a_set_up_is_known_by_35_bits() {
    let set_up = bits(&Frame::new(Header::OF_SET_UP, &[1; 512]).sent(SCOPE));
    let record = |bits: &[u8]| {
        let file = records_of_frames(&packed(bits), &[0, 0], usize::MAX);
        file.expect("a file")[..2].to_vec()
    };
    assert_eq!(record(&set_up), SET_UP);
    for i in 0..FRAME {
        let mut other = set_up.clone();
        other[i] ^= 1;
        let data = (26..=60).contains(&i);
        assert_eq!(record(&other), if data { DATA } else { SET_UP }, "bit {i}");
    }
}

const SAMPLE: &[u8] = include_bytes!("../../../samples/transcript.capture");
const SAMPLE_PAGE: &[u8] = include_bytes!("../../../samples/transcript-4800.page");

#[test]
fn the_sample_comes_back_as_its_page_file() {
    let check = HandedIn::of(SCOPE, true);
    let found = find_frames(SAMPLE, check, usize::MAX).expect("a list");
    assert_eq!(found.len() / 2, SAMPLE_PAGE.len() / RECORD);
    for bit in 0..8 {
        assert!(found.chunks(2).any(|entry| entry[1] == bit), "bit {bit}");
    }
    let file = records_of_frames(SAMPLE, &found, SAMPLE_PAGE.len());
    assert_eq!(file.as_deref(), Ok(SAMPLE_PAGE));
}

/// One frame in 64 agrees by the other order too: its check is the same from
/// either end.
#[test]
fn few_frames_of_the_sample_agree_by_the_other_order() {
    let bits = bits(SAMPLE);
    let (own, other) = (starts(&bits, SCOPE), starts(&bits, RFC));
    assert_eq!((own.len(), other.len()), (844, 13));
    for start in other {
        let check = &bits[start + CHECK..start + FRAME];
        assert!(own.contains(&start) && check.iter().eq(check.iter().rev()));
    }
}
