use super::State::{BB, BW, WB, WW};
use super::*;
use crate::appendix;
use crate::file::by_hand::{
    bits, data, file, frame, header, set_up, upper_black, white, white_about_edge,
    white_after_edge, white_octets, white_up_to_edge, white_words, COMPARED, NOT_COMPARED, SETTING,
};
use crate::file::{stored, turn_sent_bit, write, Records, RECORD};
use crate::frame::{Frame, CHECK, PADDING};
use crate::octets::bit;
use crate::register::Order;

/// The room of two lines.
const ROOM: usize = 4 + 2 * 216;

fn read(file: &[u8]) -> Result<Read, (u64, u64)> {
    read_page(file, COMPARED, ROOM).map_err(number_and_record)
}

/// The number of a refusal, only 11 having a bit, and its record.
fn number_and_record(refusal: Refusal) -> (u64, u64) {
    assert!(refusal.number == 11 || refusal.bit == 0);
    (refusal.number, refusal.record)
}

fn read_records(records: &[Record<Frame>]) -> Result<Read, (u64, u64)> {
    read(&file(records))
}

fn refused(records: &[Record<Frame>]) -> (u64, u64) {
    read_records(records).expect_err("a refusal")
}

/// The example with a change.
fn white_but(change: impl Fn(&mut Records)) -> Records {
    let mut records = white();
    change(&mut records);
    records
}

fn upper_black_but(change: impl Fn(&mut Records)) -> Records {
    let mut records = upper_black();
    change(&mut records);
    records
}

/// The bitmap of two lines, each all of one octet but for its last.
fn two_lines(upper: u8, lower: u8) -> Vec<u8> {
    let line = |octet: u8| [vec![octet; 215], vec![octet & 0xFC]].concat();
    [vec![190, 6, 2, 0], line(upper), line(lower)].concat()
}

/// The columns of an accepted file.
fn columns_of(records: &[Record<Frame>]) -> Vec<u8> {
    let read = read_records(records).expect("a page");
    columns::of(&bitmap::read(&read.bitmap).expect("a bitmap"))
}

#[test]
fn the_example_is_read() {
    let wanted = Read {
        used: 3 * 76 + 2,
        lines: 2,
        settings: 4,
        data_bits: 98,
        columns: 1726,
        bitmap: two_lines(0, 0),
        end: 3,
        falls_at_edge: 0,
    };
    assert_eq!(read(&white_octets()), Ok(wanted));
    assert_eq!(file(&white()), white_octets());
}

#[test]
fn an_upper_black_line_is_read() {
    let wanted = Read {
        used: 5 * 76 + 2,
        lines: 2,
        settings: 0,
        data_bits: 512 + 512 + 512 + 197,
        columns: 1726,
        bitmap: two_lines(0xFF, 0),
        end: 5,
        falls_at_edge: 0,
    };
    assert_eq!(read_records(&upper_black()), Ok(wanted));
}

#[test]
fn the_appendix_has_no_end() {
    let file = appendix::stored().concat();
    let refused = |check| read_page(&file, check, ROOM).expect_err("no end");
    assert_eq!(refused(NOT_COMPARED).returned(), 1 + (5 << 24));
    assert_eq!(refused(COMPARED).returned(), 5);
}

#[test]
fn octets_after_the_end_are_not_read() {
    for after in [&[0][..], &[2, 58], &[76, 57], &white_octets()] {
        let octets = [&white_octets(), after].concat();
        assert_eq!(read(&octets), read(&white_octets()));
    }
}

#[test]
fn by_20_before_anything_else() {
    let spoil: [fn(&mut HandedIn); 13] = [
        |check| check.generator = 424,
        |check| check.generator = 0,
        |check| check.generator = 4097,
        |check| check.generator += 1 << 32,
        |check| check.start = 4096,
        |check| check.start = u64::MAX,
        |check| check.first_bit = 1,
        |check| check.first_bit = 23,
        |check| check.first_bit = 24 + (1 << 16),
        |check| check.compare = 2,
        |check| check.order = 2,
        |check| check.order = 1 << 32,
        |check| check.order = u64::MAX,
    ];
    for spoil in spoil {
        for mut check in [COMPARED, NOT_COMPARED] {
            spoil(&mut check);
            for file in [&[][..], &[0, 0], &white_octets()] {
                assert_eq!(read_page(file, check, 0), Err(Refusal::of_no_record(20)));
            }
        }
    }
}

#[test]
fn by_1_where_octets_are_missing() {
    let octets = white_octets();
    for length in 0..octets.len() {
        assert_eq!(read(&octets[..length]), Err((1, length as u64 / 76)));
    }
}

#[test]
fn by_1_before_the_place_is_judged() {
    assert_eq!(read(&[76, 57]), Err((1, 0)));
    assert_eq!(read(&white_octets()[76..151]), Err((1, 0)));
    assert_eq!(read(&white_octets()[76..152]), Err((3, 0)));
}

#[test]
fn by_2_where_the_pair_is_unknown() {
    let unknown = [
        [76, 58],
        [2, 56],
        [2, 57],
        [56, 76],
        [58, 2],
        [72, 57],
        [75, 57],
        [77, 56],
        [0, 0],
        [255, 255],
    ];
    for pair in unknown {
        for index in 0..4 {
            let mut octets = white_octets();
            octets[76 * index..][..2].copy_from_slice(&pair);
            assert_eq!(read(&octets), Err((2, index as u64)));
            octets.truncate(76 * index + 2);
            assert_eq!(read(&octets), Err((2, index as u64)));
        }
    }
}

/// What comes of records named by a letter each, the data ones of no bits.
fn read_kinds(kinds: &str) -> (u64, u64) {
    let mut sequence = 0;
    let records: Records = kinds
        .chars()
        .map(|kind| match kind {
            'S' => set_up("0000"),
            'E' => Record::End,
            _ => {
                sequence += 1;
                data((sequence - 1) % 4, 0, (7, 7), WW, "")
            }
        })
        .collect();
    refused(&records)
}

/// The same, by the file's form in the scope paper: set-ups, data, set-ups
/// again, end.
fn expected_of_kinds(kinds: &str) -> (u64, u64) {
    for (index, kind) in kinds.char_indices() {
        let before = &kinds[..index];
        let data = before.trim_start_matches('S');
        let last = data.trim_start_matches('D');
        let in_place = match kind {
            'S' => true,
            'D' => index > 0 && last.is_empty(),
            _ => before.starts_with('S') && !data.is_empty(),
        };
        if !in_place {
            return (3, index as u64);
        }
        if kind == 'E' {
            return (14, index as u64);
        }
    }
    (1, kinds.len() as u64)
}

#[test]
fn by_3_where_a_record_is_out_of_place() {
    let mut all = vec![String::new()];
    for _ in 0..7 {
        let longer = |kinds: &String| ["S", "D", "E"].map(|kind| kinds.clone() + kind);
        all = all.iter().flat_map(longer).collect();
        for kinds in &all {
            assert_eq!(read_kinds(kinds), expected_of_kinds(kinds), "{kinds}");
        }
    }
    assert_eq!(read_kinds("E"), (3, 0));
    assert_eq!(read_kinds("SE"), (3, 1));
    assert_eq!(read_kinds("SDSD"), (3, 3));
    assert_eq!(read_kinds("SSDDSSE"), (14, 6));
}

#[test]
fn by_4_where_a_sync_bit_is_turned() {
    for index in 0..3 {
        for bit in 0..24 {
            let records = white_but(|records| {
                frame(records, index).sync[bit / 8] ^= 1 << (bit % 8);
            });
            assert_eq!(refused(&records), (4, index as u64));
        }
    }
}

#[test]
fn by_5_where_a_check_bit_is_turned() {
    for index in 0..3 {
        for bit in CHECK..PADDING {
            let mut octets = white_octets();
            turn_sent_bit(&mut octets, index, bit);
            assert_eq!(read(&octets), Err((5, index as u64)));
            assert!(read_page(&octets, NOT_COMPARED, ROOM).is_ok());
        }
    }
}

#[test]
fn by_5_where_any_other_bit_is_turned() {
    for index in 0..3 {
        for bit in 24..CHECK {
            let mut octets = white_octets();
            turn_sent_bit(&mut octets, index, bit);
            assert_eq!(read(&octets), Err((5, index as u64)));
        }
    }
}

#[test]
fn the_check_may_begin_with_the_sync() {
    let setting = Setting {
        first_bit: 0,
        ..SETTING
    };
    let check = HandedIn {
        first_bit: 0,
        ..COMPARED
    };
    let octets = stored(&white(), setting);
    assert!(read_page(&octets, check, ROOM).is_ok());
    assert_eq!(read(&octets), Err((5, 0)));
    assert_ne!(octets, white_octets());
}

#[test]
fn the_check_may_be_sent_high_bit_first() {
    let setting = Setting {
        order: Order::HighFirst,
        ..SETTING
    };
    let check = HandedIn {
        order: 1,
        ..COMPARED
    };
    let octets = stored(&white(), setting);
    assert!(read_page(&octets, check, ROOM).is_ok());
    assert_eq!(read(&octets), Err((5, 0)));
    assert!(read_page(&octets, NOT_COMPARED, ROOM).is_ok());
    let by_low_first = read_page(&white_octets(), check, ROOM);
    assert_eq!(by_low_first.map_err(number_and_record), Err((5, 0)));
    // The check field, and nothing else, is turned about.
    for record in 0..3 {
        let [low, high] = [&white_octets(), &octets]
            .map(|file| all_turned(&file[RECORD * record + 2..][..RECORD - 2]));
        for i in 0..8 * (RECORD - 2) {
            let at = if (CHECK..PADDING).contains(&i) {
                CHECK + PADDING - 1 - i
            } else {
                i
            };
            assert_eq!(bit(&low, i), bit(&high, at));
        }
    }
}

/// Its frames are the first of a page, so with an end behind them the columns are no
/// whole row pairs.
#[test]
fn the_records_of_the_appendix_are_compared_high_bit_first() {
    let check = HandedIn {
        start: 0,
        first_bit: 0,
        order: 1,
        ..COMPARED
    };
    let file = [&appendix::stored().concat()[..], &END].concat();
    let number =
        |file: &[u8], check| number_and_record(read_page(file, check, ROOM).expect_err("no page"));
    assert_eq!(number(&file, check), (14, 5));
    assert_eq!(number(&file, HandedIn { order: 0, ..check }), (5, 0));
    for index in 0..5 {
        for bit in 24..PADDING {
            let mut damaged = file.clone();
            turn_sent_bit(&mut damaged, index, bit);
            assert_eq!(number(&damaged, check), (5, index as u64));
        }
    }
}

#[test]
fn padding_is_not_looked_at() {
    let records = white_but(|records| {
        for index in 0..3 {
            frame(records, index).padding = 0b1011011;
        }
    });
    assert_eq!(read_records(&records), read(&white_octets()));
}

#[test]
fn by_6_where_settings_exclude_each_other() {
    for number in 0..32 {
        let set_up_with_number = |records: &mut Records, index| {
            let five = (0..5).map(|i| (number >> (4 - i) & 1) as u8);
            frame(records, index).data.splice(..5, five);
        };
        let settings = [0, 1, 2, 4, 5, 6, 8, 9, 10].contains(&number);
        let first = white_but(|records| set_up_with_number(records, 0));
        match read_records(&first) {
            Ok(read) => assert!(settings && read.settings == number),
            Err(refused) => assert!(!settings && refused == (6, 0)),
        }
        for index in [1, 3] {
            let later = white_but(|records| {
                records.insert(index, set_up("0000"));
                set_up_with_number(records, index);
            });
            match read_records(&later) {
                Ok(read) => assert!(settings && read.settings == 4),
                Err(refused) => assert!(!settings && refused == (6, index as u64)),
            }
        }
    }
}

#[test]
fn nothing_else_of_a_set_up_is_judged() {
    let records = white_but(|records| {
        let frame = frame(records, 0);
        frame.data[5..].iter_mut().for_each(|bit| *bit ^= 1);
        frame.header = Header {
            sequence: 0,
            flags: 0b11010,
            count: 513,
            x: 1726,
            black: 0,
            white: 1,
            state: 0b01,
        };
    });
    assert_eq!(read_records(&records), read(&white_octets()));
}

#[test]
fn by_7_where_the_sequence_is_wrong() {
    for index in 0..3 {
        for wrong in 1..4 {
            let records = white_but(|records| {
                let sequence = &mut header(records, index).sequence;
                *sequence = (*sequence + wrong) % 4;
            });
            assert_eq!(refused(&records), (7, index as u64));
        }
    }
}

#[test]
fn all_data_records_are_counted_and_no_others() {
    let no_bits = |sequence| data(sequence, 0, (0, 0), BB, "");
    let records = [
        set_up("0000"),
        set_up("0000"),
        no_bits(0),
        no_bits(1),
        no_bits(2),
        no_bits(3),
        no_bits(0),
        data(1, 0, (7, 7), WW, &white_words()),
        no_bits(2),
        set_up("0000"),
        Record::End,
    ];
    assert_eq!(
        read_records(&records).map(|read| read.used),
        Ok(10 * 76 + 2)
    );
}

#[test]
fn in_a_set_up_7_comes_before_6() {
    let records = white_but(|records| {
        frame(records, 0).data[0] = 1;
        header(records, 0).sequence = 2;
    });
    assert_eq!(refused(&records), (7, 0));
}

#[test]
fn by_8_where_the_count_is_above_512() {
    for count in [513, 514, 600, 768, 1022, 1023] {
        let records = upper_black_but(|records| header(records, 2).count = count);
        assert_eq!(refused(&records), (8, 2));
    }
}

#[test]
fn by_9_where_a_size_is_below_2() {
    for index in 1..5 {
        for size in [0, 1] {
            let black = upper_black_but(|records| header(records, index).black = size);
            let white = upper_black_but(|records| header(records, index).white = size);
            assert_eq!(refused(&black), (9, index as u64));
            assert_eq!(refused(&white), (9, index as u64));
        }
    }
}

#[test]
fn a_size_of_2_passes() {
    // Closing words of 0, each of which lowers a length, then WB.
    let first = "0000000 0 0000000 0 000000 0 000000 0 00000 0 00000 0 \
        0000 0 0000 0 000 0 000 0 00 1 1";
    let records = [
        set_up("0000"),
        data(0, 0, (7, 7), WW, first),
        data(1, 11, (2, 2), WB, &"1".repeat(512)),
        data(2, 523, (2, 2), WB, &"1".repeat(512)),
        data(3, 1035, (2, 2), WB, &"1".repeat(512)),
        data(0, 1547, (2, 2), WB, &"1".repeat(178)),
        Record::End,
    ];
    let columns = columns_of(&records);
    assert_eq!(columns[..11], [3, 0, 3, 0, 3, 0, 3, 0, 3, 0, 1]);
    assert!(columns[11..].iter().all(|pels| *pels == 1));
}

#[test]
fn the_first_image_frame_starts_a_page() {
    for x in [0, 1, 1724, 1725, 1726, 4095] {
        let records = white_but(|records| header(records, 2).x = x);
        assert_eq!(read_records(&records), read(&white_octets()));
    }
    for state in [0b01, 0b10, 0b11] {
        let records = white_but(|records| header(records, 2).state = state);
        assert_eq!(refused(&records), (10, 2));
    }
    for size in 2..7 {
        let black = white_but(|records| header(records, 2).black = size);
        let white = white_but(|records| header(records, 2).white = size);
        assert_eq!(refused(&black), (10, 2));
        assert_eq!(refused(&white), (10, 2));
    }
}

#[test]
fn by_10_where_a_later_header_disagrees() {
    let wrong: [fn(&mut Header); 10] = [
        |header| header.x -= 1,
        |header| header.x += 1,
        |header| header.x += 1726,
        |header| header.x = 1725,
        |header| header.black = 6,
        |header| header.white = 7,
        |header| header.white = 5,
        |header| header.state = 0b00,
        |header| header.state = 0b01,
        |header| header.state = 0b11,
    ];
    for wrong in wrong {
        for index in 2..5 {
            let records = upper_black_but(|records| wrong(header(records, index)));
            assert_eq!(refused(&records), (10, index as u64));
        }
    }
}

#[test]
fn by_11_where_a_data_part_has_no_reading() {
    let refusal = |records: &Records| {
        let refusal = read_page(&file(records), COMPARED, ROOM).expect_err("no reading");
        (refusal.number, refusal.record, refusal.bit)
    };
    // The words of 7 bits that are whole.
    for (count, bit) in [(1, 0), (6, 0), (8, 7), (90, 84), (92, 91), (97, 91)] {
        let records = white_but(|records| header(records, 2).count = count);
        assert_eq!(refusal(&records), (11, 2, bit));
    }
    for index in 2..5 {
        for at in [0, 1, 150, 193] {
            let records = upper_black_but(|records| {
                let data = &mut frame(records, index).data;
                data.splice(at..at + 4, bits("0110"));
            });
            assert_eq!(refusal(&records), (11, index as u64, at as u64 + 1));
        }
    }
}

#[test]
fn by_12_after_a_closing_word() {
    let records = white_but(|records| {
        records.insert(3, data(2, 1725, (7, 7), WW, "1111111"));
    });
    assert_eq!(refused(&records), (12, 3));
    let records = white_but(|records| {
        records.insert(3, data(2, 0, (2, 2), BB, ""));
        records.insert(4, data(3, 1725, (7, 7), WW, "1111111"));
    });
    assert_eq!(refused(&records), (12, 4));
}

#[test]
fn a_frame_may_follow_one_that_ended_on_all_ones() {
    let [one, other] = ["1111111".repeat(9), "1111111".repeat(4) + "1101001"];
    let records = [
        set_up("0100"),
        data(0, 1725, (7, 7), WW, &one),
        data(1, 9 * 127 - 1, (7, 7), WW, &other),
        Record::End,
    ];
    assert_eq!(read_records(&records).map(|read| read.data_bits), Ok(98));
}

#[test]
fn a_page_need_not_end_on_a_closing_word() {
    let page =
        |words: &str| columns_of(&[set_up("0000"), data(0, 0, (7, 7), WW, words), Record::End]);
    let on_a_move = "1111111".repeat(13) + "0101001 0";
    assert_eq!(page(&on_a_move), [vec![0; 1725], vec![3]].concat());
    let on_all_ones = "0101001 0".to_string() + &"1111111".repeat(13);
    assert_eq!(page(&on_all_ones), [vec![0; 74], vec![3; 1652]].concat());
}

#[test]
fn by_13_where_the_last_column_is_open() {
    let records = upper_black_but(|records| {
        records.truncate(1);
        records.push(data(0, 0, (7, 7), WW, "0000000 1"));
        records.push(Record::End);
    });
    assert_eq!(refused(&records), (13, 2));
    let records = upper_black_but(|records| {
        records[4] = data(3, 1528, (7, 6), BW, &("0".repeat(196) + "0100 000000 1"));
    });
    assert_eq!(refused(&records), (13, 5));
}

#[test]
fn an_open_column_is_in_the_next_frames_state() {
    for (state, bit) in [(WB, "1"), (BW, "0")] {
        let records = [
            set_up("0000"),
            data(0, 0, (7, 7), WW, "0000000 1"),
            data(1, 0, (7, 6), state, &bit.repeat(512)),
            data(2, 512, (7, 6), state, &bit.repeat(512)),
            data(3, 1024, (7, 6), state, &bit.repeat(512)),
            data(0, 1536, (7, 6), state, &bit.repeat(189)),
            Record::End,
        ];
        assert_eq!(columns_of(&records), vec![state.pels(); 1726]);
    }
    for (x, state) in [(1725, BW), (1, BW), (0, WW), (0, BB)] {
        let records = [
            set_up("0000"),
            data(0, 0, (7, 7), WW, "0000000 1"),
            data(1, x, (7, 6), state, "0"),
        ];
        assert_eq!(refused(&records), (10, 2));
    }
}

#[test]
fn an_open_column_may_be_the_last_of_a_pair() {
    // 1725 white columns and an open one, then a pair that is WB.
    let words = "1111111".repeat(13) + "0101001 1";
    let records = [
        set_up("0000"),
        data(0, 0, (7, 7), WW, &words),
        data(1, 1725, (7, 7), WB, &"1".repeat(512)),
        data(2, 511, (7, 7), WB, &"1".repeat(512)),
        data(3, 1023, (7, 7), WB, &"1".repeat(512)),
        data(0, 1535, (7, 7), WB, &"1".repeat(190)),
        Record::End,
    ];
    let room = 4 + 4 * 216;
    let read = read_page(&file(&records), COMPARED, room).expect("a page");
    let columns = columns::of(&bitmap::read(&read.bitmap).expect("a bitmap"));
    assert_eq!(columns, [vec![0; 1725], vec![1; 1727]].concat());
}

#[test]
fn by_14_where_columns_do_not_fill_pairs() {
    let none = white_but(|records| drop(records.remove(2)));
    assert_eq!(refused(&none), (14, 2));
    let with_words = |words: &str| {
        refused(&white_but(|records| {
            records[2] = data(1, 1725, (7, 7), WW, words);
        }))
    };
    for words in ["0000000", "1000000", "1111111"] {
        assert_eq!(with_words(words), (14, 3));
    }
    for one_less_or_more in ["0101001", "0011001"] {
        let words = "1111111".repeat(13) + one_less_or_more;
        assert_eq!(with_words(&words), (14, 3));
    }
}

/// A white page of so many row pairs.
fn white_pairs(pairs: usize) -> Vec<u8> {
    let frames = write::image_frames(&vec![0; pairs * PELS], usize::MAX);
    file(&write::records(0, &frames))
}

#[test]
fn by_15_above_6000_lines() {
    let room = 4 + 216 * 6000;
    let read = |pairs, room| read_page(&white_pairs(pairs), COMPARED, room);
    assert_eq!(read(2999, room).map(|read| read.lines), Ok(5998));
    assert_eq!(read(3000, room).map(|read| read.lines), Ok(6000));
    assert_eq!(
        read(3000, room - 1).map_err(|refusal| refusal.number),
        Err(16)
    );
    for pairs in [3001, 3002, 3128] {
        for room in [0, room, 2 * room] {
            let number = read(pairs, room).map_err(|refusal| refusal.number);
            assert_eq!(number, Err(15));
        }
    }
}

#[test]
fn lines_are_counted_past_two_octets() {
    let file = white_pairs(32768 + 1);
    let number = read_page(&file, COMPARED, usize::MAX).map_err(|refusal| refusal.number);
    assert_eq!(number, Err(15));
}

#[test]
fn by_16_where_the_room_is_short() {
    for room in [0, 3, 4, ROOM - 216, ROOM - 1] {
        let refusal = read_page(&white_octets(), COMPARED, room);
        assert_eq!(
            refusal,
            Err(Refusal {
                number: 16,
                record: 3,
                bit: 0
            })
        );
    }
    for room in [ROOM, ROOM + 1, usize::MAX] {
        assert!(read_page(&white_octets(), COMPARED, room).is_ok());
    }
}

#[test]
fn at_the_end_13_comes_before_14_and_14_before_16() {
    let open = [
        set_up("0000"),
        data(0, 0, (7, 7), WW, "0000000 1"),
        Record::End,
    ];
    let none = [
        set_up("0000"),
        data(0, 0, (7, 7), WW, "0000000"),
        Record::End,
    ];
    let number = |records: &[_]| read_page(&file(records), COMPARED, 0).map_err(|r| r.number);
    assert_eq!(number(&open), Err(13));
    assert_eq!(number(&none), Err(14));
}

#[test]
fn of_several_faults_in_a_record_the_first_is_given() {
    type Spoil = fn(&mut Records);
    let spoil: [(u64, Spoil); 7] = [
        (11, |records| {
            frame(records, 2).data.splice(..4, bits("0110"));
        }),
        (10, |records| header(records, 2).x += 1),
        (12, |records| header(records, 1).count = 7),
        (9, |records| header(records, 2).black = 1),
        (8, |records| header(records, 2).count = 513),
        (7, |records| header(records, 2).sequence = 0),
        (4, |records| frame(records, 2).sync[0] ^= 1),
    ];
    let mut records = upper_black();
    for (number, spoil) in spoil {
        if number == 4 {
            let mut octets = file(&records);
            turn_sent_bit(&mut octets, 2, CHECK);
            assert_eq!(read(&octets), Err((5, 2)));
        }
        spoil(&mut records);
        assert_eq!(refused(&records), (number, 2));
    }
    let mut octets = file(&records);
    turn_sent_bit(&mut octets, 2, CHECK);
    assert_eq!(read(&octets), Err((4, 2)));
}

#[test]
fn of_several_records_the_first_is_refused() {
    let records = upper_black_but(|records| {
        header(records, 3).sequence = 0;
        header(records, 2).x = 0;
        records.truncate(4);
    });
    assert_eq!(refused(&records), (10, 2));
}

#[test]
fn settings_are_those_of_the_first_set_up() {
    let records = white_but(|records| {
        records.insert(1, set_up("1010"));
        records.insert(1, set_up("0001"));
        records.insert(5, set_up("1000"));
    });
    assert_eq!(read_records(&records).map(|read| read.settings), Ok(4));
}

#[test]
fn flags_and_unused_bits_are_not_judged() {
    let records = white_but(|records| {
        for index in [1, 2] {
            header(records, index).flags = 0b01111;
        }
        frame(records, 1).data.fill(1);
        frame(records, 2).data[98..].fill(1);
    });
    assert_eq!(read_records(&records), read(&white_octets()));
}

// The four readings that look right. Each test has a file which such a
// reader would refuse or read as another page.

#[test]
fn a_frames_first_word_is_a_runs_first() {
    // The first word of the second frame is short and lowers the length.
    let second = "0000000 1".to_string() + &"0".repeat(500);
    let mut records = vec![
        set_up("0000"),
        data(0, 0, (7, 7), WW, "1111111"),
        data(1, 126, (7, 7), WW, &second),
        data(2, 627, (7, 6), BW, &"0".repeat(512)),
        data(3, 1139, (7, 6), BW, &"0".repeat(512)),
        data(0, 1651, (7, 6), BW, &"0".repeat(74)),
        Record::End,
    ];
    assert_eq!(columns_of(&records), [vec![0; 127], vec![2; 1599]].concat());
    header(&mut records, 3).white = 7;
    assert_eq!(refused(&records), (10, 3));
}

#[test]
fn a_runs_second_word_is_no_first() {
    let first = "1111111 0000000 1".to_string() + &"0".repeat(497);
    let mut records = vec![
        set_up("0000"),
        data(0, 0, (7, 7), WW, &first),
        data(1, 624, (7, 7), BW, &"0".repeat(512)),
        data(2, 1136, (7, 7), BW, &"0".repeat(512)),
        data(3, 1648, (7, 7), BW, &"0".repeat(77)),
        Record::End,
    ];
    assert_eq!(columns_of(&records), [vec![0; 127], vec![2; 1599]].concat());
    header(&mut records, 2).white = 6;
    assert_eq!(refused(&records), (10, 2));
}

#[test]
fn a_run_word_is_read_low_bit_first() {
    // 1 white column, 64 black ones, and white to the end of the pair.
    let all_ones = "1111111".repeat(12);
    let words = format!("1000000 0 1111110 0 111111 {all_ones} 1001001");
    let records = [set_up("0000"), data(0, 0, (7, 7), WW, &words), Record::End];
    let wanted = [vec![0; 1], vec![3; 64], vec![0; 1661]].concat();
    assert_eq!(columns_of(&records), wanted);
}

#[test]
fn the_header_of_a_frame_of_no_bits_is_not_compared() {
    for (x, sizes, state) in [(0, (0, 1), BB), (4095, (7, 7), WB), (1725, (2, 2), BW)] {
        let records = upper_black_but(|records| {
            for index in [5, 2, 1] {
                records.insert(index, data(0, x, sizes, state, ""));
            }
            for (index, sequence) in (1..8).zip([0, 1, 2, 3, 0, 1, 2]) {
                header(records, index).sequence = sequence;
            }
        });
        let read = read_records(&records).expect("a page");
        assert_eq!(read.bitmap, two_lines(0xFF, 0));
        assert_eq!(read.data_bits, 512 + 512 + 512 + 197);
    }
}

#[test]
fn x_is_the_last_column_and_not_the_next() {
    assert!(read_records(&upper_black()).is_ok());
    let records = upper_black_but(|records| {
        for index in 2..5 {
            header(records, index).x += 1;
        }
    });
    assert_eq!(refused(&records), (10, 2));
}

#[test]
fn x_after_a_full_pair_is_1725() {
    let next = |x| {
        let mut records = white();
        records[2] = data(1, 0, (7, 7), WW, &("1111111".repeat(13) + "0101001 0"));
        records.insert(3, data(2, x, (7, 7), BB, &white_words()));
        read_page(&file(&records), COMPARED, 4 + 4 * 216).map_err(|refusal| refusal.number)
    };
    assert_eq!(next(1725).map(|read| read.lines), Ok(4));
    assert_eq!(next(0), Err(10));
    assert_eq!(next(1726), Err(10));
}

// Runs of several words that end at the right edge.

/// X, the lengths and the state of a header, and the frame's bits.
type Image<'a> = (u16, (u16, u16), State, &'a str);

/// What comes of image frames of two row pairs.
fn read_two_pairs(frames: &[Image]) -> Result<Read, (u64, u64)> {
    let mut records = vec![set_up("0000")];
    for (sequence, (x, lengths, state, text)) in (0..).zip(frames) {
        records.push(data(sequence, *x, *lengths, *state, text));
    }
    records.push(Record::End);
    read_page(&file(&records), COMPARED, 4 + 4 * 216).map_err(number_and_record)
}

/// The columns of an accepted page of two row pairs, and how often a length fell
/// only because a run ended at the right edge.
fn two_pairs(read: Result<Read, (u64, u64)>) -> (Vec<u8>, usize) {
    let read = read.expect("a page");
    let page = bitmap::read(&read.bitmap).expect("a bitmap");
    (columns::of(&page), read.falls_at_edge)
}

#[test]
fn a_length_falls_at_the_right_edge() {
    let words = white_up_to_edge() + &white_after_edge();
    assert_eq!(bits(&words).len(), 226);
    // The X of the first image frame changes nothing.
    for x in [0, 9, 1715, 1724, 1725, 1726, 4095] {
        let read = read_two_pairs(&[(x, (7, 7), WW, &words)]);
        assert_eq!(two_pairs(read), (white_about_edge(), 1));
    }
}

#[test]
fn a_file_by_the_rule_before_is_another() {
    // The white length stayed 7, and 1724 columns are 13 times 127, and 73. Now
    // the 98 bits are 63 columns, 12 times 127, 1100100 for 19, and an open 1.
    let all_ones = "1111111".repeat(13);
    let words = white_up_to_edge() + &format!("000000 0 {all_ones} 1001001");
    assert_eq!(bits(&words).len(), 220);
    let read = read_two_pairs(&[(1725, (7, 7), WW, &words)]);
    assert_eq!(read, Err((13, 2)));
}

#[test]
fn the_next_header_says_the_length_after_the_right_edge() {
    let (first, second) = (white_up_to_edge(), white_after_edge());
    let next = |x, white| {
        let first = (0, (7, 7), WW, first.as_str());
        read_two_pairs(&[first, (x, (6, white), BB, &second)])
    };
    assert_eq!(two_pairs(next(0, 6)), (white_about_edge(), 1));
    assert_eq!(next(0, 7), Err((10, 2)));
    assert_eq!(next(0, 5), Err((10, 2)));
    assert_eq!(next(1, 6), Err((10, 2)));
}

#[test]
fn a_later_frame_is_read_from_the_x_it_says() {
    // The first frame ends after six words of ones, at column 827. The second has
    // 7 of them, 1716, and the closing word of 9 at the right edge.
    let first = format!("0000001 0 0000000 0 {}", "1111111".repeat(6));
    let second = format!("{} 1001000 0 {}", "1111111".repeat(7), white_after_edge());
    let frames = [
        (0, (7, 7), WW, first.as_str()),
        (827, (6, 7), WW, second.as_str()),
    ];
    assert_eq!(two_pairs(read_two_pairs(&frames)), (white_about_edge(), 1));
    // An open column counts: column 0 of the second row pair, which is BW here.
    let first = white_up_to_edge();
    let open = first.strip_suffix('0').expect("a move").to_string() + "1";
    let all_ones = "1111111".repeat(13);
    let second = format!("0100 111111 {all_ones} 0101000");
    let frames = [
        (0, (7, 7), WW, open.as_str()),
        (0, (6, 6), BW, second.as_str()),
    ];
    let mut columns = white_about_edge();
    columns[1726] = BW.pels();
    assert_eq!(two_pairs(read_two_pairs(&frames)), (columns, 1));
}

#[test]
fn a_run_begun_in_the_frame_before_has_its_own_first_word() {
    // The second frame has only the closing word of 9, which is then its first.
    let first = format!("0000001 0 0000000 0 {}", "1111111".repeat(13));
    let second = format!("1001000 0 {}", white_after_edge());
    let frames = [
        (0, (7, 7), WW, first.as_str()),
        (1716, (6, 7), WW, second.as_str()),
    ];
    assert_eq!(two_pairs(read_two_pairs(&frames)), (white_about_edge(), 0));
}

#[test]
fn record_sizes_are_those_of_the_pairs() {
    assert_eq!(RECORD, usize::from(SET_UP[0]));
    assert_eq!(RECORD, usize::from(DATA[0]));
}
