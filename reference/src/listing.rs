//! The listing of a page file, the records of one each by itself, and files to try both on.

use crate::file::read::{read_page, record_by_itself};
use crate::file::{stored, turn_sent_bit, Record, Records, DATA, RECORD};
use crate::frame::{self, Frame, Header, RUN};
use crate::octets::{all_turned, high_first};
use crate::refusal::Refusal;
use crate::register::{HandedIn, Order, Setting};

/// A longer file is not listed.
pub const MOST_OCTETS: usize = 65_536;

/// The setting that docs/CHECK-SETTING.md records, by which the files to list are made.
pub const SETTING: Setting = Setting {
    generator: 425,
    start: 0,
    first_bit: 0,
    order: Order::LowFirst,
};

/// The same as it is handed in; it is not compared.
pub const RECORDED: HandedIn = HandedIn {
    generator: 425,
    start: 0,
    first_bit: 0,
    compare: 0,
    order: 0,
};

pub fn listing(file: &[u8], check: HandedIn) -> String {
    if file.len() > MOST_OCTETS {
        return "too long\n".to_string();
    }
    let (records, last) = match read_page(file, check, usize::MAX) {
        Ok(read) => (
            read.end,
            format!("{} end\nok lines {}\n", read.end, read.lines),
        ),
        Err(refusal) => (refusal.record, format!("{refusal}\n")),
    };
    let lines = file.chunks(RECORD).take(records as usize).enumerate();
    lines.map(|(k, record)| line(k, record)).collect::<String>() + &last
}

/// A line a record, each judged by itself whatever came before it, as far as one that is refused.
pub fn records(file: &[u8], check: HandedIn) -> String {
    let Some((setting, compare)) = check.allowed() else {
        return format!("{}\n", Refusal::of_no_record(20));
    };
    let mut text = String::new();
    let mut rest = file;
    let mut k = 0;
    loop {
        match record_by_itself(rest, compare.then_some(setting)) {
            Ok((Record::End, _)) => return text + &format!("{k} end\n"),
            Ok((_, octets)) => {
                text += &line(k, &rest[..octets]);
                rest = &rest[octets..];
            }
            Err(number) => return text + &format!("{}\n", Refusal::from(number).at(k as u64)),
        }
        k += 1;
    }
}

fn line(k: usize, record: &[u8]) -> String {
    let sent = all_turned(&record[2..]);
    if record[..2] == DATA {
        let h = Header::of(&sent);
        return format!(
            "{k} data seq {} count {} x {} black {} white {} state {:02b}\n",
            h.sequence, h.count, h.x, h.black, h.white, h.state
        );
    }
    let mode = ["quality", "detail", "express"][usize::from(high_first(&sent, frame::DATA + 1, 2))];
    let paper = ["11", "5.5", "14"][usize::from(high_first(&sent, frame::DATA + 3, 2))];
    format!("{k} setup {mode} {paper}\n")
}

// ---- files to list

fn set_up(settings: &str) -> Record<Frame> {
    let text = format!("0{settings}1000000{:020}{}", 0, "10".repeat(240));
    Record::SetUp(Frame::new(Header::OF_SET_UP, &bits(&text)))
}

fn bits(text: &str) -> Vec<u8> {
    text.bytes().map(|b| b - b'0').collect()
}

/// A data record of these bits, in WW with both lengths 7.
fn data(sequence: u16, x: u16, text: &str) -> Record<Frame> {
    let bits = bits(text);
    let header = Header {
        sequence,
        flags: RUN,
        count: bits.len() as u16,
        x,
        black: 7,
        white: 7,
        state: 0,
    };
    Record::Data(Frame::new(header, &bits))
}

/// The scope paper's example: two white lines in detail mode, eleven inch.
fn example() -> Records {
    with(&("1111111".repeat(13) + "1101001"))
}

/// A file with one image frame of these bits.
fn with(text: &str) -> Records {
    vec![
        set_up("0100"),
        data(0, 1725, ""),
        data(1, 1725, text),
        Record::End,
    ]
}

/// A file whose record 40 has no reading behind bit 213. The image frames before it lay 127 columns each. Its own bits are 29 words of
/// ones, one that closes the run, the move to BW and a column more there, all of 212 bits, and 0110, of which the 0 is a column too.
fn unread_at_40() -> Records {
    let unread = "1111111".repeat(29) + "0000000" + "10" + "0110";
    let mut records = vec![set_up("0100"), data(0, 1725, "")];
    for k in 2..=40 {
        let x = (1725 + 127 * (k - 2)) % 1726;
        let text = if k < 40 { "1111111" } else { &unread };
        records.push(data((k - 1) % 4, x, text));
    }
    records.push(Record::End);
    records
}

/// A file of so many white columns.
fn white(columns: usize) -> Records {
    let mut records = vec![set_up("1010"), data(0, 1725, "")];
    let mut laid = 0;
    while laid < columns {
        let words = ((columns - laid) / 127).min(73);
        let ends = columns - laid - 127 * words < 127 && words < 73;
        let mut text = "1111111".repeat(words);
        let x = (laid + 1725) % 1726;
        laid += 127 * words;
        if ends {
            let rest = columns - laid;
            text.extend((0..7).map(|i| if rest >> i & 1 == 1 { '1' } else { '0' }));
            laid = columns;
        }
        records.push(data((records.len() - 1) as u16 % 4, x as u16, &text));
    }
    records.push(Record::End);
    records
}

fn header(records: &mut [Record<Frame>], index: usize) -> &mut Header {
    &mut records[index].frame_mut().expect("a frame").header
}

/// The example, and files under their names: an empty one, one as long as a file may be and one that is longer, a page of three set-up
/// records and noise behind its end, one that is refused far into a data part, and a refusal of each number that a listing can give. 5 is not
/// among them, since checks are not compared, nor is 16, since no bitmap is laid, nor 20, since the setting is allowed.
pub fn files() -> Vec<(String, Vec<u8>)> {
    let file = |records: &[Record<Frame>]| stored(records, SETTING);
    let changed = |change: &dyn Fn(&mut Records)| {
        let mut records = example();
        change(&mut records);
        file(&records)
    };
    let right = file(&example());
    let with_length = |n: usize| {
        let mut octets = right.clone();
        octets.resize(n, 0xA5);
        octets
    };
    let mut unknown = right.clone();
    unknown[RECORD + 1] = 59;
    let mut unsynced = right.clone();
    turn_sent_bit(&mut unsynced, 2, 23);
    let papers = changed(&|r| {
        r.insert(1, set_up("0010"));
        r.insert(2, set_up("1001"));
        r.insert(5, set_up("0000"));
    });
    let refused = [
        (1, right[..RECORD * 2 + 40].to_vec()),
        (2, unknown),
        (3, changed(&|r| drop(r.remove(0)))),
        (4, unsynced),
        (6, changed(&|r| r[0] = set_up("0011"))),
        (7, changed(&|r| header(r, 2).sequence = 2)),
        (8, changed(&|r| header(r, 2).count = 513)),
        (9, changed(&|r| header(r, 2).black = 1)),
        (10, changed(&|r| header(r, 2).state = 3)),
        (11, file(&with("000"))),
        (12, changed(&|r| r.insert(3, data(2, 1725, "1111111")))),
        (13, file(&with("00000001"))),
        (14, file(&with("1111111"))),
        (15, file(&white(1726 * 3001))),
    ];
    let mut files = vec![
        ("empty".to_string(), Vec::new()),
        ("papers".to_string(), papers),
        ("longest".to_string(), with_length(MOST_OCTETS)),
        ("too-long".to_string(), with_length(MOST_OCTETS + 1)),
        ("unread-at-40".to_string(), file(&unread_at_40())),
    ];
    files.extend(refused.map(|(number, octets)| (format!("refused-{number:02}"), octets)));
    files.insert(0, ("-".to_string(), right));
    files
}

/// A file whose records are each right by itself, and none of which is what the ones before it ask for: data before a set-up, sequence numbers that do not go on, a
/// header that no reading takes, and a set-up between; and noise behind its end.
pub fn out_of_order() -> Vec<u8> {
    let mut records = vec![
        data(2, 17, "1111111"),
        set_up("0100"),
        data(2, 1725, ""),
        data(1, 4095, "01"),
        set_up("1001"),
        Record::End,
    ];
    let h = header(&mut records, 3);
    (h.count, h.black, h.white, h.state) = (1023, 0, 1, 2);
    let mut octets = stored(&records, SETTING);
    octets.extend([0xA5; 100]);
    octets
}

#[cfg(test)]
mod tests {
    use super::*;

    #[test]
    fn each_record_is_judged_by_itself() {
        let compared = HandedIn::of(SETTING, true);
        let expected = "\
0 data seq 2 count 7 x 17 black 7 white 7 state 00
1 setup detail 11
2 data seq 2 count 0 x 1725 black 7 white 7 state 00
3 data seq 1 count 1023 x 4095 black 0 white 1 state 10
4 setup express 5.5
5 end
";
        let right = out_of_order();
        assert_eq!(records(&right, compared), expected);
        assert_eq!(listing(&right, compared), "refused 3 at 0\n");
        let last = |file: &[u8], check| {
            let text = records(file, check);
            text.lines().last().expect("a line").to_string()
        };
        assert_eq!(last(&right[..RECORD * 2 + 40], compared), "refused 1 at 2");
        assert_eq!(last(&right[..RECORD * 2], compared), "refused 1 at 2");
        assert_eq!(last(&[], compared), "refused 1 at 0");
        let mut damaged = right.clone();
        turn_sent_bit(&mut damaged, 2, 200);
        assert_eq!(last(&damaged, compared), "refused 5 at 2");
        assert_eq!(last(&damaged, RECORDED), "5 end");
        let not_allowed = HandedIn {
            generator: 424,
            ..compared
        };
        assert_eq!(records(&right, not_allowed), "refused 20 at 0\n");
    }

    #[test]
    fn records_by_themselves_end_where_a_listing_does_or_later() {
        for (name, octets) in files() {
            let (whole, alone) = (listing(&octets, RECORDED), records(&octets, RECORDED));
            let last = alone.lines().last().expect("a line");
            match name.strip_prefix("refused-") {
                Some("01" | "02" | "04" | "06") => assert_eq!(alone, whole, "{name}"),
                None if name == "empty" => assert_eq!(alone, whole),
                _ => assert!(last.ends_with(" end"), "{name}: {last}"),
            }
        }
    }

    #[test]
    fn the_example_is_listed_letter_for_letter() {
        let expected = "\
0 setup detail 11
1 data seq 0 count 0 x 1725 black 7 white 7 state 00
2 data seq 1 count 98 x 1725 black 7 white 7 state 00
3 end
ok lines 2
";
        assert_eq!(listing(&files()[0].1, RECORDED), expected);
    }

    #[test]
    fn each_refusal_is_listed_by_its_number() {
        for (name, octets) in files() {
            let text = listing(&octets, RECORDED);
            let last = text.lines().last().expect("a line").to_string();
            match name.strip_prefix("refused-") {
                Some("11") => assert_eq!(last, "refused 11 at 2 bit 0"),
                Some(number) => {
                    let number: u64 = number.parse().expect("a number");
                    let record = last.strip_prefix(&format!("refused {number} at "));
                    let is_number = |record: &str| record.parse::<u64>().is_ok();
                    assert!(record.is_some_and(is_number), "{name}: {last}");
                }
                None if name == "unread-at-40" => assert_eq!(last, "refused 11 at 40 bit 213"),
                None if name == "empty" => assert_eq!(last, "refused 1 at 0"),
                None if name == "too-long" => assert_eq!(last, "too long"),
                None => assert!(last.starts_with("ok lines "), "{name}: {last}"),
            }
        }
    }
}
