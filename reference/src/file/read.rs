//! Reading a page file, record after record.

use super::{are_settings, Record, DATA, END, SET_UP};
use crate::frame::{self, Header, OCTETS, RIGHT_SYNC};
use crate::octets::{all_turned, high_first};
use crate::page::{bitmap, columns, LINES, PELS};
use crate::part::{self, Part, Start, StartHandedIn, State, OPEN};
use crate::refusal::Refusal;
use crate::register::{HandedIn, Setting};

#[derive(Clone, Debug, PartialEq, Eq)]
pub struct Read {
    /// The octets up to and with the end record.
    pub used: usize,
    pub lines: usize,
    pub settings: u64,
    /// The counts of the image frames, summed.
    pub data_bits: u64,
    pub columns: usize,
    pub bitmap: Vec<u8>,
    /// The index of the end record.
    pub end: u64,
    /// How often a field length fell only because a run ended at the right edge,
    /// not counting the page's last word.
    pub falls_at_edge: usize,
}

/// Reads a file, with so many octets of room for the bitmap.
pub fn read_page(file: &[u8], check: HandedIn, room: usize) -> Result<Read, Refusal> {
    let (setting, compare) = check.allowed().ok_or(Refusal::of_no_record(20))?;
    let mut reader = Reader::by(compare.then_some(setting));
    let mut used = 0;
    let mut record = 0;
    loop {
        let by_number = |number| Refusal::from(number).at(record);
        let (due, octets) = record_due(&file[used..]).map_err(by_number)?;
        used += octets;
        reader.take(&due).map_err(|refusal| refusal.at(record))?;
        if due == Record::End {
            let bitmap = reader.bitmap(room).map_err(by_number)?;
            return Ok(reader.read(used, record, bitmap));
        }
        record += 1;
    }
}

/// The record at the front, its frame as sent, and the number of its octets.
fn record_due(rest: &[u8]) -> Result<(Record<Vec<u8>>, usize), u64> {
    let (pair, after) = rest.split_first_chunk().ok_or(1_u64)?;
    let record = match *pair {
        SET_UP => Record::SetUp(frame_due(after)?),
        DATA => Record::Data(frame_due(after)?),
        END => Record::End,
        _ => return Err(2),
    };
    Ok((record, usize::from(pair[0])))
}

fn frame_due(rest: &[u8]) -> Result<Vec<u8>, u64> {
    let stored = rest.get(..OCTETS).ok_or(1_u64)?;
    Ok(all_turned(stored))
}

/// The record at the front, judged by itself whatever came before it, and the number of its octets. Checks are compared by the setting, if there is one.
pub fn record_by_itself(
    rest: &[u8],
    setting: Option<Setting>,
) -> Result<(Record<Vec<u8>>, usize), u64> {
    let (record, octets) = record_due(rest)?;
    if let Some(frame) = record.frame() {
        judge_frame(frame, setting)?;
    }
    if let Record::SetUp(frame) = &record {
        settings_of(frame)?;
    }
    Ok((record, octets))
}

/// Judges what all frames have.
fn judge_frame(frame: &[u8], setting: Option<Setting>) -> Result<(), u64> {
    if !frame.starts_with(&RIGHT_SYNC) {
        return Err(4);
    }
    match setting {
        Some(setting) if !setting.agrees(frame) => Err(5),
        _ => Ok(()),
    }
}

/// The settings of a set-up frame.
fn settings_of(frame: &[u8]) -> Result<u64, u64> {
    if Header::of(frame).sequence != 0 {
        return Err(7);
    }
    // A start bit of 1 makes it 16 or more.
    let settings = u64::from(high_first(frame, frame::DATA, 5));
    if !are_settings(settings) {
        return Err(6);
    }
    Ok(settings)
}

/// The records that came before the one that is due.
#[derive(Clone, Copy)]
enum Before {
    Nothing,
    SetUps,
    /// Set-ups, and data last.
    Data,
    /// Set-ups, data, and set-ups last.
    DataAndSetUps,
}

impl Before {
    /// What came before the next record, if this one is in its place.
    fn with<F>(self, record: &Record<F>) -> Option<Before> {
        match (self, record) {
            (Before::Nothing | Before::SetUps, Record::SetUp(_)) => Some(Before::SetUps),
            (Before::SetUps | Before::Data, Record::Data(_)) => Some(Before::Data),
            (Before::Data | Before::DataAndSetUps, Record::SetUp(_)) => Some(Before::DataAndSetUps),
            (Before::Data | Before::DataAndSetUps, Record::End) => Some(self),
            _ => None,
        }
    }
}

/// What is read of a page so far.
struct Reader {
    /// What checks are compared by, if they are.
    setting: Option<Setting>,
    before: Before,
    settings: Option<u64>,
    data_records: u64,
    data_bits: u64,
    /// The columns laid, without one that is open.
    columns: Vec<u8>,
    /// How the last image frame ended.
    last: Option<Part>,
    /// Where a field length fell only because a run ended at the right edge: the
    /// number of columns laid by then.
    falls_at_edge: Vec<usize>,
}

impl Reader {
    fn by(setting: Option<Setting>) -> Reader {
        Reader {
            setting,
            before: Before::Nothing,
            settings: None,
            data_records: 0,
            data_bits: 0,
            columns: Vec::new(),
            last: None,
            falls_at_edge: Vec::new(),
        }
    }

    /// Takes a record. A refusal does not yet say at which it falls.
    fn take(&mut self, record: &Record<Vec<u8>>) -> Result<(), Refusal> {
        self.before = self.before.with(record).ok_or(3_u64)?;
        if let Some(frame) = record.frame() {
            judge_frame(frame, self.setting)?;
        }
        match record {
            Record::SetUp(frame) => self.take_set_up(frame),
            Record::Data(frame) => self.take_data(frame),
            Record::End => Ok(()),
        }
    }

    fn take_set_up(&mut self, frame: &[u8]) -> Result<(), Refusal> {
        self.settings.get_or_insert(settings_of(frame)?);
        Ok(())
    }

    fn take_data(&mut self, frame: &[u8]) -> Result<(), Refusal> {
        let header = Header::of(frame);
        if u64::from(header.sequence) != self.data_records % 4 {
            return Err(7.into());
        }
        self.data_records += 1;
        if header.count == 0 {
            return Ok(());
        }
        let count = u64::from(header.count);
        // The X so far. The first image frame's own is not looked at, and any
        // other header must say the same.
        let start = StartHandedIn {
            state: header.state.into(),
            black: header.black.into(),
            white: header.white.into(),
            x: self.last_column() as u64,
        };
        let (start, bits) = part::handed_in(&frame::data(frame), count, start)?;
        if self.last.as_ref().is_some_and(|last| last.closed) {
            return Err(12.into());
        }
        if !self.agrees(header, start) {
            return Err(10.into());
        }
        let part = part::read_or_refuse(start, &bits)?;
        self.data_bits += count;
        self.lay(start.state, part);
        Ok(())
    }

    /// Whether an image frame with this header may start so.
    fn agrees(&self, header: Header, start: Start) -> bool {
        let Some(last) = &self.last else {
            return start == Start::OF_PAGE;
        };
        let state = match last.end {
            OPEN => !start.state.is_solid(),
            end => start.state.pels() == end,
        };
        let lengths = (start.black, start.white) == (last.black, last.white);
        usize::from(header.x) == start.x && state && lengths
    }

    /// The index in its pair of the last column laid, an open one counted, and
    /// the index of the column before the page's first one if there is none.
    fn last_column(&self) -> usize {
        let laid = self.columns.len() + usize::from(self.is_open());
        (laid + PELS - 1) % PELS
    }

    fn is_open(&self) -> bool {
        self.last.as_ref().is_some_and(|last| last.end == OPEN)
    }

    /// Lays the open column, which is in the frame's first state, and the
    /// frame's own.
    fn lay(&mut self, state: State, mut part: Part) {
        if self.is_open() {
            self.columns.push(state.pels());
        }
        let before = self.columns.len();
        let falls = part.falls_at_edge.iter().map(|columns| before + columns);
        self.falls_at_edge.extend(falls);
        self.columns.append(&mut part.columns);
        self.last = Some(part);
    }

    /// The bitmap of the whole page.
    fn bitmap(&self, room: usize) -> Result<Vec<u8>, u64> {
        let columns = self.columns.len();
        if self.is_open() {
            return Err(13);
        }
        if columns == 0 || !columns.is_multiple_of(PELS) {
            return Err(14);
        }
        if self.lines() > LINES {
            return Err(15);
        }
        if room < bitmap::HEADER + bitmap::LINE * self.lines() {
            return Err(16);
        }
        Ok(bitmap::written(&columns::page(&self.columns)))
    }

    fn lines(&self) -> usize {
        2 * (self.columns.len() / PELS)
    }

    fn read(&self, used: usize, end: u64, bitmap: Vec<u8>) -> Read {
        let columns = self.columns.len();
        let falls_at_edge = self.falls_at_edge.iter();
        Read {
            used,
            lines: self.lines(),
            settings: self.settings.expect("a set-up comes first"),
            data_bits: self.data_bits,
            columns,
            bitmap,
            end,
            falls_at_edge: falls_at_edge.filter(|laid| **laid < columns).count(),
        }
    }
}

#[cfg(test)]
mod tests;
