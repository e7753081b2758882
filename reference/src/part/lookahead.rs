//! The decoder of RFC 798 section V: it tells the moves apart by bits that it
//! looks at and does not consume. Those, in parentheses there, may be missing
//! at the end of the data.

use super::State::{self, BB, BW, WB, WW};
use super::{Part, Start, EDGE, OPEN};
use crate::page::PELS;

pub fn read(start: Start, bits: &[u8]) -> Option<Part> {
    decode(start, bits).ok()
}

/// The part, or the number of bits consumed where the decoder cannot go on. The
/// longest beginning that has a reading may have a bit more: one that is a move by
/// itself, and with the bits after it is not.
pub fn decode(start: Start, bits: &[u8]) -> Result<Part, usize> {
    let before = |rest: &[u8]| bits.len() - rest.len();
    let Start {
        mut state,
        mut black,
        mut white,
        x,
    } = start;
    let mut columns = Vec::new();
    let mut falls_at_edge = Vec::new();
    let mut rest = bits;
    let (end, closed) = loop {
        let mut closed = false;
        if state.is_solid() && !rest.is_empty() {
            let length = if state == WW { &mut white } else { &mut black };
            let run = run(rest, state, length, x, &mut columns).map_err(before)?;
            (rest, closed) = (run.rest, run.closed);
            if run.falls_at_edge {
                falls_at_edge.push(columns.len());
            }
        }
        let (next, consumed) = match (state, rest) {
            (_, []) => break (state.pels(), closed),
            (BW, [0] | [0, 0, ..]) => (BW, 1),
            (BW, [0, 1, 1, 1, ..]) => (BB, 4),
            (BW, [0, 1, 0] | [0, 1, 0, 1, ..]) => (WB, 3),
            (BW, [0, 1, 0, 0, ..]) => (WW, 4),
            (WB, [1] | [1, 1, ..]) => (WB, 1),
            (WB, [1, 0, 0, 0, ..]) => (WW, 4),
            (WB, [1, 0, 1] | [1, 0, 1, 0, ..]) => (BW, 3),
            (WB, [1, 0, 1, 1, ..]) => (BB, 4),
            (WW, [0, ..]) => (BB, 1),
            (BB, [0, ..]) => (WW, 1),
            (WW | BB, [1, 0, ..]) => (BW, 1),
            (WW | BB, [1, 1, ..]) => (WB, 1),
            (WW | BB, [1]) => break (OPEN, false),
            _ => return Err(before(rest)),
        };
        columns.push(next.pels());
        state = next;
        rest = &rest[consumed..];
    };
    Ok(Part {
        columns,
        end,
        closed,
        black,
        white,
        falls_at_edge,
    })
}

/// What the run length algorithm leaves.
struct Run<'a> {
    /// The bits after the run's last word.
    rest: &'a [u8],
    /// Whether that word closes the run. It is one of ones only if there are no
    /// bits after it.
    closed: bool,
    /// Whether the field length fell by the special rule only.
    falls_at_edge: bool,
}

/// The run length algorithm: lays the run's columns after those laid since X. If
/// a word is cut, gives what is left of it.
fn run<'a>(
    mut rest: &'a [u8],
    state: State,
    length: &mut usize,
    x: usize,
    columns: &mut Vec<u8>,
) -> Result<Run<'a>, &'a [u8]> {
    let mut single = true;
    loop {
        let (word, after) = rest.split_at_checked(*length).ok_or(rest)?;
        rest = after;
        let value = word
            .iter()
            .rev()
            .fold(0, |value, bit| value << 1 | usize::from(*bit));
        columns.resize(columns.len() + value, state.pels());
        if word.contains(&0) {
            // The special rule: the run ends exactly at the end of a scan line.
            let at_edge = (x + columns.len()) % PELS == EDGE;
            // The highest order bit is the last: 0 in a word of three, or 0
            // like the one before it in a longer one.
            let is_small = matches!(word, [_, _, 0] | [_, _, .., 0, 0]);
            if is_small && (single || at_edge) {
                *length -= 1;
            }
            return Ok(Run {
                rest,
                closed: true,
                falls_at_edge: is_small && at_edge && !single,
            });
        }
        *length = 7.min(*length + 1);
        if rest.is_empty() {
            return Ok(Run {
                rest,
                closed: false,
                falls_at_edge: false,
            });
        }
        single = false;
    }
}
