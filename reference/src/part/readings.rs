//! The search for every reading of a string of bits: from each place reached
//! it tries every step that is allowed there, whatever bits come after.

use super::steps::{Place, Reading, Step};
use super::{Part, Start, OPEN};

/// A place reached at a bit of the string, by a step out of an earlier node.
struct Node {
    at: usize,
    place: Place,
    by: Option<(usize, Step)>,
}

/// All readings of `bits`.
pub fn readings(start: Start, bits: &[u8]) -> Vec<Reading> {
    let nodes = nodes(start, bits);
    let whole = (0..nodes.len()).filter(|i| nodes[*i].at == bits.len());
    whole.map(|i| reading(start, &nodes, i)).collect()
}

/// The length of the longest beginning of `bits` that has a reading: the furthest
/// bit that is reached, since the steps that reach one are a reading of all before
/// it.
pub fn longest_beginning(start: Start, bits: &[u8]) -> usize {
    let reached = nodes(start, bits).into_iter().map(|node| node.at);
    reached.max().expect("the start is reached")
}

/// Every place reached. Nodes are not merged, so that two ways to one place are
/// two readings.
fn nodes(start: Start, bits: &[u8]) -> Vec<Node> {
    let mut nodes = vec![Node {
        at: 0,
        place: Place::of(start),
        by: None,
    }];
    let mut reached = vec![0; bits.len() + 1];
    let mut next = 0;
    while next < nodes.len() {
        let Node { at, place, .. } = nodes[next];
        for step in place.allowed() {
            let code = place.code(step);
            if code.begins(&bits[at..]) {
                let after = at + code.length;
                nodes.push(Node {
                    at: after,
                    place: place.after(step),
                    by: Some((next, step)),
                });
                // The beginning up to here is a string too, and has at most
                // two readings. This also keeps the search short.
                reached[after] += 1;
                assert!(
                    reached[after] <= 2,
                    "three readings of {:?}",
                    &bits[..after]
                );
            }
        }
        next += 1;
    }
    nodes
}

/// The steps that lead to a node.
fn reading(start: Start, nodes: &[Node], mut node: usize) -> Reading {
    let mut steps = Vec::new();
    while let Some((from, step)) = nodes[node].by {
        steps.push((nodes[from].place, step));
        node = from;
    }
    steps.reverse();
    Reading { start, steps }
}

/// The part that the readings agree on, if there are any. That there is one, or
/// two which differ in the state that a last 1 enters, is the scope paper's
/// claim; it is asserted here.
pub fn read(start: Start, bits: &[u8]) -> Option<Part> {
    let mut readings = readings(start, bits);
    let reading = readings.pop()?;
    let Some(mut other) = readings.pop() else {
        assert!(!reading.is_open(), "one reading of {bits:?}");
        return Some(reading.part());
    };
    assert!(readings.is_empty(), "three readings of {bits:?}");
    assert!(reading.is_open() && other.is_open(), "two of {bits:?}");
    let mut before = reading;
    assert_ne!(before.steps.pop(), other.steps.pop());
    assert_eq!(before, other);
    Some(Part {
        end: OPEN,
        closed: false,
        ..before.part()
    })
}

#[cfg(test)]
mod tests {
    use super::*;
    use crate::part::State::{self, BB, BW, WB, WW};

    fn start(state: State) -> Start {
        Start {
            state,
            black: 2,
            white: 2,
            x: 0,
        }
    }

    #[test]
    fn a_last_one_out_of_a_solid_state_has_two_readings() {
        for solid in [WW, BB] {
            let readings = readings(start(solid), &[0, 0, 1]);
            let last: Vec<_> = readings.iter().map(|r| r.steps[1].1).collect();
            assert_eq!(last, [Step::Move(BW), Step::Move(WB)]);
        }
    }

    #[test]
    fn the_next_bit_settles_it() {
        for (bit, state) in [(0, BW), (1, WB)] {
            let readings = readings(start(WW), &[0, 0, 1, bit]);
            assert_eq!(readings.len(), 1);
            assert_eq!(readings[0].steps[1].1, Step::Move(state));
        }
    }

    #[test]
    fn the_empty_string_has_one_reading() {
        for state in State::ALL {
            assert_eq!(readings(start(state), &[]).len(), 1);
        }
    }

    #[test]
    fn readings_have_the_bits_of_the_string() {
        for value in 0..1 << 10 {
            let bits: Vec<u8> = (0..10).map(|i| (value >> i & 1) as u8).collect();
            for state in State::ALL {
                for reading in readings(start(state), &bits) {
                    assert_eq!(reading.bits(), bits);
                }
            }
        }
    }
}
