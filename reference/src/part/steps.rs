//! The scope paper's diagram: where a reading may stand, the steps that it may
//! take from there, the bits of each step and the columns that it lays. What
//! comes after a step's bits is never looked at.

use super::State::{self, BB, BW, WB, WW};
use super::{Part, Start, EDGE};
use crate::octets::bits_low_first;

/// The moves: from, to, and the bits in the order sent.
const MOVES: [(State, State, Code); 14] = [
    (BW, BW, Code::of("0")),
    (BW, WB, Code::of("010")),
    (BW, WW, Code::of("0100")),
    (BW, BB, Code::of("0111")),
    (WB, WB, Code::of("1")),
    (WB, BW, Code::of("101")),
    (WB, WW, Code::of("1000")),
    (WB, BB, Code::of("1011")),
    (WW, BB, Code::of("0")),
    (WW, BW, Code::of("1")),
    (WW, WB, Code::of("1")),
    (BB, WW, Code::of("0")),
    (BB, BW, Code::of("1")),
    (BB, WB, Code::of("1")),
];

#[derive(Clone, Copy, Debug, PartialEq, Eq)]
pub enum Step {
    /// A move into a state.
    Move(State),
    /// A run word of ones only.
    AllOnes,
    /// A run word of another value, which closes its run.
    Closing(u64),
}

/// What must come next.
#[derive(Clone, Copy, Debug, PartialEq, Eq)]
pub enum Due {
    /// A run's first word in this frame.
    FirstWord,
    /// A word after one of all ones.
    FurtherWord,
    Move,
}

/// Where a reading stands.
#[derive(Clone, Copy, Debug, PartialEq, Eq)]
pub struct Place {
    pub state: State,
    pub due: Due,
    pub black: usize,
    pub white: usize,
    /// The index in its row pair of the last column laid, 0 to 1725.
    pub x: usize,
}

/// The bits of a step.
#[derive(Clone, Copy, Debug, PartialEq, Eq)]
pub struct Code {
    pub length: usize,
    /// The bit sent first is the lowest.
    pub value: u64,
}

impl Code {
    /// The code of bits written out in the order sent.
    const fn of(bits: &str) -> Code {
        let length = bits.len();
        let mut value = 0;
        let mut i = 0;
        while i < length {
            value |= ((bits.as_bytes()[i] - b'0') as u64) << i;
            i += 1;
        }
        Code { length, value }
    }

    pub fn bits(self) -> impl Iterator<Item = u8> {
        bits_low_first(self.value, self.length)
    }

    /// Whether `bits` begin with it.
    pub fn begins(self, bits: &[u8]) -> bool {
        self.length <= bits.len() && self.bits().zip(bits).all(|(own, bit)| own == *bit)
    }
}

impl Place {
    pub fn of(start: Start) -> Place {
        Place {
            state: start.state,
            due: due_in(start.state),
            black: start.black,
            white: start.white,
            x: start.x,
        }
    }

    /// The start of a frame that goes on from here.
    pub fn start(self) -> Start {
        Start {
            state: self.state,
            black: self.black,
            white: self.white,
            x: self.x,
        }
    }

    pub fn allowed(self) -> Vec<Step> {
        match self.due {
            Due::Move => self.moves().map(|(to, _)| Step::Move(to)).collect(),
            Due::FirstWord | Due::FurtherWord => (0..self.all_ones())
                .map(Step::Closing)
                .chain([Step::AllOnes])
                .collect(),
        }
    }

    pub fn code(self, step: Step) -> Code {
        let word = |value| Code {
            length: self.field_length(),
            value,
        };
        match step {
            Step::Move(to) => {
                let mut moves = self.moves();
                let (_, code) = moves
                    .find(|(state, _)| *state == to)
                    .expect("the move is allowed");
                code
            }
            Step::AllOnes => word(self.all_ones()),
            Step::Closing(value) => word(value),
        }
    }

    /// The place after a step that is allowed here.
    pub fn after(self, step: Step) -> Place {
        let place = Place {
            x: self.x_after(step),
            ..self
        };
        match step {
            Step::Move(state) => Place {
                state,
                due: due_in(state),
                ..place
            },
            Step::AllOnes => place.with(Due::FurtherWord, (self.field_length() + 1).min(7)),
            Step::Closing(value) => {
                let n = self.field_length();
                let falls = self.is_tested(step) && falls(n, value);
                place.with(Due::Move, n - usize::from(falls))
            }
        }
    }

    /// X after a step: each column that it lays moves it on, from the right edge
    /// to 0.
    pub fn x_after(self, step: Step) -> usize {
        let (_, columns) = self.lays(step);
        (0..columns).fold(self.x, |x, _| if x == EDGE { 0 } else { x + 1 })
    }

    /// Whether a closing word is tested for the fall of the field length: it is
    /// its run's only word in this frame, or the run's last column is the last
    /// of a row pair.
    fn is_tested(self, step: Step) -> bool {
        self.due == Due::FirstWord || self.x_after(step) == EDGE
    }

    /// Whether the field length falls at a step only because its run ends at the
    /// right edge.
    pub fn falls_at_edge(self, step: Step) -> bool {
        match step {
            Step::Closing(value) => {
                let is_only_word = self.due == Due::FirstWord;
                !is_only_word && self.is_tested(step) && falls(self.field_length(), value)
            }
            Step::Move(_) | Step::AllOnes => false,
        }
    }

    /// The state of the columns that a step lays, and their number.
    pub fn lays(self, step: Step) -> (State, usize) {
        match step {
            Step::Move(state) => (state, 1),
            Step::AllOnes => (self.state, self.all_ones() as usize),
            Step::Closing(value) => (self.state, value as usize),
        }
    }

    /// The field length of the state's run words.
    pub fn field_length(self) -> usize {
        match self.state {
            WW => self.white,
            BB => self.black,
            WB | BW => unreachable!("a mixed state has no run words"),
        }
    }

    /// The value of a word of ones only.
    pub fn all_ones(self) -> u64 {
        (1 << self.field_length()) - 1
    }

    fn moves(self) -> impl Iterator<Item = (State, Code)> {
        MOVES
            .iter()
            .filter(move |(from, _, _)| *from == self.state)
            .map(|(_, to, code)| (*to, *code))
    }

    /// This place with something else due and another field length.
    fn with(self, due: Due, length: usize) -> Place {
        let place = Place { due, ..self };
        match self.state {
            WW => Place {
                white: length,
                ..place
            },
            BB => Place {
                black: length,
                ..place
            },
            WB | BW => place,
        }
    }
}

/// What is due on entering a state, or on starting a frame in it.
fn due_in(state: State) -> Due {
    if state.is_solid() {
        Due::FirstWord
    } else {
        Due::Move
    }
}

/// Whether a closing word of length `n` that is tested lowers the field length.
pub fn falls(n: usize, value: u64) -> bool {
    match n {
        4..=7 => value < 1 << (n - 2),
        3 => value < 4,
        _ => false,
    }
}

/// A list of steps, each with the place that it is taken from.
#[derive(Clone, Debug, PartialEq, Eq)]
pub struct Reading {
    pub start: Start,
    pub steps: Vec<(Place, Step)>,
}

impl Reading {
    /// The bits of the steps, end to end.
    pub fn bits(&self) -> Vec<u8> {
        self.steps
            .iter()
            .flat_map(|(place, step)| place.code(*step).bits())
            .collect()
    }

    /// Whether the last step is a 1 out of a solid state, which leaves open
    /// the mixed state that it enters.
    pub fn is_open(&self) -> bool {
        matches!(self.steps.last(),
            Some((place, Step::Move(BW | WB))) if place.state.is_solid())
    }

    /// Whether the last step is a closing word.
    pub fn is_closed(&self) -> bool {
        matches!(self.steps.last(), Some((_, Step::Closing(_))))
    }

    /// The number of columns, an open one counted.
    pub fn columns(&self) -> usize {
        let laid = |(place, step): &(Place, Step)| place.lays(*step).1;
        self.steps.iter().map(laid).sum()
    }

    /// The place after the last step.
    pub fn end(&self) -> Place {
        match self.steps.last() {
            Some((place, step)) => place.after(*step),
            None => Place::of(self.start),
        }
    }

    /// What the steps amount to, every column of theirs counted.
    pub fn part(&self) -> Part {
        let mut columns = Vec::new();
        let mut falls_at_edge = Vec::new();
        for (place, step) in &self.steps {
            let (state, number) = place.lays(*step);
            columns.extend(std::iter::repeat_n(state.pels(), number));
            if place.falls_at_edge(*step) {
                falls_at_edge.push(columns.len());
            }
        }
        let end = self.end();
        Part {
            columns,
            end: end.state.pels(),
            closed: self.is_closed(),
            black: end.black,
            white: end.white,
            falls_at_edge,
        }
    }
}
