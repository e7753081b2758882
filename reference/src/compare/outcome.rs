//! What a call leaves behind in the memory that it is lent, and what it should.

use std::fmt;

use super::lent::{Item, Lent};
use crate::random::Random;
use crate::refusal::Refusal;

/// The memory lent to a call.
#[derive(Clone, Copy, Debug, PartialEq, Eq)]
pub struct Memory {
    /// The items lent for the output.
    pub room: usize,
    /// The seed of what it and the answer hold before the call.
    pub fill: u64,
}

impl Memory {
    /// For `items`: just enough, too little, some more or as many as `more` items
    /// more.
    pub fn random(random: &mut Random, items: usize, more: u64) -> Memory {
        let room = match random.below(16) {
            0..=8 => items,
            9 => items.saturating_sub(1),
            10 => 0,
            11..=14 => items + 1 + random.below(64) as usize,
            _ => items + random.below(more) as usize,
        };
        Memory {
            room,
            fill: random.number(),
        }
    }
}

impl fmt::Display for Memory {
    fn fmt(&self, f: &mut fmt::Formatter) -> fmt::Result {
        let Memory { room, fill } = self;
        write!(f, "room {room}, fill {fill}")
    }
}

/// What a call writes when it does not refuse.
#[derive(Clone, Debug, PartialEq, Eq)]
pub struct Written<T, const N: usize> {
    pub items: Vec<T>,
    pub answer: [u64; N],
}

/// The ways in which a call does not do what is expected, in words.
pub fn difference<T: Item, const N: usize>(
    memory: Memory,
    expected: &Result<Written<T, N>, Refusal>,
    call: impl FnOnce(&mut [T], &mut [u64; N]) -> u64,
) -> Option<String> {
    let promised = Outcome::promised(memory, expected);
    promised.difference(&Outcome::of(memory, call))
}

#[derive(Debug)]
struct Outcome<T> {
    returned: u64,
    items: Lent<T>,
    answer: Lent<u64>,
}

impl<T: Item> Outcome<T> {
    fn of<const N: usize>(
        memory: Memory,
        call: impl FnOnce(&mut [T], &mut [u64; N]) -> u64,
    ) -> Outcome<T> {
        let mut random = Random::new(memory.fill);
        let mut items = Lent::new(&mut random, memory.room);
        let mut answer = Lent::new(&mut random, N);
        let numbers = answer.slice().try_into().expect("so many are lent");
        Outcome {
            returned: call(items.slice(), numbers),
            items,
            answer,
        }
    }

    /// A refusal changes nothing that is lent, success only what it writes.
    fn promised<const N: usize>(
        memory: Memory,
        expected: &Result<Written<T, N>, Refusal>,
    ) -> Outcome<T> {
        Outcome::of(memory, |items, answer| match expected {
            Ok(written) => {
                items[..written.items.len()].copy_from_slice(&written.items);
                *answer = written.answer;
                0
            }
            Err(refusal) => refusal.returned(),
        })
    }

    /// The ways in which the actual outcome is not this one, in words.
    fn difference(&self, actual: &Outcome<T>) -> Option<String> {
        let returned = (self.returned != actual.returned).then(|| {
            format!(
                "it returned {}, expected {}",
                actual.returned, self.returned
            )
        });
        let items = self.items.difference(&actual.items);
        let answer = self.answer.difference(&actual.answer);
        let ways: Vec<String> = [
            returned,
            items.map(|words| format!("in the output's memory {words}")),
            answer.map(|words| format!("in the answer's memory {words}")),
        ]
        .into_iter()
        .flatten()
        .collect();
        (!ways.is_empty()).then(|| ways.join("; "))
    }
}
