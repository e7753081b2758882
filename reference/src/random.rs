//! Random numbers that a seed repeats, and random strings of bits made of them.

pub mod capture;
pub mod columns;
pub mod file;
pub mod page;

use crate::page::PELS;
use crate::part::steps::{falls, Due, Place, Reading, Step};
use crate::part::{Start, State, EDGE};

/// The generator splitmix64.
#[derive(Clone, Debug)]
pub struct Random(u64);

impl Random {
    pub fn new(seed: u64) -> Random {
        Random(seed)
    }

    /// What an input of a comparison is made from.
    pub fn of_input(index: u64, seed: u64) -> Random {
        Random(seed ^ Random(index).number())
    }

    pub fn number(&mut self) -> u64 {
        self.0 = self.0.wrapping_add(0x9E37_79B9_7F4A_7C15);
        let mut z = self.0;
        z = (z ^ z >> 30).wrapping_mul(0xBF58_476D_1CE4_E5B9);
        z = (z ^ z >> 27).wrapping_mul(0x94D0_49BB_1331_11EB);
        z ^ z >> 31
    }

    /// A number from 0 to `limit` - 1.
    pub fn below(&mut self, limit: u64) -> u64 {
        ((u128::from(self.number()) * u128::from(limit)) >> 64) as u64
    }

    pub fn chance(&mut self, sixteenths: u64) -> bool {
        self.below(16) < sixteenths
    }

    pub fn pick<T: Copy>(&mut self, items: &[T]) -> T {
        items[self.below(items.len() as u64) as usize]
    }
}

/// What a walk prefers, each in sixteenths.
#[derive(Clone, Copy)]
struct Habit {
    /// A word of ones only to one that closes the run.
    all_ones: u64,
    /// A closing word of small value, which lowers the field length, to any.
    small: u64,
    /// A closing word on either side of where the field length falls, to any.
    bound: u64,
    /// A move into a solid state to one into a mixed state.
    solid: u64,
}

#[rustfmt::skip]
const HABITS: [Habit; 6] = [
    // A little of everything.
    Habit { all_ones: 4, small: 4, bound: 4, solid: 8 },
    // Long runs, so that the lengths rise to 7 and stay.
    Habit { all_ones: 15, small: 0, bound: 0, solid: 12 },
    // Short runs, so that the lengths fall to 2 and stay.
    Habit { all_ones: 0, small: 15, bound: 0, solid: 14 },
    // Lengths that rise and fall by one.
    Habit { all_ones: 6, small: 2, bound: 8, solid: 15 },
    // Words of any value.
    Habit { all_ones: 1, small: 0, bound: 0, solid: 12 },
    // Mostly mixed columns.
    Habit { all_ones: 2, small: 8, bound: 2, solid: 2 },
];

/// Any start that is allowed, with many lengths of 2 and 7, and many X of 1725.
pub fn start(random: &mut Random) -> Start {
    let mut length = || random.pick(&[2, 2, 3, 4, 5, 6, 7, 7]);
    let (black, white) = (length(), length());
    let any = random.below(PELS as u64) as usize;
    Start {
        state: random.pick(&State::ALL),
        black,
        white,
        x: random.pick(&[any, any, any, EDGE]),
    }
}

/// A legal walk of the diagram, of nearly as many bits as `limit` and no more.
pub fn walk(random: &mut Random, start: Start, limit: usize) -> Reading {
    let steps = Vec::new();
    walk_on(random, Reading { start, steps }, limit)
}

/// The same from another X: one from which a run of several words, if there is
/// one, ends at the right edge or a column before or after it.
pub fn walk_about_edge(random: &mut Random, start: Start, limit: usize) -> Reading {
    let walked = walk(random, start, limit);
    let Some(last_word) = some_last_word(random, &walked.steps) else {
        return walked;
    };
    let steps = &walked.steps[..=last_word];
    let columns: usize = steps.iter().map(|(place, step)| place.lays(*step).1).sum();
    let end = random.pick(&[EDGE - 1, EDGE, EDGE, 0]);
    let start = Start {
        x: (end + PELS - columns % PELS) % PELS,
        ..start
    };
    let mut place = Place::of(start);
    let mut reading = Reading {
        start,
        steps: Vec::new(),
    };
    for (before, step) in steps {
        // If a length fell in one of the two walks only, the step is another.
        let x = before.x;
        if *before != (Place { x, ..place }) {
            break;
        }
        reading.steps.push((place, *step));
        place = place.after(*step);
    }
    walk_on(random, reading, limit)
}

/// The index of a closing word that is not its run's first, often one at which
/// the field length falls if it is tested.
fn some_last_word(random: &mut Random, steps: &[(Place, Step)]) -> Option<usize> {
    let small_only = random.chance(12);
    let is_liked = |(place, step): &(Place, Step)| match step {
        Step::Closing(value) if place.due == Due::FurtherWord => {
            !small_only || falls(place.field_length(), *value)
        }
        _ => false,
    };
    let liked: Vec<usize> = (0..steps.len()).filter(|i| is_liked(&steps[*i])).collect();
    (!liked.is_empty()).then(|| random.pick(&liked))
}

/// Goes on with a walk up to nearly `limit` bits.
fn walk_on(random: &mut Random, walked: Reading, limit: usize) -> Reading {
    let habit = random.pick(&HABITS);
    let mut place = walked.end();
    let mut left = limit - walked.bits().len();
    let Reading { start, mut steps } = walked;
    while let Some(step) = step(random, habit, place, left) {
        steps.push((place, step));
        left -= place.code(step).length;
        place = place.after(step);
    }
    // The last step was chosen to fit; now any kind of step may be the last.
    let dropped = random.below(4) as usize;
    steps.truncate(steps.len().saturating_sub(dropped));
    Reading { start, steps }
}

/// A step that is allowed and has no more than `left` bits, if there is one.
fn step(random: &mut Random, habit: Habit, place: Place, left: usize) -> Option<Step> {
    if place.due != Due::Move {
        return (place.field_length() <= left).then(|| word(random, habit, place));
    }
    let mut moves = place.allowed();
    moves.retain(|step| place.code(*step).length <= left);
    let solid = random.chance(habit.solid);
    let liked = |step: &Step| matches!(step, Step::Move(state) if state.is_solid() == solid);
    if moves.iter().any(liked) {
        moves.retain(liked);
    }
    (!moves.is_empty()).then(|| random.pick(&moves))
}

fn word(random: &mut Random, habit: Habit, place: Place) -> Step {
    let n = place.field_length();
    // 2^(n-2) for lengths from 4, 4 for 3: where the field length falls below.
    let bound = 1 << (n.max(4) - 2);
    let largest = (1 << n) - 2;
    if random.chance(habit.all_ones) {
        Step::AllOnes
    } else if random.chance(habit.small) {
        Step::Closing(random.below(bound).min(largest))
    } else if random.chance(habit.bound) {
        Step::Closing(random.pick(&[0, bound - 1, bound, largest]).min(largest))
    } else {
        Step::Closing(random.below(largest + 1))
    }
}

/// Bits that follow no rule, with few ones, many, or as many as zeros.
pub fn noise(random: &mut Random, count: usize) -> Vec<u8> {
    let ones = random.pick(&[1, 8, 8, 15]);
    (0..count).map(|_| u8::from(random.chance(ones))).collect()
}

/// Turns one of the bits, if there are any.
pub fn turn_one(random: &mut Random, bits: &mut [u8]) {
    if !bits.is_empty() {
        bits[random.below(bits.len() as u64) as usize] ^= 1;
    }
}

#[cfg(test)]
mod tests {
    use super::*;
    use crate::part::readings::readings;

    /// Walks, of which every other one is about the right edge.
    fn walks(number: usize) -> Vec<Reading> {
        let mut random = Random::new(450);
        (0..number)
            .map(|i| {
                let start = start(&mut random);
                let limit = random.below(513) as usize;
                let walk = [walk, walk_about_edge][i % 2](&mut random, start, limit);
                assert!(walk.bits().len() <= limit);
                walk
            })
            .collect()
    }

    #[test]
    fn a_seed_repeats_its_numbers() {
        // The first numbers of splitmix64 from seed 0.
        let mut random = Random::new(0);
        assert_eq!(random.number(), 0xE220_A839_7B1D_CDAF);
        assert_eq!(random.number(), 0x6E78_9E6A_A1B9_65F4);
    }

    #[test]
    fn a_walk_is_a_reading_of_its_bits() {
        for walk in walks(1000) {
            let readings = readings(walk.start, &walk.bits());
            assert!(readings.contains(&walk));
            assert_eq!(readings.len(), if walk.is_open() { 2 } else { 1 });
        }
    }

    #[test]
    fn runs_of_several_words_end_about_the_right_edge() {
        let walks = walks(4000);
        let steps = walks.iter().flat_map(|walk| &walk.steps);
        let mut ended = [0; 3];
        for (place, step) in steps {
            match (step, place.x_after(*step)) {
                (Step::Closing(value), x @ (1724 | 1725 | 0))
                    if place.due == Due::FurtherWord && falls(place.field_length(), *value) =>
                {
                    ended[(x + 2) % 1726] += 1;
                }
                _ => {}
            }
        }
        assert!(ended.iter().all(|times| *times > 100), "{ended:?}");
    }

    #[test]
    fn walks_take_every_step() {
        let walks = walks(8000);
        assert!(walks.iter().any(Reading::is_open));
        let steps: Vec<_> = walks.iter().flat_map(|walk| &walk.steps).collect();
        for from in State::ALL {
            for to in State::ALL {
                let step = (from, Step::Move(to));
                let taken = steps.iter().any(|(place, s)| (place.state, *s) == step);
                assert_eq!(taken, from != to || !from.is_solid());
            }
        }
        // No word of length 2 can follow one of ones only.
        let words = [(Due::FirstWord, 2), (Due::FurtherWord, 3)];
        for (due, least) in words {
            for state in [State::WW, State::BB] {
                for n in least..=7 {
                    let taken: Vec<_> = steps
                        .iter()
                        .filter(|(place, _)| (place.state, place.due) == (state, due))
                        .filter(|(place, _)| place.field_length() == n)
                        .map(|(_, step)| *step)
                        .collect();
                    let closing = (0..(1 << n) - 1).map(Step::Closing);
                    assert!(closing
                        .chain([Step::AllOnes])
                        .all(|step| taken.contains(&step)));
                }
            }
        }
    }
}
