//! What pages and their image frames are like where it matters to a writer.

use crate::file::write::{coded, MOST_BITS};
use crate::page::{LINES, PELS};
use crate::part::steps::{falls, Due, Reading, Step};
use crate::part::{State, EDGE};

/// A page as it is written.
pub struct Page<'a> {
    columns: &'a [u8],
    /// A frame with more columns is closed.
    most: usize,
    frames: Vec<Frame>,
}

struct Frame {
    reading: Reading,
    /// What it has after each unit.
    totals: Vec<Total>,
}

#[derive(Clone, Copy)]
struct Total {
    bits: usize,
    /// One that is left open is counted.
    columns: usize,
}

/// A name, and whether a page is so.
type Shape = (&'static str, fn(&Page) -> bool);

/// A page has a shape of frames if one of its frames has it.
pub const SHAPES: [Shape; 26] = [
    ("closed by bits", |page| {
        page.closes(|_, total| total.bits > MOST_BITS)
    }),
    ("closed at 501 bits", |page| {
        page.closes(|_, total| total.bits == MOST_BITS + 1)
    }),
    ("closed at 508 bits", |page| {
        page.closes(|_, total| total.bits == MOST_BITS + 8)
    }),
    ("goes on at 500 bits", |page| {
        page.goes_on(|total| total.bits == MOST_BITS)
    }),
    ("closed by columns", |page| {
        page.closes(|_, total| total.bits <= MOST_BITS)
    }),
    ("closed by one column", |page| {
        page.closes(|_, total| page.is_closed_by_column(total))
    }),
    ("closed by an open column", |page| {
        page.closes(|frame, total| page.is_closed_by_column(total) && frame.is_open())
    }),
    ("goes on at the most columns", |page| {
        page.goes_on(|total| total.columns == page.most)
    }),
    ("ends open", |page| page.closes(|frame, _| frame.is_open())),
    ("ends in a run", |page| {
        page.closes(|frame, _| frame.end().due == Due::FurtherWord)
    }),
    ("closing word alone", |page| {
        let steps = &page.last().reading.steps;
        matches!(steps[..], [(_, Step::Closing(_))])
    }),
    ("page ends with a full frame", |page| {
        let Total { bits, columns } = page.last().total();
        bits > MOST_BITS || columns > page.most
    }),
    ("last word of 0 after ones", |page| {
        let steps = &page.last().reading.steps;
        matches!(steps[..], [.., (_, Step::AllOnes), (_, Step::Closing(0))])
    }),
    ("last word of 0 after a move", |page| {
        let steps = &page.last().reading.steps;
        matches!(steps[..], [.., (_, Step::Move(_)), (_, Step::Closing(0))])
    }),
    ("page ends mixed", |page| {
        !is_solid(page.columns[page.columns.len() - 1])
    }),
    ("words up to column 1725", |page| {
        page.has_last_word(|word| word.x == EDGE)
    }),
    ("word of 0 up to column 1725", |page| {
        page.has_last_word(|word| word.x == EDGE && word.value == 0)
    }),
    ("small word up to column 1725", |page| {
        page.has_last_word(|word| word.x == EDGE && word.is_small())
    }),
    ("small word up to column 1724", |page| {
        page.has_last_word(|word| word.x == EDGE - 1 && word.is_small())
    }),
    ("small word up to column 0", |page| {
        page.has_last_word(|word| word.x == 0 && word.is_small())
    }),
    ("run over an edge", |page| {
        let mut pairs = page
            .columns
            .chunks(PELS)
            .zip(page.columns[PELS..].chunks(PELS));
        pairs.any(|(pair, next)| is_solid(next[0]) && pair[PELS - 1] == next[0])
    }),
    ("run of 126", |page| page.has_run(126)),
    ("run of 127", |page| page.has_run(127)),
    ("run of 128", |page| page.has_run(128)),
    ("run of 254", |page| page.has_run(254)),
    ("6000 lines", |page| page.columns.len() == LINES / 2 * PELS),
];

/// The names of the shapes that a page has. A frame with more columns than
/// `most` was closed.
pub fn of(columns: &[u8], most: usize) -> Vec<&'static str> {
    let page = Page::of(columns, most);
    let shapes = SHAPES.iter().filter(|(_, is_so)| is_so(&page));
    shapes.map(|(name, _)| *name).collect()
}

impl Page<'_> {
    fn of(columns: &[u8], most: usize) -> Page<'_> {
        let mut totals: Vec<Vec<Total>> = Vec::new();
        let frames = coded(columns, |coding| {
            totals.resize(coding.frames.len(), Vec::new());
            totals[coding.frames.len() - 1].push(Total {
                bits: coding.bits,
                columns: coding.columns,
            });
            coding.is_full(most)
        });
        let frames = frames.into_iter().zip(totals);
        Page {
            columns,
            most,
            frames: frames
                .map(|(reading, totals)| Frame { reading, totals })
                .collect(),
        }
    }

    fn last(&self) -> &Frame {
        self.frames.last().expect("a page has frames")
    }

    /// Whether something is true of a frame that another follows, and of what
    /// it has.
    fn closes(&self, is_so: impl Fn(&Reading, Total) -> bool) -> bool {
        let (_, others) = self.frames.split_last().expect("a page has frames");
        let mut others = others.iter();
        others.any(|frame| is_so(&frame.reading, frame.total()))
    }

    /// Whether something is true of what a frame has before its last unit.
    fn goes_on(&self, is_so: impl Fn(Total) -> bool) -> bool {
        self.frames.iter().any(|frame| {
            let (_, others) = frame.totals.split_last().expect("a frame has units");
            others.iter().any(|total| is_so(*total))
        })
    }

    /// Whether a frame is closed for one column.
    fn is_closed_by_column(&self, total: Total) -> bool {
        total.bits <= MOST_BITS && total.columns == self.most + 1
    }

    /// Whether a solid run has exactly so many columns.
    fn has_run(&self, columns: usize) -> bool {
        let mut runs = self.columns.chunk_by(|one, next| one == next);
        runs.any(|run| run.len() == columns && is_solid(run[0]))
    }

    /// Whether something is true of the last word of a run of several words in
    /// one frame, other than the page's last word.
    fn has_last_word(&self, is_so: impl Fn(LastWord) -> bool) -> bool {
        let mut columns = 0;
        let mut steps = self.frames.iter().flat_map(|frame| &frame.reading.steps);
        steps.any(|(place, step)| {
            columns += place.lays(*step).1;
            let Step::Closing(value) = *step else {
                return false;
            };
            let word = LastWord {
                length: place.field_length(),
                value,
                x: place.x_after(*step),
            };
            place.due == Due::FurtherWord && columns < self.columns.len() && is_so(word)
        })
    }
}

/// The last word of a run of several words.
struct LastWord {
    length: usize,
    value: u64,
    /// The index of the run's last column.
    x: usize,
}

impl LastWord {
    /// Whether the field length falls if the word is tested.
    fn is_small(&self) -> bool {
        falls(self.length, self.value)
    }
}

impl Frame {
    fn total(&self) -> Total {
        *self.totals.last().expect("a frame has units")
    }
}

fn is_solid(pels: u8) -> bool {
    State::ALL[usize::from(pels)].is_solid()
}

#[cfg(test)]
mod tests {
    use super::*;

    const WW: u8 = 0b00;
    const WB: u8 = 0b01;
    const BW: u8 = 0b10;
    const BB: u8 = 0b11;

    /// The shapes of a page that is all WW but for some columns.
    fn shapes(pairs: usize, most: usize, others: &[(usize, usize, u8)]) -> Vec<&'static str> {
        let mut columns = vec![WW; pairs * PELS];
        for (first, number, pels) in others {
            columns[*first..first + number].fill(*pels);
        }
        of(&columns, most)
    }

    #[test]
    fn frames_closed_by_columns() {
        assert_eq!(shapes(2, 4800, &[]), ["run over an edge"]);
        assert_eq!(
            shapes(3, 4800, &[]),
            ["closed by columns", "ends in a run", "run over an edge"]
        );
        assert_eq!(
            shapes(2, 2400, &[(2399, 1053, BB)]),
            [
                "closed by columns",
                "goes on at the most columns",
                "ends in a run",
                "run over an edge"
            ]
        );
        assert_eq!(
            shapes(2, 2400, &[(2400, 1052, BB)]),
            [
                "closed by columns",
                "closed by one column",
                "run over an edge"
            ]
        );
        assert_eq!(
            shapes(2, 2400, &[(2400, 100, WB)]),
            [
                "closed by columns",
                "closed by one column",
                "closed by an open column",
                "ends open",
                "run over an edge"
            ]
        );
    }

    #[test]
    fn frames_closed_by_bits() {
        // The first column has eight bits, each other one, and a move to WW four.
        assert_eq!(
            shapes(1, 2400, &[(0, 493, BW)]),
            ["closed by bits", "goes on at 500 bits"]
        );
        assert_eq!(
            shapes(1, 2400, &[(0, 494, BW)]),
            [
                "closed by bits",
                "closed at 501 bits",
                "goes on at 500 bits"
            ]
        );
    }

    #[test]
    fn ends_of_pages() {
        assert_eq!(shapes(1, 2400, &[]), [""; 0]);
        assert_eq!(
            shapes(1, 2400, &[(1725, 1, BB)]),
            ["last word of 0 after a move"]
        );
        assert_eq!(
            shapes(1, 2400, &[(74, 1 + 13 * 127, BB)]),
            ["last word of 0 after ones"]
        );
        assert_eq!(
            shapes(1, 1725, &[(1725, 1, BB)]),
            [
                "closed by columns",
                "closed by one column",
                "closing word alone"
            ]
        );
        assert_eq!(
            shapes(1, 1725, &[(1724, 2, BW)]),
            [
                "goes on at the most columns",
                "page ends with a full frame",
                "page ends mixed"
            ]
        );
        assert_eq!(
            shapes(LINES / 2, 4800, &[]),
            [
                "closed by columns",
                "ends in a run",
                "run over an edge",
                "6000 lines"
            ]
        );
    }

    #[test]
    fn runs_of_pages() {
        assert_eq!(
            shapes(1, 2400, &[(126, 127, BB), (253, 1, WB), (382, 254, BB)]),
            ["run of 126", "run of 127", "run of 128", "run of 254"]
        );
        // 1726 white columns are 13 words of ones and one of 75.
        assert_eq!(
            shapes(2, 4800, &[(1726, 1726, BB)]),
            ["words up to column 1725"]
        );
    }

    #[test]
    fn runs_that_end_about_the_right_edge() {
        // From column 66 on 13 words of ones lead to column 1716.
        let black = (64, 1, BB);
        let ended = |first| shapes(2, 4800, &[black, (first, 1, BB)]);
        assert_eq!(ended(1725), ["small word up to column 1724"]);
        assert_eq!(
            ended(1726),
            ["words up to column 1725", "small word up to column 1725"]
        );
        assert_eq!(
            ended(1727),
            ["small word up to column 0", "run over an edge"]
        );
        let black = (73, 1, BB);
        assert_eq!(
            shapes(2, 4800, &[black, (1726, 1, BB)]),
            [
                "words up to column 1725",
                "word of 0 up to column 1725",
                "small word up to column 1725"
            ]
        );
        // 32 columns more than the words of ones.
        let black = (41, 1, BB);
        assert_eq!(
            shapes(2, 4800, &[black, (1726, 1, BB)]),
            ["words up to column 1725"]
        );
    }
}
