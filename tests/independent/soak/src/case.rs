//! A list of calls, and how the ranges of each call are lent.

use crate::writing::Writing;
use independent::board::{BOARD_WORDS, MOST_JOBS, SIDE};
use independent::generate::rng::Rng;
use independent::log::Item;
use std::fmt;

/// Where the table begins among the words.
const CELLS: usize = BOARD_WORDS - SIDE * SIDE;

/// Numbers of words that no board has: few, where the head, the lines or the table end, a board whose
/// jobs lack a word each, one too few and too many, two boards, and a board's number of bytes.
pub const OTHER_LENGTHS: [usize; 12] = [
    0,
    1,
    4,
    64,
    CELLS - 1,
    CELLS,
    CELLS + 1,
    BOARD_WORDS - MOST_JOBS,
    BOARD_WORDS - 1,
    BOARD_WORDS + 1,
    2 * BOARD_WORDS,
    4 * BOARD_WORDS,
];

/// Lengths that a log has no line for.
const LONG: [usize; 5] = [16_385, 32_768, 65_535, 65_536, 300_001];

/// How the ranges of one call are lent, where the C interface leaves a choice.
#[derive(Clone, Debug, PartialEq)]
pub struct Lending {
    /// The call is made first on a board of so many words, which must be refused.
    pub other_length: Option<usize>,
    /// The call is made first with more bytes, which must be refused.
    pub longer: Option<Longer>,
    /// The words there is room for in `cause`.
    pub cause_room: usize,
    /// How many rows a report's list has beyond those of the log, which knows at most 64.
    pub more_rows: u32,
    /// Whether empty ranges are NULL.
    pub null: bool,
    /// Whether plant and offer lie in one block, and how.
    pub beside: Option<Beside>,
    /// What a call lends that writes a plant file.
    pub writing: Writing,
}

/// What is made longer, and to how many bytes.
#[derive(Clone, Debug, PartialEq)]
pub enum Longer {
    Plant(usize),
    Offer(usize),
}

/// Plant and offer in one block.
#[derive(Clone, Debug, PartialEq)]
pub struct Beside {
    /// Bytes before the first and behind the last of the two.
    pub before: usize,
    pub between: usize,
    pub offer_first: bool,
}

impl Lending {
    /// Most often as a caller would, and each of the other ways now and then.
    pub fn any(rng: &mut Rng) -> Self {
        let other = rng.pick(&OTHER_LENGTHS);
        let long = rng.pick(&LONG);
        let longer = rng.pick(&[Longer::Plant, Longer::Offer])(long);
        let beside = Beside {
            before: rng.below(20),
            between: rng.pick(&[0, 0, 1, 2, 3, 5]),
            offer_first: rng.one_in(2),
        };
        Lending {
            other_length: rng.one_in(8).then_some(other),
            longer: rng.one_in(64).then_some(longer),
            cause_room: rng.pick(&[1, 1, 1, 1, 0, 2]),
            more_rows: rng.pick(&[0, 0, 0, 0, 0, 1, 64, 1_000]),
            null: rng.one_in(2),
            beside: rng.one_in(2).then_some(beside),
            writing: Writing::any(rng),
        }
    }
}

/// For a remark in a log, which can't say how ranges are lent.
impl fmt::Display for Lending {
    fn fmt(&self, f: &mut fmt::Formatter) -> fmt::Result {
        if let Some(length) = self.other_length {
            write!(f, "first on a board of {length} words; ")?;
        }
        match self.longer {
            Some(Longer::Plant(length)) => write!(f, "first with a plant of {length} bytes; ")?,
            Some(Longer::Offer(length)) => write!(f, "first with an offer of {length} bytes; ")?,
            None => {}
        }
        if self.more_rows > 0 {
            write!(f, "{} rows more; ", self.more_rows)?;
        }
        if let Some(Beside {
            before,
            between,
            offer_first,
        }) = self.beside
        {
            let first = if offer_first { "offer" } else { "plant" };
            write!(f, "{first} first, both in one block, {before} bytes before it and {between} between; ")?;
        }
        let empty = if self.null { "NULL" } else { "not NULL" };
        let cause = self.cause_room;
        write!(f, "cause of {cause} words, empty ranges {empty}")
    }
}

#[derive(Clone, Debug, PartialEq)]
pub struct Step {
    pub item: Item,
    pub lending: Lending,
}

impl Step {
    /// How the ranges of its call are lent.
    pub fn lent(&self) -> String {
        let Lending { writing, null, .. } = &self.lending;
        let empty = if *null { "NULL" } else { "not NULL" };
        match self.item {
            Item::Write(..) => format!("{writing}, empty ranges {empty}"),
            _ => self.lending.to_string(),
        }
    }
}

pub struct Case {
    pub name: String,
    pub steps: Vec<Step>,
    /// How many guard words stand on each side of a lent list.
    pub guard: usize,
    /// Whether the rule book is asked beside the fast form.
    pub by_definition: bool,
}
