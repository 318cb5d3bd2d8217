//! What a run has seen.

use crate::case::OTHER_LENGTHS;
use crate::writing::{OTHER_COUNTS, WRITTEN_ROOMS};
use std::collections::BTreeMap;
use std::fmt;
use std::time::Duration;

/// Accepted and the refusals of documents 01 and 02: 0 to 23.
pub const NUMBERS: usize = 24;

/// A way to lend ranges that a run must have tried.
#[derive(Clone, Copy, Debug, PartialEq, Eq, PartialOrd, Ord)]
pub enum Way {
    /// A board of so many words, which is refused before the true one is lent.
    OtherLength(usize),
    /// A plant, an offer longer than a log has a line for, which are refused in the same way.
    LongPlant,
    LongOffer,
    /// Plant and offer in one block, of a call that has both.
    Beside,
    /// A report's list with more room than rows, with just as much, with room for one less, and
    /// with none; of a board that has rows.
    MoreRoom,
    JustRoom,
    OneShort,
    NoRoom,
    /// Words to write that are no whole number of actions, and so many actions, which are refused
    /// before the true ones are lent.
    OddWords,
    OtherCount(usize),
    /// Good actions to write with more room than their file takes, with just as much, with one byte
    /// less, and with none.
    FileMoreRoom,
    FileJustRoom,
    FileOneShort,
    FileNoRoom,
    /// Actions that are refused for what they are, with no room either.
    RefusedWithoutRoom,
    /// A file written at a place that is no multiple of four.
    Unaligned,
    /// A list with so many words for what a call has to tell of the file.
    WrittenRoom(usize),
    /// Fact checks and plans that read a file just written.
    ReadBack,
}

const WAYS: [Way; 15] = [
    Way::LongPlant,
    Way::LongOffer,
    Way::Beside,
    Way::MoreRoom,
    Way::JustRoom,
    Way::OneShort,
    Way::NoRoom,
    Way::OddWords,
    Way::FileMoreRoom,
    Way::FileJustRoom,
    Way::FileOneShort,
    Way::FileNoRoom,
    Way::RefusedWithoutRoom,
    Way::Unaligned,
    Way::ReadBack,
];

#[derive(Default)]
pub struct Tally {
    pub lists: u64,
    /// How often each number was the answer of both.
    pub numbers: [u64; NUMBERS],
    pub ways: BTreeMap<Way, u64>,
    /// Calls that the rule book was asked too.
    pub by_definition: u64,
    /// The time spent in the product.
    pub in_product: Duration,
}

impl Tally {
    pub fn see(&mut self, way: Way) {
        *self.ways.entry(way).or_default() += 1;
    }

    /// Calls that are made before or after the true one aren't among the numbers.
    pub fn calls(&self) -> u64 {
        let first = self.ways.iter().filter(|(way, _)| way.is_a_call());
        first.map(|(_, times)| times).sum::<u64>() + self.numbers.iter().sum::<u64>()
    }

    /// The numbers that were never the answer, and the ways that were never tried.
    pub fn unseen(&self) -> Vec<String> {
        let numbers = (0..NUMBERS).filter(|&number| self.numbers[number] == 0);
        let lengths = OTHER_LENGTHS.map(Way::OtherLength);
        let counts = OTHER_COUNTS.map(Way::OtherCount);
        let rooms = WRITTEN_ROOMS.map(Way::WrittenRoom);
        let ways = lengths.into_iter().chain(WAYS).chain(counts).chain(rooms);
        let ways = ways.filter(|way| !self.ways.contains_key(way));
        let numbers = numbers.map(|number| format!("number {number}"));
        numbers.chain(ways.map(|way| way.to_string())).collect()
    }
}

impl Way {
    fn is_a_call(self) -> bool {
        matches!(
            self,
            Way::OtherLength(_)
                | Way::LongPlant
                | Way::LongOffer
                | Way::OddWords
                | Way::OtherCount(_)
                | Way::ReadBack
        )
    }
}

impl fmt::Display for Way {
    fn fmt(&self, f: &mut fmt::Formatter) -> fmt::Result {
        match self {
            Way::OtherLength(length) => write!(f, "calls on a board of {length} words"),
            Way::LongPlant => write!(f, "calls with a plant longer than a log has"),
            Way::LongOffer => write!(f, "calls with an offer longer than a log has"),
            Way::Beside => write!(f, "calls with plant and offer in one block"),
            Way::MoreRoom => write!(f, "reports with more room than rows"),
            Way::JustRoom => write!(f, "reports with just as much room as rows"),
            Way::OneShort => write!(f, "reports with room for one row less"),
            Way::NoRoom => write!(f, "reports of rows with no room"),
            Way::OddWords => write!(f, "files of no whole number of actions"),
            Way::OtherCount(count) => write!(f, "files of {count} actions"),
            Way::FileMoreRoom => write!(f, "files with more room than they take"),
            Way::FileJustRoom => write!(f, "files with just as much room as they take"),
            Way::FileOneShort => write!(f, "files with room for one byte less"),
            Way::FileNoRoom => write!(f, "files with no room"),
            Way::RefusedWithoutRoom => write!(f, "actions refused for what they are, with no room"),
            Way::Unaligned => write!(f, "files at a place that is no multiple of four"),
            Way::WrittenRoom(words) => write!(f, "files told of in a list of length {words}"),
            Way::ReadBack => write!(f, "calls that read a file just written"),
        }
    }
}

impl fmt::Display for Tally {
    fn fmt(&self, f: &mut fmt::Formatter) -> fmt::Result {
        writeln!(f, "number       times")?;
        for (number, times) in self.numbers.iter().enumerate() {
            writeln!(f, "{number:6}  {times:10}")?;
        }
        for (way, times) in &self.ways {
            writeln!(f, "{way}: {times}")?;
        }
        write!(
            f,
            "calls answered by the rule book too: {}",
            self.by_definition
        )
    }
}
