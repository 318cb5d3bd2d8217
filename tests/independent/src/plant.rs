//! Plant files, read in place: refusals 1 to 4. Those that are written are in `write`.

use crate::facts::Facts;
use crate::ruling::{Refusal, Ruling};

pub const MARK: [u8; 4] = [0x50, 0x4C, 0x4E, 0x54];
pub const MOST_ACTIONS: u32 = 128;
pub const MOST_ALLOCATIONS: u32 = 4;
pub const MOST_RESOURCE: u32 = 15;
/// The longest duration, offset and length, in milliseconds.
pub const MOST_TIME: u32 = 1_000_000;

/// A field of a file: a u32, low byte first.
pub type Word = [u8; 4];

/// A good plant file.
#[derive(Clone, Copy)]
pub struct Plant<'a> {
    /// The records as words: a good file's records fill whole words.
    records: &'a [Word],
    index: &'a [Word],
}

/// An action: the words of its record.
#[derive(Clone, Copy, Default)]
pub struct Action<'a>(&'a [Word]);

/// Takes index start and action count off the file; `None` if it is too short or lacks the mark.
fn split_trailer(file: &[u8]) -> Option<(&[u8], u32, u32)> {
    let (rest, mark) = file.split_last_chunk()?;
    let (rest, count) = rest.split_last_chunk()?;
    let (body, index_start) = rest.split_last_chunk()?;
    let [index_start, count] = [*index_start, *count].map(u32::from_le_bytes);
    (*mark == MARK).then_some((body, index_start, count))
}

impl<'a> Plant<'a> {
    pub fn read(file: &'a [u8]) -> Result<Self, Refusal> {
        let Some((body, index_start, count)) = split_trailer(file) else {
            return Err(Refusal::PlantMark);
        };
        // In 64 bits this sum can't wrap.
        let length = u64::from(index_start) + 4 * u64::from(count) + 12;
        if count == 0 || count > MOST_ACTIONS || length != file.len() as u64 {
            return Err(Refusal::PlantSize);
        }
        let (records, index) = body.split_at(index_start as usize);
        let (records, odd_bytes) = records.as_chunks();
        let (index, _) = index.as_chunks();

        let mut rest = records;
        for (action, entry) in (0..).zip(index) {
            let start = 4 * (records.len() - rest.len());
            let Some((record, after)) = Action::split(rest) else {
                return Err(Refusal::Record { action });
            };
            rest = after;
            let is_last = action + 1 == count;
            let ends_short = !rest.is_empty() || !odd_bytes.is_empty();
            if u32::from_le_bytes(*entry) as usize != start || (is_last && ends_short) {
                return Err(Refusal::Record { action });
            }
            if !record.is_in_range() {
                return Err(Refusal::Range { action });
            }
        }
        Ok(Plant { records, index })
    }

    pub fn action_count(&self) -> usize {
        self.index.len()
    }

    /// All actions, in their order.
    pub fn actions(&self) -> impl Iterator<Item = Action<'a>> + '_ {
        (0..).map_while(|number| self.action(number))
    }

    pub fn action(&self, number: u32) -> Option<Action<'a>> {
        let start = u32::from_le_bytes(*self.index.get(number as usize)?);
        let (action, _) = Action::split(self.records.get(start as usize / 4..)?)?;
        Some(action)
    }
}

impl<'a> Action<'a> {
    /// Takes the first record off the words; `None` if it passes their end or has a bad n.
    fn split(words: &'a [Word]) -> Option<(Self, &'a [Word])> {
        // The byte n with its three spare bytes is one word: a nonzero spare byte makes it large.
        let n = u32::from_le_bytes(*words.get(6)?);
        if n > MOST_ALLOCATIONS {
            return None;
        }
        let (record, rest) = words.split_at_checked(7 + 3 * n as usize)?;
        Some((Action(record), rest))
    }

    pub fn needs(self) -> Facts {
        Facts::new(self.word(0), self.word(1))
    }

    pub fn makes(self) -> Facts {
        Facts::new(self.word(2), self.word(3))
    }

    pub fn shortest(self) -> u32 {
        self.word(4)
    }

    pub fn longest(self) -> u32 {
        self.word(5)
    }

    /// Resource, offset and length of each allocation.
    pub fn allocations(self) -> &'a [[Word; 3]] {
        self.0[7..].as_chunks().0
    }

    fn word(self, at: usize) -> u32 {
        u32::from_le_bytes(self.0[at])
    }

    fn is_in_range(self) -> bool {
        let (shortest, longest) = (self.shortest(), self.longest());
        let durations = 1 <= shortest && shortest <= longest && longest <= MOST_TIME;
        let facts = self.needs().both_ways() == 0 && self.makes().both_ways() == 0;
        let allocation = |allocation: &[Word; 3]| {
            let [resource, offset, length] = allocation.map(u32::from_le_bytes);
            resource <= MOST_RESOURCE && offset <= MOST_TIME && (1..=MOST_TIME).contains(&length)
        };
        durations && facts && self.allocations().iter().all(allocation)
    }
}

/// Reads a plant file and rules on it.
pub fn check_plant(file: &[u8]) -> Ruling {
    Plant::read(file).map(|_| ()).into()
}

/// The part of the file with an action's allocations; empty for a bad file or no such action.
pub fn allocations(file: &[u8], action: u32) -> &[u8] {
    let action = Plant::read(file)
        .ok()
        .and_then(|plant| plant.action(action));
    action.map_or(&[], |action| {
        action.allocations().as_flattened().as_flattened()
    })
}

#[cfg(test)]
mod tests;
