//! Plant files, written from fields (Note 1): refusals 2, 3, 4 and 22, in that order. What stands
//! here is written beside the reader in `plant` and not on it: only the limits and the mark are shared.

use crate::facts::Facts;
use crate::plant::{
    Action, Plant, Word, MARK, MOST_ACTIONS, MOST_ALLOCATIONS, MOST_RESOURCE, MOST_TIME,
};
use crate::ruling::Refusal;

/// The numbers of an action before its allocations.
const HEAD_WORDS: usize = 7;
const ALLOCATION_WORDS: usize = 3;
const SLOTS: usize = MOST_ALLOCATIONS as usize;
const TRAILER_BYTES: usize = 12;
/// The words that C lends for an action: its seven numbers and four allocations.
pub const ACTION_WORDS: usize = HEAD_WORDS + ALLOCATION_WORDS * SLOTS;
/// The bytes of the longest file there is: 128 actions of four allocations.
pub const MOST_FILE: usize = MOST_ACTIONS as usize * (4 * ACTION_WORDS + 4) + TRAILER_BYTES;

/// An action as fields.
#[derive(Clone, Debug, Default, PartialEq, Eq)]
pub struct Fields {
    pub needs: Facts,
    pub makes: Facts,
    pub shortest: u32,
    pub longest: u32,
    /// Any number; of those above 4 none is good, and all four allocations are listed.
    pub n: u32,
    /// Resource, offset and length. Those past the first n say nothing.
    pub slots: [[u32; 3]; SLOTS],
}

impl Fields {
    /// How many allocations say something: n, or four where n is above 4.
    pub fn listed(&self) -> usize {
        self.n.min(MOST_ALLOCATIONS) as usize
    }

    /// The same action with zeros in the allocations past the first n, which a log doesn't list.
    pub fn as_listed(mut self) -> Self {
        let listed = self.listed();
        self.slots[listed..].fill([0; ALLOCATION_WORDS]);
        self
    }

    /// The seven numbers, as a log and C have them.
    pub fn head(&self) -> [u32; HEAD_WORDS] {
        let [needs, makes] = [self.needs, self.makes];
        [
            needs.positive,
            needs.negative,
            makes.positive,
            makes.negative,
            self.shortest,
            self.longest,
            self.n,
        ]
    }

    /// The numbers that a log lists.
    pub fn numbers(&self) -> impl Iterator<Item = u32> {
        let listed = self.slots.into_iter().take(self.listed());
        self.head().into_iter().chain(listed.flatten())
    }

    /// The words as C lends them.
    pub fn words(&self) -> [u32; ACTION_WORDS] {
        let mut words = [0; ACTION_WORDS];
        words[..HEAD_WORDS].copy_from_slice(&self.head());
        words[HEAD_WORDS..].copy_from_slice(self.slots.as_flattened());
        words
    }

    /// Takes an action off a list of numbers as a log has them; `None` where they end too early.
    pub fn split(numbers: &[u32]) -> Option<(Self, &[u32])> {
        let (head, rest) = numbers.split_first_chunk::<HEAD_WORDS>()?;
        let mut fields = Fields {
            needs: Facts::new(head[0], head[1]),
            makes: Facts::new(head[2], head[3]),
            shortest: head[4],
            longest: head[5],
            n: head[6],
            ..Fields::default()
        };
        let listed = fields.listed();
        let (allocations, rest) = rest.split_at_checked(ALLOCATION_WORDS * listed)?;
        fields.slots[..listed]
            .as_flattened_mut()
            .copy_from_slice(allocations);
        Some((fields, rest))
    }
}

/// The actions of a good file, as fields.
pub fn actions_in(plant: &Plant) -> Vec<Fields> {
    plant.actions().map(fields_of).collect()
}

fn fields_of(action: Action) -> Fields {
    let allocations = action.allocations();
    let mut fields = Fields {
        needs: action.needs(),
        makes: action.makes(),
        shortest: action.shortest(),
        longest: action.longest(),
        n: allocations.len() as u32,
        ..Fields::default()
    };
    for (slot, allocation) in fields.slots.iter_mut().zip(allocations) {
        *slot = allocation.map(u32::from_le_bytes);
    }
    fields
}

/// The words of a list of actions as C lends them.
pub fn words_of(actions: &[Fields]) -> Vec<u32> {
    actions.iter().flat_map(Fields::words).collect()
}

/// The file of these actions, as it is written into a buffer of so many bytes.
pub fn file_of(actions: &[Fields], room: usize) -> Result<Vec<u8>, Refusal> {
    let mut buffer = vec![0; room];
    let length = write_plant(&words_of(actions), &mut buffer)?;
    buffer.truncate(length);
    Ok(buffer)
}

/// Writes the file of the actions in these words into the front of the buffer and gives its length.
/// A refusal leaves the buffer as it was.
pub fn write_plant(words: &[u32], buffer: &mut [u8]) -> Result<usize, Refusal> {
    let (actions, odd_words) = words.as_chunks::<ACTION_WORDS>();
    let in_range = (1..=MOST_ACTIONS as usize).contains(&actions.len());
    if !in_range || !odd_words.is_empty() {
        return Err(Refusal::PlantSize);
    }
    let index_start = 4 * record_words(actions)?;
    let length = index_start + 4 * actions.len() + TRAILER_BYTES;
    let Some(file) = buffer.get_mut(..length) else {
        return Err(Refusal::ShortList);
    };
    let (records, rest) = file.split_at_mut(index_start);
    write_records(actions, as_words(records), as_words(rest));
    let trailer = &mut as_words(rest)[actions.len()..];
    trailer[0] = (index_start as u32).to_le_bytes();
    trailer[1] = (actions.len() as u32).to_le_bytes();
    trailer[2] = MARK;
    Ok(length)
}

/// The words of all records, once each action is found good: 3 before 4, action by action.
fn record_words(actions: &[[u32; ACTION_WORDS]]) -> Result<usize, Refusal> {
    let mut words = 0;
    for (number, action) in (0..).zip(actions) {
        let Some(record) = record(action) else {
            return Err(Refusal::Record { action: number });
        };
        if !is_in_range(record) {
            return Err(Refusal::Range { action: number });
        }
        words += record.len();
    }
    Ok(words)
}

/// The words that make the record: all of n as one word has its low byte in the file's place for n
/// and zeros in the three spare bytes, as long as it is at most 4. `None` where it is not.
fn record(action: &[u32; ACTION_WORDS]) -> Option<&[u32]> {
    let n = action[HEAD_WORDS - 1];
    (n <= MOST_ALLOCATIONS).then(|| &action[..HEAD_WORDS + ALLOCATION_WORDS * n as usize])
}

fn is_in_range(record: &[u32]) -> bool {
    let [needs_true, needs_false, makes_true, makes_false, shortest, longest, _] =
        *record.first_chunk().expect("the seven numbers");
    let facts = needs_true & needs_false == 0 && makes_true & makes_false == 0;
    let durations = shortest >= 1 && shortest <= longest && longest <= MOST_TIME;
    let (allocations, _) = record[HEAD_WORDS..].as_chunks();
    let allocation = |&[resource, offset, length]: &[u32; ALLOCATION_WORDS]| {
        resource <= MOST_RESOURCE && offset <= MOST_TIME && (1..=MOST_TIME).contains(&length)
    };
    facts && durations && allocations.iter().all(allocation)
}

/// Writes each record behind the one before, and where it starts into the index.
fn write_records(actions: &[[u32; ACTION_WORDS]], mut room: &mut [Word], index: &mut [Word]) {
    let mut start = 0_u32;
    for (action, entry) in actions.iter().zip(index) {
        let record = record(action).expect("an action found good");
        let (here, behind) = room.split_at_mut(record.len());
        for (word, field) in here.iter_mut().zip(record) {
            *word = field.to_le_bytes();
        }
        *entry = start.to_le_bytes();
        start += 4 * record.len() as u32;
        room = behind;
    }
}

fn as_words(bytes: &mut [u8]) -> &mut [Word] {
    bytes.as_chunks_mut().0
}

#[cfg(test)]
mod tests;
