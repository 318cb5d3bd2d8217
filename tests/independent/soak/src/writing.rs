//! How the ranges of a call that writes a plant file are lent, and what such a call should give.

use crate::range::{Range, BYTE_PATTERN, PATTERN};
use independent::generate::rng::Rng;
use independent::write::{words_of, write_plant, Fields, ACTION_WORDS};
use independent::Refusal;
use std::fmt;

/// Numbers of actions that no plant has, and a log no line for: the least such, and numbers whose low
/// byte or low half would pass.
pub const OTHER_COUNTS: [usize; 4] = [201, 257, 384, 65_537];

/// Words there is room for in `written`: as many as a call has to tell, fewer, and more.
pub const WRITTEN_ROOMS: [usize; 5] = [0, 1, 2, 3, 20];

/// Where the C interface leaves a choice.
#[derive(Clone, Debug, PartialEq)]
pub struct Writing {
    /// The call is made first with so many words of one more action, which must be refused.
    pub odd_words: Option<usize>,
    /// The call is made first with so many actions, which must be refused.
    pub other_count: Option<usize>,
    /// How many bytes the buffer has beyond those of the log.
    pub more_room: usize,
    /// How many bytes further the buffer begins, so that it may begin anywhere.
    pub shift: usize,
    /// The words there is room for in `written`.
    pub written_room: usize,
    /// What stands in the words past the first n allocations is drawn from this seed.
    pub past: u64,
}

impl Writing {
    /// Each way now and then; most often as many bytes as the log says.
    pub fn any(rng: &mut Rng) -> Self {
        let odd = 1 + rng.below(ACTION_WORDS - 1);
        let count = rng.pick(&OTHER_COUNTS);
        Writing {
            odd_words: rng.one_in(4).then_some(odd),
            other_count: rng.one_in(64).then_some(count),
            more_room: rng.pick(&[0, 0, 0, 0, 1, 3, 64, 20_000]),
            shift: rng.below(8),
            written_room: rng.pick(&WRITTEN_ROOMS),
            past: u64::from(rng.word()),
        }
    }

    /// The words of the actions as they are lent.
    pub fn words(&self, actions: &[Fields]) -> Vec<u32> {
        let mut rng = Rng::new(self.past);
        let filled = actions.iter().map(|action| {
            let mut filled = action.clone();
            let listed = filled.listed();
            let past = filled.slots[listed..].as_flattened_mut();
            past.fill_with(|| rng.edge());
            filled
        });
        words_of(&filled.collect::<Vec<_>>())
    }

    /// Where in the plant an action stands that is looked at when the file is read back.
    pub fn action_to_read(&self, count: usize) -> usize {
        self.past as usize % count
    }
}

/// For a remark in a log, which can't say how ranges are lent.
impl fmt::Display for Writing {
    fn fmt(&self, f: &mut fmt::Formatter) -> fmt::Result {
        if let Some(words) = self.odd_words {
            write!(f, "first with {words} words of one more action; ")?;
        }
        if let Some(count) = self.other_count {
            write!(f, "first with {count} actions; ")?;
        }
        if self.more_room > 0 {
            write!(f, "{} bytes more; ", self.more_room)?;
        }
        let Writing { shift, past, .. } = self;
        let room = self.written_room;
        write!(
            f,
            "buffer {shift} bytes further, written of {room} words, words past n from seed {past}"
        )
    }
}

/// The ranges of one call, with what should stand in them after it.
pub struct Written {
    pub number: u32,
    /// The file, where there should be one.
    pub file: Option<Vec<u8>>,
    pub actions: Range<u32>,
    pub plant: Range<u8>,
    pub written: Range<u32>,
}

impl Written {
    /// Of a call with these words and a buffer of so many bytes, by the second implementation. Where
    /// there are no guards each range is a block of its own.
    pub fn wanted(words: &[u32], room: usize, writing: &Writing, guard: usize) -> Self {
        let shift = if guard > 0 { writing.shift } else { 0 };
        let byte_guard = 4 * guard + shift;
        let mut plant = Range::guarded_bytes(&vec![BYTE_PATTERN; room], byte_guard);
        let mut written = Range::guarded(&vec![PATTERN; writing.written_room], guard);
        let ruled = write_plant(words, plant.wanted());
        tell(written.wanted(), ruled);
        let refusal = ruled.err();
        Written {
            number: refusal.map_or(0, |refusal| refusal.number_and_value().0),
            file: ruled.ok().map(|length| plant.wanted()[..length].to_vec()),
            actions: Range::guarded(words, guard),
            plant,
            written,
        }
    }

    /// The first word or byte that is not as it should be.
    pub fn difference(&self) -> Option<String> {
        let plant = self.plant.difference("the buffer");
        plant
            .or_else(|| self.written.difference("what was written"))
            .or_else(|| self.actions.difference("the actions"))
    }
}

/// The refusal's value or 0, then the file's length or 0, as far as there is room.
pub fn tell(written: &mut [u32], ruled: Result<usize, Refusal>) {
    let value = ruled.err().and_then(|refusal| refusal.number_and_value().1);
    let words = [value.unwrap_or(0), ruled.unwrap_or(0) as u32];
    for (word, wanted) in written.iter_mut().zip(words) {
        *word = wanted;
    }
}
