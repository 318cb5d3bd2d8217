//! Boards as a call log and the C interface hand them over: 5,845 words, which may be any.

pub mod definition;
pub mod fast;
pub mod paths;

mod book;
mod show;
mod sound;

use crate::ruling::Refusal;
use std::array;

pub use definition::Definition;
pub use fast::Fast;
pub use show::{State, Table};
pub use sound::is_sound;

pub const RESOURCES: usize = 16;
pub const MOST_JOBS: usize = 16;
/// The most uses in a line.
pub const MOST_USES: usize = 32;
/// The most live points beside the origin.
pub const MOST_POINTS: usize = 64;
/// The most points of a job, one more than it has steps.
pub const MOST_JOB_POINTS: usize = 9;
/// Rows and columns of the gap table.
pub const SIDE: usize = MOST_POINTS + 1;
pub const MOST_HORIZON: u32 = 100_000_000;
pub const MOST_LEAD: u32 = 1_000_000;
/// What is added to a gap where it is stored: the least gap is then 0.
pub const ZERO_GAP: u32 = 100_000_000;

pub const HEADER_WORDS: usize = 4;
pub const JOB_WORDS: usize = 4;
pub const LINE_WORDS: usize = 1 + 3 * MOST_USES;
pub const BOARD_WORDS: usize =
    HEADER_WORDS + MOST_JOBS * JOB_WORDS + RESOURCES * LINE_WORDS + SIDE * SIDE;

/// What can be asked of a current board, in either form.
pub trait BoardCalls: Default {
    fn fresh(&mut self, horizon: u32, lead: u32) -> Result<(), Refusal>;
    fn plan(&mut self, plant: &[u8], offer: &[u8]) -> Result<(), Refusal>;
    fn send(&mut self, place: u32) -> Result<(), Refusal>;
    fn clock(&mut self, to: u32) -> Result<(), Refusal>;
    fn retire(&mut self) -> Result<(), Refusal>;
    /// The rows, for a list with room for so many.
    fn report(&self, room: u32) -> Result<Vec<Row>, Refusal>;
    /// Takes a board made by hand.
    fn take(&mut self, board: &Board);
    /// The board as it stands.
    fn board(&self) -> Board;
}

/// The words of a board by name. Any field can hold any number.
#[derive(Clone, Debug, PartialEq, Eq)]
pub struct Board {
    pub horizon: u32,
    pub lead: u32,
    pub clock: u32,
    pub job_count: u32,
    pub jobs: Box<[Job; MOST_JOBS]>,
    pub lines: Box<[Line; RESOURCES]>,
    /// Row i, column j: how late point j can follow point i, plus `ZERO_GAP`.
    pub cells: Box<[[u32; SIDE]; SIDE]>,
}

#[derive(Clone, Copy, Debug, Default, PartialEq, Eq)]
pub struct Job {
    pub points: u32,
    pub batch: u32,
    pub sent: u32,
    /// No later than this its last point must be; 0 is no due time.
    pub due: u32,
}

#[derive(Clone, Copy, Debug, Default, PartialEq, Eq)]
pub struct Line {
    pub count: u32,
    pub uses: [Use; MOST_USES],
}

#[derive(Clone, Copy, Debug, Default, PartialEq, Eq)]
pub struct Use {
    pub point: u32,
    pub offset: u32,
    pub length: u32,
}

/// A row of the report: a live point beside the origin.
#[derive(Clone, Copy, Debug, Default, PartialEq, Eq)]
pub struct Row {
    pub job: u32,
    pub point: u32,
    pub earliest: u32,
    pub latest: u32,
}

/// The board of a refused fresh: all zeros.
impl Default for Board {
    fn default() -> Self {
        Board::from_words(&[0; BOARD_WORDS])
    }
}

impl Board {
    pub fn from_words(words: &[u32; BOARD_WORDS]) -> Self {
        let mut words = words.iter();
        // There are as many words as fields below.
        let mut next = || words.next().copied().unwrap_or_default();
        Board {
            horizon: next(),
            lead: next(),
            clock: next(),
            job_count: next(),
            jobs: Box::new(array::from_fn(|_| Job {
                points: next(),
                batch: next(),
                sent: next(),
                due: next(),
            })),
            lines: Box::new(array::from_fn(|_| Line {
                count: next(),
                uses: array::from_fn(|_| Use {
                    point: next(),
                    offset: next(),
                    length: next(),
                }),
            })),
            cells: Box::new(array::from_fn(|_| array::from_fn(|_| next()))),
        }
    }

    pub fn words(&self) -> Box<[u32; BOARD_WORDS]> {
        let mut words = vec![self.horizon, self.lead, self.clock, self.job_count];
        for job in self.jobs.iter() {
            words.extend([job.points, job.batch, job.sent, job.due]);
        }
        for line in self.lines.iter() {
            words.push(line.count);
            for one in &line.uses {
                words.extend([one.point, one.offset, one.length]);
            }
        }
        words.extend(self.cells.as_flattened());
        words.try_into().expect("a board has so many words")
    }

    /// The jobs up to their count, or to the last there is room for.
    pub fn jobs_in_use(&self) -> &[Job] {
        &self.jobs[..MOST_JOBS.min(self.job_count as usize)]
    }

    /// How many points the jobs in use have together.
    pub fn job_points(&self) -> u64 {
        let points = self.jobs_in_use().iter().map(|job| u64::from(job.points));
        points.sum()
    }

    /// How many points are live, the origin included, or the most there is room for.
    pub fn live(&self) -> usize {
        1 + self.job_points().min(MOST_POINTS as u64) as usize
    }

    /// A gap of the table.
    pub fn gap(&self, from: usize, to: usize) -> i64 {
        i64::from(self.cells[from][to]) - i64::from(ZERO_GAP)
    }

    /// The numbers of each job's points, for jobs in use whose points have room.
    pub fn points_of_jobs(&self) -> Vec<std::ops::Range<usize>> {
        let mut first = 1;
        let mut ranges = Vec::new();
        for job in self.jobs_in_use() {
            let after = first + job.points as usize;
            ranges.push(first..after);
            first = after;
        }
        ranges
    }
}

impl Line {
    /// The uses up to their count, or to the last there is room for.
    pub fn in_use(&self) -> &[Use] {
        &self.uses[..MOST_USES.min(self.count as usize)]
    }
}

#[cfg(test)]
mod tests {
    use super::*;

    #[test]
    fn the_words_are_in_the_order_of_the_call_log() {
        assert_eq!(BOARD_WORDS, 5_845);
        let words: Vec<u32> = (0..5_845).collect();
        let words: Box<[u32; BOARD_WORDS]> = words.try_into().unwrap();
        let board = Board::from_words(&words);
        assert_eq!((board.horizon, board.job_count), (0, 3));
        assert_eq!((board.jobs[0].points, board.jobs[0].due), (4, 7));
        assert_eq!((board.jobs[15].sent, board.jobs[15].due), (66, 67));
        let line = board.lines[1];
        assert_eq!((line.count, line.uses[0].point), (68 + 97, 69 + 97));
        assert_eq!(line.uses[31].length, 68 + 2 * 97 - 1);
        assert_eq!((board.cells[0][0], board.cells[1][0]), (1_620, 1_685));
        assert_eq!(board.cells[64][64], 5_844);
        assert_eq!(board.words(), words);
    }
}
