//! What accepted plans, reports, boards made by hand and boards shown have reached: sights that the
//! answer alone doesn't tell.

use super::sights::Sight;
use crate::board::definition::RuleBook;
use crate::board::{
    Board, BOARD_WORDS, HEADER_WORDS, JOB_WORDS, MOST_JOBS, MOST_POINTS, MOST_USES, RESOURCES,
    SIDE, ZERO_GAP,
};
use crate::log::{Item, MOST_BYTES};
use crate::offer::Offer;
use crate::plant::{Plant, MOST_ACTIONS, MOST_ALLOCATIONS};
use crate::replay::Session;
use crate::write::{file_of, Fields, MOST_FILE};
use std::ops::Range;

/// The triangle law of up to so many live points, the origin among them, may be tested by other
/// code than that of more.
const FEW_POINTS: usize = 16;
/// Bits of a batch from here on are its high ones.
const HIGH_BITS: u32 = 8;
/// An action from here on is one that only a large plant has.
const LATE_ACTION: u32 = 64;
/// A board that differs from a sound one in so many words at most was made of it.
const FEW_WORDS: usize = 20;
/// So many words past every limit make words that were never a board.
const MANY_WORDS: usize = 1_000;
/// Where the lines and the cells begin among the words.
const LINES: usize = HEADER_WORDS + JOB_WORDS * MOST_JOBS;
const CELLS: usize = BOARD_WORDS - SIDE * SIDE;

/// What is remembered between items.
#[derive(Default)]
pub struct Reach {
    /// How many accepted plans use each resource.
    resources: [usize; RESOURCES],
    /// The words of a sound board made by hand, which others that are made of it may follow.
    base: Option<Box<[u32; BOARD_WORDS]>>,
    /// The file that the item before wrote.
    written: Option<Vec<u8>>,
}

impl Reach {
    /// How many accepted plans use the resource that the fewest use.
    pub fn least_used(&self) -> usize {
        self.resources.into_iter().min().unwrap_or_default()
    }

    /// What an item shows by the plant and the board that stand after it.
    pub fn sights(&mut self, item: &Item, accepted: bool, session: &Session) -> Vec<Sight> {
        let book = session.board().book();
        let before = self.written.take();
        match (item, book) {
            (Item::Write(room, actions), _) => self.write(*room as usize, actions),
            (Item::Plant(plant), _) if before.as_ref() == Some(plant) => vec![Sight::WrittenPlant],
            (Item::Plant(plant), _) if plant.len() == MOST_BYTES => vec![Sight::LongestPlant],
            // No good offer is so long.
            (Item::Plan(offer) | Item::Fact(offer), _) if offer.len() == MOST_BYTES => {
                vec![Sight::LongestOffer]
            }
            (Item::Plan(offer), Ok(book)) if accepted => self.plan(session.plant(), offer, book),
            (Item::Report(room), Ok(book)) => report(*room as usize, book),
            (Item::Board(board), book) => self.by_hand(board, book.is_ok()),
            (Item::Table, Err(_)) => vec![Sight::UnsoundTable],
            (Item::State, Err(_)) => {
                let overfull = is_overfull(&session.reached());
                let overfull = overfull.then_some(Sight::OverfullState);
                overfull.into_iter().chain([Sight::UnsoundState]).collect()
            }
            _ => Vec::new(),
        }
    }

    fn plan(&mut self, plant: &[u8], offer: &[u8], book: &RuleBook) -> Vec<Sight> {
        let Ok(plant) = Plant::read(plant) else {
            return Vec::new();
        };
        let Ok(offer) = Offer::read(&plant, offer) else {
            return Vec::new();
        };
        let mut resources: Vec<usize> = offer.allocations().map(|one| one.resource).collect();
        resources.sort_unstable();
        resources.dedup();
        for &resource in &resources {
            self.resources[resource] += 1;
        }
        let mut earlier = book.jobs.iter().rev().skip(1);
        let one_bit_apart = earlier.any(|job| {
            let apart = job.batch ^ offer.batch;
            apart != 0 && apart.trailing_zeros() >= HIGH_BITS
        });
        let late = offer.action_numbers().any(|number| number >= LATE_ACTION);
        let largest = plant.action_count() == MOST_ACTIONS as usize;
        let seen = [
            (Sight::LargestPlant, largest),
            (Sight::LateAction, late),
            (Sight::FourResources, resources.len() > 3),
            (Sight::HighBits, one_bit_apart),
        ];
        only_seen(&seen)
    }

    fn write(&mut self, room: usize, actions: &[Fields]) -> Vec<Sight> {
        let passes = |n: u32| n <= MOST_ALLOCATIONS;
        let low_byte = |action: &Fields| !passes(action.n) && passes(action.n & 0xFF);
        let file = file_of(actions, MOST_FILE);
        let length = file.as_ref().map_or(0, Vec::len);
        let good = file.is_ok();
        self.written = file.ok().filter(|file| file.len() <= room);
        only_seen(&[
            (Sight::FileMoreRoom, good && room > length),
            (Sight::FileJustRoom, good && room == length),
            (Sight::FileOneShort, good && room + 1 == length),
            (Sight::FileNoRoom, good && room == 0),
            (Sight::RefusedWithoutRoom, !good && room == 0),
            (Sight::LowByte, actions.iter().any(low_byte)),
        ])
    }

    fn by_hand(&mut self, board: &Board, sound: bool) -> Vec<Sight> {
        let words = board.words();
        let base = self.base.as_ref();
        let changes = base.map_or(Vec::new(), |base| changes(&base[..], &words[..]));
        let past_limits = words.iter().filter(|&&word| word > 2 * ZERO_GAP).count();
        let few = board.live() <= FEW_POINTS;
        let cell_off = matches!(changes[..], [(CELLS.., 1 | u32::MAX)]);
        let several = !sound && changes.len() <= FEW_WORDS && regions(&changes) > 1;
        if sound && !cell_off {
            self.base = Some(words);
        }
        only_seen(&[
            (Sight::CellOff, cell_off && few),
            (Sight::CellOffOfMany, cell_off && !few),
            (Sight::SeveralFlaws, several),
            (Sight::RandomWords, past_limits > MANY_WORDS),
        ])
    }
}

/// In how many of jobs, lines and cells the changes lie.
fn regions(changes: &[(usize, u32)]) -> usize {
    let regions = [0..LINES, LINES..CELLS, CELLS..BOARD_WORDS];
    let changed = |region: &Range<usize>| changes.iter().any(|(at, _)| region.contains(at));
    regions.iter().filter(|region| changed(region)).count()
}

/// Where two boards differ, and by how much, up to the first few places and one.
fn changes(base: &[u32], words: &[u32]) -> Vec<(usize, u32)> {
    let pairs = base.iter().zip(words).enumerate();
    let changed = pairs.filter(|(_, (a, b))| a != b);
    let changes = changed.map(|(at, (a, b))| (at, a.abs_diff(*b)));
    changes.take(FEW_WORDS + 1).collect()
}

fn only_seen(sights: &[(Sight, bool)]) -> Vec<Sight> {
    let seen = sights.iter().filter(|(_, seen)| *seen);
    seen.map(|&(sight, _)| sight).collect()
}

/// How the room of a list compares with the rows, where there are any.
fn report(room: usize, book: &RuleBook) -> Vec<Sight> {
    let rows: usize = book.jobs.iter().map(|job| job.points.len()).sum();
    if rows == 0 {
        return Vec::new();
    }
    only_seen(&[
        (Sight::MoreRoom, room > rows),
        (Sight::JustRoom, room == rows),
        (Sight::OneShort, room + 1 == rows),
        (Sight::NoRoom, room == 0),
    ])
}

/// Whether a count is larger than what there is room for.
fn is_overfull(board: &Board) -> bool {
    let mut lines = board.lines.iter();
    board.job_count as usize > MOST_JOBS
        || board.job_points() > MOST_POINTS as u64
        || lines.any(|line| line.count as usize > MOST_USES)
}
