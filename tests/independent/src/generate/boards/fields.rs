//! Every kind of field that a board's words have, and ways to change a word.

use crate::board::{
    Board, BOARD_WORDS, HEADER_WORDS, JOB_WORDS, LINE_WORDS, MOST_JOBS, MOST_USES, SIDE,
};
use crate::generate::rng::Rng;

const LINES: usize = HEADER_WORDS + JOB_WORDS * MOST_JOBS;
const CELLS: usize = BOARD_WORDS - SIDE * SIDE;

/// Where among a job's words it says whether the job is sent.
const SENT: usize = 2;

pub const KINDS: usize = 28;

/// Where a field of this kind is among the words; `None` if the board has none.
pub fn field(rng: &mut Rng, board: &Board, kind: usize) -> Option<usize> {
    let jobs = board.jobs_in_use().len();
    let live = board.live();
    let mut within =
        |from: usize, to: usize| (from < to).then(|| from + rng.below(to.max(1) - from));
    let first_unsent = board
        .jobs_in_use()
        .iter()
        .take_while(|job| job.sent == 1)
        .count();
    let of_job = |job: usize, word: usize| HEADER_WORDS + JOB_WORDS * job + word;
    let cell = |row: Option<usize>, column: Option<usize>| Some(CELLS + SIDE * row? + column?);
    match kind {
        0..4 => Some(kind),
        // Jobs in use, then others.
        4..8 => Some(of_job(within(0, jobs)?, kind - 4)),
        8..12 => Some(of_job(within(jobs, MOST_JOBS)?, kind - 8)),
        // The jobs at which sent turns to unsent.
        12 => (first_unsent < jobs).then(|| of_job(first_unsent, SENT)),
        13 => Some(of_job(first_unsent.checked_sub(1)?, SENT)),
        14 => (jobs > 0).then(|| of_job(0, SENT)),
        // Counts of lines, then uses that are and aren't in use.
        15 => Some(LINES + LINE_WORDS * within(0, 16)?),
        16..22 => {
            let in_use = kind < 19;
            let line = (0..16).filter(|&line| {
                let count = board.lines[line].in_use().len();
                if in_use {
                    count > 0
                } else {
                    count < MOST_USES
                }
            });
            let lines: Vec<usize> = line.collect();
            let line = lines[within(0, lines.len())?];
            let count = board.lines[line].in_use().len();
            let (from, to) = if in_use {
                (0, count)
            } else {
                (count, MOST_USES)
            };
            Some(LINES + LINE_WORDS * line + 1 + 3 * within(from, to)? + (kind - 16) % 3)
        }
        // Cells: the diagonal, the origin's row and column, of two live points, of others.
        22 => within(0, live).map(|point| CELLS + (SIDE + 1) * point),
        23 => cell(Some(0), within(1, live)),
        24 => cell(within(1, live), Some(0)),
        25 => cell(within(1, live), within(1, live)),
        26 => cell(within(0, live), within(live, SIDE)),
        _ => cell(within(live, SIDE), within(0, SIDE)),
    }
}

pub const CHANGES: usize = 9;

/// What one of the changes makes of a word.
pub fn changed(rng: &mut Rng, board: &Board, word: u32, change: usize) -> u32 {
    let limits = [
        [1, 2, 9, 10],
        [16, 17, 32, 33],
        [1_000_000, 1_000_001, 100_000_000, 100_000_001],
        [board.horizon, board.horizon + 1, 200_000_000, 200_000_001],
        [board.live() as u32 - 1, board.live() as u32, 64, 65],
    ];
    match change {
        0 => word.wrapping_add(1),
        1 => word.wrapping_sub(1),
        2 | 3 => word ^ 1 << rng.below(32),
        4 => 0,
        5 => u32::MAX,
        6 => rng.edge(),
        7 => 1 - word.min(1),
        _ => {
            let row = rng.pick(&limits);
            rng.pick(&row)
        }
    }
}
