//! Refusal 6 by document 01's definition of a sound board, clause by clause, with the limits of
//! document 02. Places not in use aren't looked at.

use super::{
    Board, MOST_HORIZON, MOST_JOBS, MOST_JOB_POINTS, MOST_LEAD, MOST_POINTS, MOST_USES, SIDE,
    ZERO_GAP,
};
use crate::plant::MOST_TIME;

pub fn is_sound(board: &Board) -> bool {
    counts_are_within_limits(board)
        && board.job_points() <= MOST_POINTS as u64
        && numbers_are_within_limits(board)
        && gaps_are_within_limits(board)
        && board.clock <= board.horizon
        && lines_name_live_points(board)
        && sent_jobs_come_first(board)
        && sent_jobs_are_settled(board)
        && diagonal_is_0(board)
        && other_cells_are_0(board)
        && no_way_is_shorter(board)
        && points_lie_within_the_horizon(board)
}

fn counts_are_within_limits(board: &Board) -> bool {
    let lines_are = board
        .lines
        .iter()
        .all(|line| line.count <= MOST_USES as u32);
    board.job_count <= MOST_JOBS as u32 && lines_are
}

fn numbers_are_within_limits(board: &Board) -> bool {
    let jobs_are = board.jobs_in_use().iter().all(|job| {
        let most = MOST_JOB_POINTS as u32;
        (2..=most).contains(&job.points) && job.sent <= 1 && job.due <= board.horizon
    });
    let uses_are = board.lines.iter().all(|line| {
        let mut uses = line.in_use().iter();
        uses.all(|one| one.offset <= MOST_TIME && (1..=MOST_TIME).contains(&one.length))
    });
    (1..=MOST_HORIZON).contains(&board.horizon) && board.lead <= MOST_LEAD && jobs_are && uses_are
}

fn gaps_are_within_limits(board: &Board) -> bool {
    let live = board.live();
    let rows = &board.cells[..live];
    rows.iter()
        .all(|row| row[..live].iter().all(|&cell| cell <= 2 * ZERO_GAP))
}

/// The origin isn't named.
fn lines_name_live_points(board: &Board) -> bool {
    let live = board.live();
    board.lines.iter().all(|line| {
        let mut uses = line.in_use().iter();
        uses.all(|one| one.point >= 1 && (one.point as usize) < live)
    })
}

fn sent_jobs_come_first(board: &Board) -> bool {
    let sent = board.jobs_in_use().iter().map(|job| job.sent);
    // Sent is 1, unsent 0.
    sent.is_sorted_by(|earlier, later| earlier >= later)
}

/// Earliest equals latest at each point of a sent job.
fn sent_jobs_are_settled(board: &Board) -> bool {
    let jobs = board.jobs_in_use().iter().zip(board.points_of_jobs());
    let mut sent_points = jobs
        .filter(|(job, _)| job.sent == 1)
        .flat_map(|(_, points)| points);
    sent_points.all(|point| earliest(board, point) == latest(board, point))
}

fn diagonal_is_0(board: &Board) -> bool {
    (0..board.live()).all(|point| board.gap(point, point) == 0)
}

/// Cells without a live point are 0 as stored.
fn other_cells_are_0(board: &Board) -> bool {
    let live = board.live();
    let mut cells = (0..SIDE).flat_map(|row| (0..SIDE).map(move |column| (row, column)));
    cells.all(|(row, column)| (row < live && column < live) || board.cells[row][column] == 0)
}

fn no_way_is_shorter(board: &Board) -> bool {
    let live = board.live();
    (0..live).all(|from| {
        (0..live).all(|by| {
            (0..live).all(|to| board.gap(from, to) <= board.gap(from, by) + board.gap(by, to))
        })
    })
}

fn points_lie_within_the_horizon(board: &Board) -> bool {
    let horizon = i64::from(board.horizon);
    (0..board.live()).all(|point| earliest(board, point) >= 0 && latest(board, point) <= horizon)
}

fn earliest(board: &Board, point: usize) -> i64 {
    -board.gap(point, 0)
}

fn latest(board: &Board, point: usize) -> i64 {
    board.gap(0, point)
}

#[cfg(test)]
mod tests;
