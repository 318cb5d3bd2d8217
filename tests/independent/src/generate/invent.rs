//! Boards that no calls need reach: any jobs, any rules between any points, any lines. They are
//! sound, or have just one flaw, with all else to match.

use super::rng::Rng;
use crate::board::paths::{exists, latest_after, least, Rule};
use crate::board::{Board, MOST_HORIZON, MOST_JOBS, MOST_POINTS, MOST_USES, ZERO_GAP};
use crate::plant::MOST_TIME;

/// What alone keeps a board from being sound.
#[derive(Clone, Copy, PartialEq, Eq)]
pub enum Flaw {
    None,
    /// A job has so many points.
    JobPoints(u32),
    /// A point of a sent job isn't settled.
    Unsettled,
    /// A point can be one before 0.
    BelowZero,
    /// A point can be one past the horizon.
    PastHorizon,
}

/// A sound board with times of about this size.
pub fn invent(rng: &mut Rng, unit: u32) -> Board {
    invent_with(rng, unit, Flaw::None)
}

pub fn invent_with(rng: &mut Rng, unit: u32, flaw: Flaw) -> Board {
    let horizon = unit * rng.pick(&[1, 10, 100, 400]) + rng.below(3) as u32;
    let horizon = horizon.min(MOST_HORIZON);
    let mut board = Board {
        horizon,
        lead: rng.pick(&[0, 1, unit, 1_000_000]),
        clock: rng.pick(&[0, 0, horizon / 3, horizon]),
        ..Board::default()
    };
    add_jobs(rng, &mut board, flaw);
    let rules = rules(rng, &board, i64::from(unit), flaw);
    add_lines(rng, &mut board, unit);
    let live = board.live();
    for (from, row) in board.cells[..live].iter_mut().enumerate() {
        let latest = latest_after(from, live, &rules);
        for (cell, gap) in row.iter_mut().zip(latest) {
            *cell = (gap + i64::from(ZERO_GAP)) as u32;
        }
    }
    board
}

fn add_jobs(rng: &mut Rng, board: &mut Board, flaw: Flaw) {
    let jobs = match flaw {
        Flaw::None => rng.pick(&[0, 1, 2, 3, 5, 8, MOST_JOBS]),
        _ => rng.pick(&[1, 2, 3, 5]),
    };
    let sent = match flaw {
        Flaw::Unsettled => 1 + rng.below(jobs),
        _ => rng.below(jobs + 1),
    };
    for number in 0..jobs {
        let left = MOST_POINTS - board.job_points() as usize;
        // The later jobs have two points each at least.
        let room = left - 2 * (jobs - 1 - number);
        let job = &mut board.jobs[number];
        job.points = (2 + rng.below(8)).min(room) as u32;
        job.batch = rng.pick(&[0, 0, 1, 2, u32::MAX]);
        job.sent = u32::from(number < sent);
        // The table need not keep it.
        job.due = rng.pick(&[0, 0, 1, board.horizon / 2, board.horizon]);
        board.job_count += 1;
    }
    if let Flaw::JobPoints(points) = flaw {
        board.jobs[rng.below(jobs)].points = points;
    }
}

/// Rules that leave timetables, and settle the sent jobs.
fn rules(rng: &mut Rng, board: &Board, unit: i64, flaw: Flaw) -> Vec<Rule> {
    let live = board.live();
    let horizon = i64::from(board.horizon);
    let mut rules = Vec::new();
    let rule = |plus, minus, most| Rule { plus, minus, most };
    let flawed = 1 + rng.below(live.max(2) - 1);
    for point in 1..live {
        let one_if = |this| i64::from(flaw == this && point == flawed);
        let latest = horizon + one_if(Flaw::PastHorizon);
        rules.push(rule(point, 0, latest));
        rules.push(rule(0, point, one_if(Flaw::BelowZero)));
    }
    let many = if flaw == Flaw::None { 3 * live } else { 2 };
    for _ in 0..rng.pick(&[0, 1, many / 3, many]) {
        let most = rng.below(12 * unit as usize) as i64 - 6 * unit;
        rules.push(rule(rng.below(live), rng.below(live), most));
        if !exists(live, &rules) {
            rules.pop();
        }
    }
    let least = least(live, &rules);
    let jobs = board.jobs_in_use().iter().zip(board.points_of_jobs());
    let sent = jobs.filter(|(job, _)| job.sent == 1);
    let mut points: Vec<usize> = sent.flat_map(|(_, points)| points).collect();
    if flaw == Flaw::Unsettled {
        points.remove(rng.below(points.len()));
    }
    for point in points {
        rules.extend([rule(point, 0, least[point]), rule(0, point, -least[point])]);
    }
    rules
}

fn add_lines(rng: &mut Rng, board: &mut Board, unit: u32) {
    let points = board.live() - 1;
    if points == 0 {
        return;
    }
    for _ in 0..rng.below(5) {
        let resource = rng.pick(&[0, 1, 7, 15]);
        let line = &mut board.lines[resource];
        let count = rng.pick(&[1, 2, 5, MOST_USES - 1, MOST_USES]);
        line.count = count as u32;
        for one in &mut line.uses[..count] {
            one.point = 1 + rng.below(points) as u32;
            one.offset = rng.pick(&[0, 1, unit, MOST_TIME]);
            one.length = rng.pick(&[1, unit, MOST_TIME]);
        }
    }
}
