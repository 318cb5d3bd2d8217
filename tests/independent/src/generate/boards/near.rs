//! Boards made by hand that are only just sound, or only just not.

use super::hand::try_calls;
use super::random::begin;
use super::script::Script;
use crate::board::{Board, Use, MOST_HORIZON, MOST_LEAD, MOST_USES, RESOURCES, SIDE};
use crate::generate::invent::{invent, invent_with, Flaw};
use crate::generate::rng::Rng;
use crate::plant::MOST_TIME;

/// Boards with one number at or just past its limit, or one flaw, and all else sound.
pub fn near(rng: &mut Rng, script: &mut Script) {
    let press = begin(rng, script);
    let flaws = [
        Flaw::JobPoints(0),
        Flaw::JobPoints(1),
        Flaw::JobPoints(10),
        Flaw::Unsettled,
        Flaw::BelowZero,
        Flaw::PastHorizon,
    ];
    for _ in 0..6 {
        for flaw in flaws {
            let board = invent_with(rng, press.unit, flaw);
            try_calls(rng, script, &press, &board);
        }
        let mut base = invent(rng, press.unit);
        while base.job_count == 0 {
            base = invent(rng, press.unit);
        }
        for number in 0..NEAR_HEADERS {
            let mut board = base.clone();
            near_header(&mut board, number);
            try_calls(rng, script, &press, &board);
        }
        for number in 0..NEAR_USES {
            let mut board = base.clone();
            near_use(rng, &mut board, number);
            try_calls(rng, script, &press, &board);
        }
    }
}

const NEAR_HEADERS: usize = 13;

/// A number of the header or of a job at its limit or just past it.
fn near_header(board: &mut Board, number: usize) {
    let last = board.jobs_in_use().len() - 1;
    match number {
        0 => board.lead = MOST_LEAD,
        1 => board.lead = MOST_LEAD + 1,
        2 => board.clock = board.horizon,
        3 => board.clock = board.horizon + 1,
        4 => board.horizon = MOST_HORIZON,
        5 => board.horizon = MOST_HORIZON + 1,
        6 => board.jobs[last].sent = 2,
        7 => board.jobs[last].batch = u32::MAX,
        8 => board.jobs[last].due = 1,
        9 => board.jobs[last].due = board.horizon,
        10 => board.jobs[last].due = board.horizon + 1,
        11 => board.jobs[0].due = u32::MAX,
        _ => board.jobs[0].sent = 0,
    }
}

const NEAR_USES: usize = 11;

/// A line, full but for the second case, with a use that is at or just past a limit.
fn near_use(rng: &mut Rng, board: &mut Board, number: usize) {
    let live = board.live() as u32;
    let line = &mut board.lines[rng.below(RESOURCES)];
    line.uses.fill(Use {
        point: 1,
        offset: 0,
        length: 1,
    });
    line.count = MOST_USES as u32;
    let anywhere = rng.below(MOST_USES);
    let one = &mut line.uses[rng.pick(&[0, anywhere, MOST_USES - 1])];
    match number {
        0 => line.count += 1,
        1 => line.count -= 1,
        2 => one.point = 0,
        3 => one.point = live - 1,
        4 => one.point = live,
        5 => one.offset = MOST_TIME,
        6 => one.offset = MOST_TIME + 1,
        7 => one.length = 0,
        8 => one.length = MOST_TIME,
        9 => one.length = MOST_TIME + 1,
        _ => {}
    }
}

/// Every cell of small tables one up and one down.
pub fn cells(rng: &mut Rng, script: &mut Script) {
    let press = begin(rng, script);
    for live in [1, 3, 5, 7] {
        let base = invent_of(rng, press.unit, live);
        script.board(&base);
        for from in 0..live {
            for to in 0..live {
                up_and_down(script, &base, from, to);
            }
        }
    }
}

/// The same of larger tables, of which more than 16 points may ask for other code: every cell of the
/// smallest of these, of the others some, the first cells past the live ones among them.
pub fn large_cells(rng: &mut Rng, script: &mut Script) {
    let press = begin(rng, script);
    for live in [17, 18] {
        let base = invent_of(rng, press.unit, live);
        script.board(&base);
        for cell in 0..(live + 1) * (live + 1) {
            up_and_down(script, &base, cell / (live + 1), cell % (live + 1));
        }
    }
    for (live, samples) in [(16, 30), (19, 30), (33, 30), (64, 30), (65, 60)] {
        let base = invent_of(rng, press.unit, live);
        script.board(&base);
        let end = SIDE.min(live + 1);
        for from in [0, live - 1] {
            for to in [0, live - 1, end - 1] {
                up_and_down(script, &base, from, to);
            }
        }
        for _ in 0..samples {
            up_and_down(script, &base, rng.below(end), rng.below(end));
        }
    }
}

/// A sound board with so many live points, the origin among them.
fn invent_of(rng: &mut Rng, unit: u32, live: usize) -> Board {
    loop {
        let board = invent(rng, unit);
        if board.live() == live {
            return board;
        }
    }
}

/// One cell one up, then one down, with a call that only looks and one that works on the table.
fn up_and_down(script: &mut Script, base: &Board, from: usize, to: usize) {
    for change in [1, u32::MAX] {
        let mut board = base.clone();
        let cell = &mut board.cells[from][to];
        *cell = cell.wrapping_add(change);
        script.board(&board);
        script.send(u32::MAX);
        script.clock(board.clock);
    }
}
