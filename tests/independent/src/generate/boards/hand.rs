//! Boards made by hand: boards that calls reached, boards that no calls reach, both with a word or
//! several changed, and words that were never a board.

use super::fields::{changed, field, CHANGES, KINDS};
use super::press::Press;
use super::random::{any_call, begin};
use super::script::Script;
use crate::board::{Board, BOARD_WORDS, HEADER_WORDS, SIDE};
use crate::generate::invent::invent;
use crate::generate::rng::Rng;

/// Goes on with the board reached as one made by hand.
pub fn take_over(rng: &mut Rng, script: &mut Script) {
    if script.book().is_none() {
        return;
    }
    let mut board = script.reached();
    if rng.one_in(2) {
        litter(rng, &mut board);
    }
    script.board(&board);
    script.show();
}

/// A random list that goes on by hand, with now and then a word changed.
pub fn by_hand(rng: &mut Rng, script: &mut Script) {
    let press = begin(rng, script);
    if rng.one_in(2) {
        script.board(&invent(rng, press.unit));
        script.show();
    }
    for _ in 0..6 {
        for _ in 0..rng.below(5) {
            any_call(rng, script, &press);
        }
        if script.book().is_none() {
            break;
        }
        let board = script.reached();
        let kind = rng.below(KINDS);
        let change = rng.below(CHANGES);
        try_change(rng, script, &press, &board, kind, change);
        if rng.one_in(2) {
            script.board(&board);
        }
    }
}

/// Every change to every kind of field, on boards of several sizes.
pub fn fields(rng: &mut Rng, script: &mut Script) {
    let press = begin(rng, script);
    for kind in 0..KINDS {
        let board = invent(rng, press.unit);
        for change in 0..CHANGES {
            try_change(rng, script, &press, &board, kind, change);
        }
    }
}

/// Boards that no calls reach, and calls on them.
pub fn invented(rng: &mut Rng, script: &mut Script) {
    let press = begin(rng, script);
    for _ in 0..60 {
        let mut board = invent(rng, press.unit);
        if rng.one_in(3) {
            litter(rng, &mut board);
        }
        script.board(&board);
        script.show();
        script.reports();
        for _ in 0..6 {
            any_call(rng, script, &press);
        }
        script.show();
    }
}

/// Boards with several words changed: what is wrong first must not hide that the rest is looked at
/// with care.
pub fn flawed(rng: &mut Rng, script: &mut Script) {
    let press = begin(rng, script);
    for _ in 0..120 {
        let board = invent(rng, press.unit);
        script.board(&board);
        let mut words = board.words();
        for _ in 0..2 + rng.below(8) {
            let kind = rng.below(KINDS);
            if let Some(at) = field(rng, &board, kind) {
                let change = rng.below(CHANGES);
                words[at] = changed(rng, &board, words[at], change);
            }
        }
        try_calls(rng, script, &press, &Board::from_words(&words));
    }
}

/// Any words at all, in all places or in those that come after the counts.
pub fn noise(rng: &mut Rng, script: &mut Script) {
    let press = begin(rng, script);
    for round in 0..40 {
        let mut words = invent(rng, press.unit).words();
        let from = rng.pick(&[0, 0, HEADER_WORDS, BOARD_WORDS - SIDE * SIDE]);
        let sort = round % 4;
        words[from..].fill_with(|| match sort {
            0 | 1 => rng.word(),
            2 => rng.edge(),
            _ => rng.below(70) as u32,
        });
        try_calls(rng, script, &press, &Board::from_words(&words));
        script.show();
    }
}

/// Makes one change and tries the calls on what comes of it.
fn try_change(
    rng: &mut Rng,
    script: &mut Script,
    press: &Press,
    board: &Board,
    kind: usize,
    change: usize,
) {
    let Some(at) = field(rng, board, kind) else {
        return;
    };
    let mut words = board.words();
    words[at] = changed(rng, board, words[at], change);
    try_calls(rng, script, press, &Board::from_words(&words));
}

/// The calls on a board made by hand.
pub fn try_calls(rng: &mut Rng, script: &mut Script, press: &Press, board: &Board) {
    script.board(board);
    if rng.one_in(3) {
        script.show();
    }
    let edge = rng.edge();
    script.send(rng.pick(&[0, 1, board.job_count, edge]));
    let later = board.clock.saturating_add(1);
    script.clock(rng.pick(&[board.clock, later, board.horizon, edge]));
    script.retire();
    let room = rng.pick(&script.rooms());
    script.report(room);
    for _ in 0..2 {
        any_call(rng, script, press);
    }
}

/// Any words in all places that aren't in use.
fn litter(rng: &mut Rng, board: &mut Board) {
    let jobs = board.jobs_in_use().len();
    for job in &mut board.jobs[jobs..] {
        (job.points, job.batch) = (rng.edge(), rng.edge());
        (job.sent, job.due) = (rng.edge(), rng.edge());
    }
    for line in board.lines.iter_mut() {
        let count = line.in_use().len();
        for one in &mut line.uses[count..] {
            (one.point, one.offset, one.length) = (rng.edge(), rng.edge(), rng.edge());
        }
    }
}
