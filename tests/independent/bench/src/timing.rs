//! How a call is timed on all forms: in turns, each call on a board of its own that was prepared
//! outside the timed part. The first call of a turn, which comes after other work, is timed apart from
//! those behind it. A form's time is the median of its turns.
//!
//! What a first call costs depends on what went before it. The forms in Rust share the reading of plant
//! and offer: where one follows another, it finds that code at hand, and ours finds nothing. A controller
//! has one form only. So a form makes ten rounds of all calls before the next form does, another form
//! begins each time, and the same other work comes before every turn.

use crate::forms::{Call, Form, Incremental};
use crate::libraries::{Library, OtherCommit, HAS_OTHER};
use crate::ours::{Earlier, Ours};
use crate::scratch::Scratch;
use crate::windows::Windows;
use crate::work::board;
use std::hint::black_box;
use std::time::Instant;

/// The calls of a turn: enough that reading the clock counts little, few enough that other work on
/// the machine seldom falls into a turn.
const CALLS_A_TURN: usize = 4;
const FORMS: usize = if HAS_OTHER { 5 } else { 4 };
/// The rounds of all cases that a form makes before the next form does. Only the first of them comes behind
/// another form: the median hardly notices it.
const ROUNDS_A_BLOCK: usize = 10;

/// The bytes read before a turn: more than the nearer caches hold. The boards of the turn are copied behind
/// it, so that they are at hand; code, stack and arguments are not.
const OTHER_BYTES: usize = 4 * 1024 * 1024;
/// The bytes that a cache takes at a time.
const CACHE_LINE: usize = 64;

/// Work that has nothing to do with any form.
struct OtherWork {
    bytes: Vec<u8>,
}

impl OtherWork {
    fn new() -> Self {
        OtherWork {
            bytes: vec![1; OTHER_BYTES],
        }
    }

    fn run(&self) {
        let lines = black_box(&self.bytes).iter().step_by(CACHE_LINE);
        black_box(lines.fold(0_u8, |sum, &byte| sum.wrapping_add(byte)));
    }
}

/// The nanoseconds of a turn.
#[derive(Clone, Copy)]
struct Turn {
    /// Of its first call, whose code and stack other work has pushed out of the nearer caches.
    first: f64,
    /// Of a call behind it, on average.
    later: f64,
}

/// One form's board before the call, the call, room for copies of the board, and the form's turns.
struct Column<F> {
    before: F,
    call: Call,
    boards: Vec<F>,
    turns: Vec<Turn>,
}

impl<F: Form> Column<F> {
    fn new(before: &[Call], call: &Call) -> Self {
        let before: F = board(before);
        Column {
            boards: vec![before.clone(); CALLS_A_TURN],
            before,
            call: F::spelled(call),
            turns: Vec::new(),
        }
    }

    /// The ruling's number, and the board after it.
    fn try_once(&self) -> (u32, F) {
        let mut board = self.before.clone();
        (board.make(&self.call), board)
    }

    /// The median of a number that each turn has.
    fn microseconds(&self, number: impl Fn(Turn) -> f64) -> f64 {
        let mut times: Vec<f64> = self.turns.iter().copied().map(number).collect();
        median(&mut times) / 1_000.0
    }
}

/// A column of any form.
trait TakesTurns {
    fn take_turn(&mut self);
}

impl<F: Form> TakesTurns for Column<F> {
    fn take_turn(&mut self) {
        for board in &mut self.boards {
            board.clone_from(&self.before);
        }
        let call = &self.call;
        let make = |board| {
            black_box(black_box::<&mut F>(board).make(black_box(call)));
        };
        let nanoseconds = |start: Instant| start.elapsed().as_nanos() as f64;
        let mut boards = self.boards.iter_mut();
        let start = Instant::now();
        boards.by_ref().take(1).for_each(make);
        let first = nanoseconds(start);
        boards.for_each(make);
        let later = (nanoseconds(start) - first) / (CALLS_A_TURN as f64 - 1.0);
        self.turns.push(Turn { first, later });
    }
}

pub fn median(times: &mut [f64]) -> f64 {
    times.sort_by(f64::total_cmp);
    times[times.len() / 2]
}

/// A call on the same board in every form.
pub struct Case {
    pub name: &'static str,
    pub jobs: usize,
    ours: Column<Ours>,
    incremental: Column<Incremental>,
    windows: Column<Windows>,
    scratch: Column<Scratch>,
    /// None where the other commit's library lacks one of the calls, or a word that they need.
    earlier: Option<Column<Earlier>>,
}

/// A call's microseconds in every form.
pub struct Times {
    pub ours: f64,
    pub incremental: f64,
    pub windows: f64,
    pub scratch: f64,
    pub earlier: Option<f64>,
}

impl Case {
    /// The call on the board that the calls before it lead to, which must get this ruling's number
    /// from every form; ours and the form in Rust that stands on words must come to the same words.
    pub fn new(name: &'static str, jobs: usize, before: &[Call], call: Call, number: u32) -> Self {
        let has_earlier = OtherCommit::CALLS.have_all(before, &call) && OtherCommit::takes(&call);
        let case = Case {
            name,
            jobs,
            ours: Column::new(before, &call),
            incremental: Column::new(before, &call),
            windows: Column::new(before, &call),
            scratch: Column::new(before, &call),
            earlier: has_earlier.then(|| Column::new(before, &call)),
        };
        let (ours, words) = case.ours.try_once();
        let (incremental, expected) = case.incremental.try_once();
        let windows = case.windows.try_once().0;
        let scratch = case.scratch.try_once().0;
        let numbers = [ours, incremental, windows, scratch];
        assert_eq!(numbers, [number; 4], "{name} at {jobs}");
        assert!(words.words == expected.0, "boards differ: {name} at {jobs}");
        if let Some(earlier) = &case.earlier {
            let earlier = earlier.try_once().0;
            assert_eq!(earlier, number, "the other commit: {name} at {jobs}");
        }
        case
    }

    /// The turn of one form.
    fn take_turn(&mut self, form: usize) {
        let column: Option<&mut dyn TakesTurns> = match form {
            0 => Some(&mut self.ours),
            1 => Some(&mut self.incremental),
            2 => Some(&mut self.windows),
            3 => Some(&mut self.scratch),
            _ => self.earlier.as_mut().map(|column| column as _),
        };
        if let Some(column) = column {
            column.take_turn();
        }
    }

    /// Of a call behind others of its kind.
    pub fn later_call(&self) -> Times {
        self.times(|turn| turn.later)
    }

    /// Of the first call of a turn.
    pub fn first_call(&self) -> Times {
        self.times(|turn| turn.first)
    }

    fn times(&self, number: impl Fn(Turn) -> f64 + Copy) -> Times {
        let earlier = self.earlier.as_ref();
        Times {
            ours: self.ours.microseconds(number),
            incremental: self.incremental.microseconds(number),
            windows: self.windows.microseconds(number),
            scratch: self.scratch.microseconds(number),
            earlier: earlier.map(|column| column.microseconds(number)),
        }
    }
}

/// Lets every form make so many blocks of rounds.
pub fn run(cases: &mut [Case], blocks: usize) {
    let other = OtherWork::new();
    for block in 0..blocks {
        for form in (0..FORMS).map(|place| (block + place) % FORMS) {
            for _ in 0..ROUNDS_A_BLOCK {
                for case in &mut *cases {
                    other.run();
                    case.take_turn(form);
                }
            }
        }
    }
}
