//! How a call that has no board is timed: its forms take turns of many calls each, with nothing in
//! between. A form's time is the median of its turns.

use crate::timing::median;
use std::hint::black_box;
use std::time::Instant;

pub const ROUNDS: usize = 1_000;
const CALLS_A_TURN: usize = 100;

/// One form, and the nanoseconds that a call took in each of its turns.
pub struct Column<F> {
    pub form: F,
    turns: Vec<f64>,
}

impl<F: Copy> Column<F> {
    pub fn new(form: F) -> Self {
        let turns = Vec::new();
        Column { form, turns }
    }

    pub fn take_turn(&mut self, mut call: impl FnMut(F) -> u32) {
        let start = Instant::now();
        for _ in 0..CALLS_A_TURN {
            black_box(call(self.form));
        }
        let nanoseconds = start.elapsed().as_nanos() as f64;
        self.turns.push(nanoseconds / CALLS_A_TURN as f64);
    }

    fn microseconds(&mut self) -> f64 {
        median(&mut self.turns) / 1_000.0
    }
}

/// Microseconds of a call, by column.
pub fn microseconds<F: Copy>(columns: &mut [Column<F>]) -> Vec<f64> {
    columns.iter_mut().map(Column::microseconds).collect()
}

/// Ours, the one in Rust, and the other commit's where it can be called.
pub fn columns<F: Copy>(ours: F, in_rust: F, earlier: Option<F>) -> Vec<Column<F>> {
    let forms = [ours, in_rust].into_iter().chain(earlier);
    forms.map(Column::new).collect()
}
