//! The forms of a board that are timed side by side, and the calls made on them.

use independent::board::{fast, Row, BOARD_WORDS, MOST_POINTS};
use independent::{Refusal, Ruling};
use std::hint::black_box;

/// A call with its arguments.
#[derive(Clone)]
pub enum Call {
    Plan { plant: Vec<u8>, offer: Vec<u8> },
    Send { place: u32 },
    Clock { to: u32 },
    Retire,
    Report,
}

/// A form of the board; a copy of it is a board of its own.
pub trait Form: Clone {
    fn fresh(horizon: u32, lead: u32) -> Self;
    /// Makes the call and gives the ruling's number.
    fn make(&mut self, call: &Call) -> u32;
    /// The call as this form takes it: another commit may have another header in an offer.
    fn spelled(call: &Call) -> Call {
        call.clone()
    }
}

/// The calls of a form in Rust.
pub trait Calls: Clone {
    fn fresh(horizon: u32, lead: u32) -> Result<Self, Refusal>;
    fn plan(&mut self, plant: &[u8], offer: &[u8]) -> Result<(), Refusal>;
    fn send(&mut self, place: u32) -> Result<(), Refusal>;
    fn clock(&mut self, to: u32) -> Result<(), Refusal>;
    fn retire(&mut self) -> Result<(), Refusal>;
    /// Writes the rows into the front of the list and gives their number.
    fn report(&mut self, rows: &mut [Row]) -> Result<usize, Refusal>;
}

impl<C: Calls> Form for C {
    fn fresh(horizon: u32, lead: u32) -> Self {
        Calls::fresh(horizon, lead).expect("a horizon and a lead in range")
    }

    fn make(&mut self, call: &Call) -> u32 {
        let ruled = match call {
            Call::Plan { plant, offer } => self.plan(plant, offer),
            Call::Send { place } => self.send(*place),
            Call::Clock { to } => self.clock(*to),
            Call::Retire => self.retire(),
            Call::Report => {
                let mut rows = [Row::default(); MOST_POINTS];
                let reported = self.report(&mut rows);
                black_box(&rows);
                reported.map(|_| ())
            }
        };
        Ruling::from(ruled).number()
    }
}

/// The incremental table: the fast form of the comparison's library, on the words of a board.
#[derive(Clone, PartialEq)]
pub struct Incremental(pub [u32; BOARD_WORDS]);

impl Calls for Incremental {
    fn fresh(horizon: u32, lead: u32) -> Result<Self, Refusal> {
        let mut words = [0; BOARD_WORDS];
        fast::fresh(&mut words, horizon, lead)?;
        Ok(Incremental(words))
    }

    fn plan(&mut self, plant: &[u8], offer: &[u8]) -> Result<(), Refusal> {
        fast::plan(&mut self.0, plant, offer)
    }

    fn send(&mut self, place: u32) -> Result<(), Refusal> {
        fast::send(&mut self.0, place)
    }

    fn clock(&mut self, to: u32) -> Result<(), Refusal> {
        fast::clock(&mut self.0, to)
    }

    fn retire(&mut self) -> Result<(), Refusal> {
        fast::retire(&mut self.0)
    }

    fn report(&mut self, rows: &mut [Row]) -> Result<usize, Refusal> {
        fast::report(&mut self.0, rows)
    }
}
