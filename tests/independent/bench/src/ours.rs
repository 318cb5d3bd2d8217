//! The product through its C interface (include/snipefeather.h), as a controller calls it, with this
//! tree's library or with another commit's.

use crate::forms::{Call, Form};
use crate::libraries::{Library, OtherCommit, SfRow, ThisTree};
use independent::board::{BOARD_WORDS, MOST_POINTS};
use std::hint::black_box;
use std::marker::PhantomData;

const LACKING: &str = "a call that the library has";

pub fn fact_check<L: Library>(plant: &[u8], offer: &[u8]) -> u32 {
    let call = L::CALLS.fact_check.expect(LACKING);
    let (plant, plant_len) = (plant.as_ptr(), plant.len());
    let (offer, offer_len) = (offer.as_ptr(), offer.len());
    // SAFETY: both pointers are lent with the lengths of live slices, which the call only reads.
    unsafe { call(plant, plant_len, offer, offer_len) }
}

pub fn write_plant<L: Library>(actions: &[u32], plant: &mut [u8]) -> u32 {
    let call = L::CALLS.write_plant.expect(LACKING);
    let mut written = [0; 2];
    let (actions, actions_len) = (actions.as_ptr(), actions.len());
    let (plant, plant_len) = (plant.as_mut_ptr(), plant.len());
    let (told, told_len) = (written.as_mut_ptr(), written.len());
    // SAFETY: each pointer is lent with the length of a live array or slice of its own; the plant and
    // what is told of it are borrowed as mutable, the actions are only read.
    let number = unsafe { call(actions, actions_len, plant, plant_len, told, told_len) };
    black_box(&written);
    number
}

/// The words of a board; another commit's may be fewer.
#[derive(Clone)]
pub struct Product<L> {
    pub words: [u32; BOARD_WORDS],
    library: PhantomData<L>,
}

pub type Ours = Product<ThisTree>;
pub type Earlier = Product<OtherCommit>;

impl<L: Library> Product<L> {
    fn plan(&mut self, plant: &[u8], offer: &[u8]) -> u32 {
        let call = L::CALLS.plan.expect(LACKING);
        let mut cause = [0];
        let (board, cause_len) = (self.words.as_mut_ptr(), cause.len());
        let (plant, plant_len) = (plant.as_ptr(), plant.len());
        let (offer, offer_len) = (offer.as_ptr(), offer.len());
        let cause = cause.as_mut_ptr();
        // SAFETY: each pointer is lent with a length not above a live array's or slice's of its own; the
        // board and the cause are borrowed as mutable, the other two are only read.
        unsafe {
            call(
                board,
                L::BOARD_WORDS,
                plant,
                plant_len,
                offer,
                offer_len,
                cause,
                cause_len,
            )
        }
    }

    fn report(&self) -> u32 {
        let call = L::CALLS.report.expect(LACKING);
        let mut rows = [SfRow::default(); MOST_POINTS];
        let (board, list) = (self.words.as_ptr(), rows.as_mut_ptr());
        // SAFETY: each pointer is lent with a length not above its live array's; the board is only read.
        let number = unsafe { call(board, L::BOARD_WORDS, list, rows.len()) };
        black_box(&rows);
        number
    }
}

impl<L: Library> Form for Product<L> {
    fn fresh(horizon: u32, lead: u32) -> Self {
        let call = L::CALLS.fresh.expect(LACKING);
        let mut words = [0; BOARD_WORDS];
        // SAFETY: the pointer is lent with a length that is not above that of its live array.
        let number = unsafe { call(words.as_mut_ptr(), L::BOARD_WORDS, horizon, lead) };
        assert_eq!(
            number, 0,
            "a horizon and a lead in range, and a board's words"
        );
        let library = PhantomData;
        Product { words, library }
    }

    fn make(&mut self, call: &Call) -> u32 {
        let calls = L::CALLS;
        let words = self.words.as_mut_ptr();
        match call {
            Call::Plan { plant, offer } => self.plan(plant, offer),
            // SAFETY: the pointer is lent with a length that is not above its array's, borrowed as mutable.
            Call::Send { place } => unsafe {
                calls.send.expect(LACKING)(words, L::BOARD_WORDS, *place)
            },
            // SAFETY: the same.
            Call::Clock { to } => unsafe {
                calls.clock.expect(LACKING)(words, L::BOARD_WORDS, *to)
            },
            // SAFETY: the same.
            Call::Retire => unsafe { calls.retire.expect(LACKING)(words, L::BOARD_WORDS) },
            Call::Report => self.report(),
        }
    }

    fn spelled(call: &Call) -> Call {
        L::spelled(call)
    }
}
