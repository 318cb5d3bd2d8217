//! The product through include/snipefeather.h.

#[path = "../../c_calls.rs"]
mod c_calls;

use c_calls::{
    sf_clock, sf_fact_check, sf_fresh, sf_plan, sf_report, sf_retire, sf_send, sf_write_plant,
    SfRow,
};
use independent::log::Item;
use soak::product::{Lent, LentToWrite, Product, ROW_WORDS};
use std::ptr::{null, null_mut};

pub struct CInterface;

impl Product for CInterface {
    fn ask(&self, item: &Item, lent: Lent) -> u32 {
        let (board, board_len) = lent_words(lent.board);
        let (plant, plant_len) = lent_bytes(lent.plant);
        let (offer, offer_len) = lent_bytes(lent.offer);
        let (cause, cause_len) = lent_words(lent.cause);
        let (rows, rows_len) = lent_rows(lent.rows);
        // SAFETY: each pointer is lent with the length of a live slice of its own, or is NULL with
        // length 0; those that the call writes through come from slices that may be written. A row
        // is four words, and aligned as they are.
        unsafe {
            match item {
                Item::Fact(_) => sf_fact_check(plant, plant_len, offer, offer_len),
                Item::Fresh(horizon, lead) => sf_fresh(board, board_len, *horizon, *lead),
                Item::Plan(_) => sf_plan(
                    board, board_len, plant, plant_len, offer, offer_len, cause, cause_len,
                ),
                Item::Send(place) => sf_send(board, board_len, *place),
                Item::Clock(to) => sf_clock(board, board_len, *to),
                Item::Retire => sf_retire(board, board_len),
                Item::Report(_) => sf_report(board, board_len, rows, rows_len),
                _ => unreachable!("C has no call for {item}"),
            }
        }
    }

    fn write(&self, lent: LentToWrite) -> u32 {
        let actions = lent.actions.map_or(null(), <[u32]>::as_ptr);
        let actions_len = lent.actions.map_or(0, <[u32]>::len);
        let (plant, plant_len) = lent_buffer(lent.plant);
        let (written, written_len) = lent_words(lent.written);
        // SAFETY: each pointer is lent with the length of a live slice of its own, or is NULL with
        // length 0; those that the call writes through come from slices that may be written.
        unsafe { sf_write_plant(actions, actions_len, plant, plant_len, written, written_len) }
    }
}

fn lent_words(words: Option<&mut [u32]>) -> (*mut u32, usize) {
    words.map_or((null_mut(), 0), |words| (words.as_mut_ptr(), words.len()))
}

fn lent_buffer(bytes: Option<&mut [u8]>) -> (*mut u8, usize) {
    bytes.map_or((null_mut(), 0), |bytes| (bytes.as_mut_ptr(), bytes.len()))
}

fn lent_rows(words: Option<&mut [u32]>) -> (*mut SfRow, usize) {
    let (words, len) = lent_words(words);
    (words.cast(), len / ROW_WORDS)
}

fn lent_bytes(bytes: Option<&[u8]>) -> (*const u8, usize) {
    bytes.map_or((null(), 0), |bytes| (bytes.as_ptr(), bytes.len()))
}
