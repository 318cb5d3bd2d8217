//! What the items of a log show of due times.

use super::sights::DueSight;
use crate::board::{is_sound, Board, MOST_HORIZON};
use crate::fact_check;
use crate::log::Item;
use crate::offer::{Offer, HEADER_BYTES};
use crate::plant::Plant;
use crate::replay::Session;
use std::ops::Range;

/// Where the due time is among an offer's bytes.
const DUE: Range<usize> = HEADER_BYTES - 4..HEADER_BYTES;

/// What is remembered between items.
#[derive(Default)]
pub struct Dues {
    /// The earliest and the latest end that the offer planned last would give its job without its
    /// due time, where it has one and would be accepted.
    free_end: Option<(i64, i64)>,
    /// The offer of the item before, if it was refused for its due time alone.
    too_soon: Option<Vec<u8>>,
    /// The board whose table was shown last.
    shown: Option<Board>,
}

impl Dues {
    /// Looks at the board as it stands before an item is answered.
    pub fn look_ahead(&mut self, item: &Item, session: &Session) {
        if let Item::Plan(offer) = item {
            self.free_end = free_end(offer, session);
        } else {
            self.too_soon = None;
        }
    }

    /// What an item that was given this number shows.
    pub fn sights(&mut self, item: &Item, number: Option<u32>, session: &Session) -> Vec<DueSight> {
        match (item, number) {
            (Item::Plan(offer) | Item::Fact(offer), Some(7)) if DUE.contains(&offer.len()) => {
                vec![DueSight::CutWithin]
            }
            (Item::Plan(offer), Some(number)) => self.plan(offer, number, session),
            (Item::Fact(offer), Some(number)) => fact(offer, number, session),
            (Item::Board(board), _) => by_hand(board, session.board().book().is_ok()),
            _ => Vec::new(),
        }
    }

    fn plan(&mut self, offer: &[u8], number: u32, session: &Session) -> Vec<DueSight> {
        let before = self.too_soon.take();
        let horizon = horizon(session);
        match (due_in(offer), number, self.free_end) {
            (0, ..) => Vec::new(),
            (due, 0, Some(end)) => {
                let moved = |before: Vec<u8>| differ_in_places(session.plant(), &before, offer);
                let other_place = before.is_some_and(moved).then_some(DueSight::OtherPlace);
                in_time(due, end, horizon)
                    .into_iter()
                    .chain(other_place)
                    .collect()
            }
            (due, 17, Some((earliest, _))) => {
                self.too_soon = Some(offer.to_vec());
                too_soon(due, earliest)
            }
            (due, 10, _) if due > horizon => vec![DueSight::PastBothWays],
            (due, 23, _) => past(due, horizon, fact_check(session.plant(), offer).number()),
            _ => Vec::new(),
        }
    }

    /// What a table shows after the one before it.
    pub fn table(&mut self, board: &Board) -> Option<DueSight> {
        let before = self.shown.replace(board.clone())?;
        let pair = [&before, board];
        if !differ_in_a_due_time(pair) || !pair.into_iter().all(is_sound) {
            return None;
        }
        Some(if before.cells == board.cells {
            DueSight::EqualTables
        } else {
            DueSight::OtherTables
        })
    }
}

/// The due time of an offer, 0 where its header is cut.
fn due_in(offer: &[u8]) -> u32 {
    let bytes = offer.get(DUE).and_then(|bytes| bytes.try_into().ok());
    bytes.map_or(0, u32::from_le_bytes)
}

/// The horizon of the board reached; without a sound one, the largest.
fn horizon(session: &Session) -> u32 {
    let book = session.board().book();
    book.map_or(MOST_HORIZON, |book| book.horizon as u32)
}

fn free_end(offer: &[u8], session: &Session) -> Option<(i64, i64)> {
    let book = session.board().book().ok()?;
    if !(1..=book.horizon).contains(&i64::from(due_in(offer))) {
        return None;
    }
    let plant = Plant::read(session.plant()).ok()?;
    let offer = Offer::read(&plant, offer).ok()?;
    book.end_without_due(&offer).ok()
}

/// An accepted plan whose job would end then without its due time.
fn in_time(due: u32, (earliest, latest): (i64, i64), horizon: u32) -> Vec<DueSight> {
    only_seen(&[
        (DueSight::Idle, i64::from(due) >= latest),
        (DueSight::Binding, i64::from(due) < latest),
        (DueSight::JustInTime, i64::from(due) == earliest),
        (DueSight::AtHorizon, due == horizon),
        (DueSight::AtOne, due == 1),
    ])
}

/// A plan refused by 17 that would be accepted without its due time, with this earliest end.
fn too_soon(due: u32, earliest: i64) -> Vec<DueSight> {
    only_seen(&[
        (DueSight::TooSoon, true),
        (DueSight::OneTooSoon, i64::from(due) + 1 == earliest),
        (DueSight::AtOne, due == 1),
    ])
}

/// A plan refused by 23, with the number that the fact check gives it.
fn past(due: u32, horizon: u32, facts: u32) -> Vec<DueSight> {
    only_seen(&[
        (DueSight::OnePast, due == horizon + 1),
        (DueSight::FarPast, due == u32::MAX),
        (DueSight::PastUndone, facts == 11),
        (DueSight::PastClash, facts == 12),
        (DueSight::PastLacking, facts == 13),
    ])
}

/// Whether two good offers say the same but for the places.
fn differ_in_places(plant: &[u8], one: &[u8], other: &[u8]) -> bool {
    let Ok(plant) = Plant::read(plant) else {
        return false;
    };
    let chain = |offer| {
        let offer = Offer::read(&plant, offer);
        offer.map(|offer| offer.action_numbers().collect::<Vec<_>>())
    };
    one != other && one[..HEADER_BYTES] == other[..HEADER_BYTES] && chain(one) == chain(other)
}

fn fact(offer: &[u8], number: u32, session: &Session) -> Vec<DueSight> {
    let past = due_in(offer) > horizon(session);
    only_seen(&[
        (DueSight::FactPassed, past && number == 0),
        (DueSight::FactFailed, past && (11..=13).contains(&number)),
    ])
}

fn by_hand(board: &Board, sound: bool) -> Vec<DueSight> {
    let past = |due: u32| due > board.horizon;
    let jobs = board.jobs_in_use();
    let mut not_in_use = board.jobs[jobs.len()..].iter();
    let of_any = |test: &dyn Fn(u32) -> bool| jobs.iter().any(|job| test(job.due));
    let unsound_by_due = !sound && of_any(&past) && is_sound(&without_dues(board));
    only_seen(&[
        (DueSight::ByHand, sound && of_any(&|due| due > 0)),
        (
            DueSight::ByHandAtHorizon,
            sound && of_any(&|due| due == board.horizon),
        ),
        (DueSight::ByHandNotKept, sound && has_due_not_kept(board)),
        (
            DueSight::ByHandNotInUse,
            sound && not_in_use.any(|job| past(job.due)),
        ),
        (
            DueSight::ByHandOnePast,
            unsound_by_due && of_any(&|due| due == board.horizon + 1),
        ),
        (
            DueSight::ByHandFarPast,
            unsound_by_due && of_any(&|due| due == u32::MAX),
        ),
    ])
}

fn without_dues(board: &Board) -> Board {
    let mut board = board.clone();
    board.jobs.iter_mut().for_each(|job| job.due = 0);
    board
}

/// Whether the table of a sound board allows a job to end after its due time.
fn has_due_not_kept(board: &Board) -> bool {
    let mut jobs = board.jobs_in_use().iter().zip(board.points_of_jobs());
    jobs.any(|(job, points)| job.due > 0 && board.gap(0, points.end - 1) > i64::from(job.due))
}

/// Whether all but the table and one due time is the same on two boards.
fn differ_in_a_due_time([one, other]: [&Board; 2]) -> bool {
    let jobs = one.jobs.iter().zip(other.jobs.iter());
    let mut same_table = without_dues(one);
    same_table.cells.clone_from(&other.cells);
    jobs.filter(|(one, other)| one.due != other.due).count() == 1
        && same_table == without_dues(other)
}

fn only_seen(sights: &[(DueSight, bool)]) -> Vec<DueSight> {
    let seen = sights.iter().filter(|(_, seen)| *seen);
    seen.map(|&(sight, _)| sight).collect()
}
