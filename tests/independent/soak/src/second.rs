//! The second implementation's answers, on a board lent as the C interface has it.

use crate::product::ROW_WORDS;
use independent::board::{
    fast, Definition, Row, BOARD_WORDS, HEADER_WORDS, JOB_WORDS, LINE_WORDS, MOST_JOBS, RESOURCES,
};
use independent::log::Item;
use independent::replay::{self, Session};
use independent::{check_plant, fact_check, Refusal, Ruling};

/// The rows of a report, of other calls none; or the refusal.
pub type Answer = Result<Vec<Row>, Refusal>;

/// By the fast form. The words of a refused call stay, but for those of a refused fresh. Words that
/// are not as many as a board has are no sound board: a call stops where it finds that.
pub fn answer(item: &Item, plant: &[u8], words: &mut [u32]) -> Answer {
    let has_board = !matches!(item, Item::Fact(_));
    if has_board && words.len() != BOARD_WORDS {
        if matches!(item, Item::Plan(_)) {
            without_rows(check_plant(plant))?;
        }
        return Err(Refusal::Unsound);
    }
    match item {
        Item::Fact(offer) => return without_rows(fact_check(plant, offer)),
        Item::Report(room) => return report(words, *room),
        Item::Fresh(horizon, lead) => fresh(words, *horizon, *lead)?,
        Item::Plan(offer) => fast::plan(words, plant, offer)?,
        Item::Send(place) => fast::send(words, *place)?,
        Item::Clock(to) => fast::clock(words, *to)?,
        Item::Retire => fast::retire(words)?,
        _ => unreachable!("C has no call for {item}"),
    }
    clear_past_counts(words);
    Ok(Vec::new())
}

/// By the definition.
pub fn answer_by_definition(session: &mut Session<Definition>, item: &Item) -> Answer {
    match session.answer(item) {
        Some(replay::Answer::Rows(rows)) => Ok(rows),
        Some(replay::Answer::Ruling(ruling)) => without_rows(ruling),
        _ => Ok(Vec::new()),
    }
}

fn without_rows(ruling: Ruling) -> Answer {
    match ruling {
        Ruling::Accepted => Ok(Vec::new()),
        Ruling::Refused(refusal) => Err(refusal),
    }
}

/// A refused fresh leaves the board of zeros.
fn fresh(words: &mut [u32], horizon: u32, lead: u32) -> Result<(), Refusal> {
    let mut board = [0; BOARD_WORDS];
    let ruling = fast::fresh(&mut board, horizon, lead);
    words.copy_from_slice(&board);
    ruling
}

fn report(words: &mut [u32], room: u32) -> Answer {
    let mut rows = vec![Row::default(); room as usize];
    let count = fast::report(words, &mut rows)?;
    rows.truncate(count);
    Ok(rows)
}

/// Rows as C has them, in words.
pub fn write_rows(words: &mut [u32], rows: &[Row]) {
    for (words, row) in words.chunks_exact_mut(ROW_WORDS).zip(rows) {
        words.copy_from_slice(&[row.job, row.point, row.earliest, row.latest]);
    }
}

/// Document 01 leaves open what stands in the places of jobs and uses past their counts. The product
/// leaves 0 there once a call is accepted; the fast form leaves what a board made by hand had.
fn clear_past_counts(words: &mut [u32]) {
    let (header, rest) = words.split_at_mut(HEADER_WORDS);
    let (jobs, rest) = rest.split_at_mut(JOB_WORDS * MOST_JOBS);
    let job_count = header[HEADER_WORDS - 1] as usize;
    jobs[JOB_WORDS * job_count..].fill(0);
    for line in rest.chunks_exact_mut(LINE_WORDS).take(RESOURCES) {
        let count = line[0] as usize;
        line[1 + 3 * count..].fill(0);
    }
}
