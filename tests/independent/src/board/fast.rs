//! The fast form: calls that work on the lent words of a board and keep its gap table closed
//! under each rule as it is added. A refused call leaves the words as they are.

mod parts;
mod table;

use super::{
    Board, BoardCalls, Row, BOARD_WORDS, JOB_WORDS, MOST_HORIZON, MOST_JOBS, MOST_LEAD,
    MOST_POINTS, MOST_USES, RESOURCES, SIDE, ZERO_GAP,
};
use crate::facts::check_facts_and_due;
use crate::offer::Offer;
use crate::plant::Plant;
use crate::ruling::Refusal;
use parts::Parts;
use table::Table;

/// Makes a fresh board; the words of a refused one are all zeros.
pub fn fresh(words: &mut [u32; BOARD_WORDS], horizon: u32, lead: u32) -> Result<(), Refusal> {
    words.fill(0);
    if horizon == 0 || horizon > MOST_HORIZON || lead > MOST_LEAD {
        return Err(Refusal::HorizonOrLead);
    }
    [words[0], words[1]] = [horizon, lead];
    words[BOARD_WORDS - SIDE * SIDE] = ZERO_GAP;
    Ok(())
}

pub fn plan(words: &mut [u32], plant: &[u8], offer: &[u8]) -> Result<(), Refusal> {
    let plant = Plant::read(plant)?;
    let board = Parts::of_sound(words)?;
    let offer = Offer::read(&plant, offer)?;
    let [horizon, lead, clock, job_count] = *board.header;
    check_facts_and_due(&offer, horizon)?;
    let jobs = job_count as usize;
    let points = offer.chain().len() + 1;
    // Live points with the origin are one more than those beside it.
    let first = board.live;
    if jobs == MOST_JOBS || first - 1 + points > MOST_POINTS {
        return Err(Refusal::NoRoom);
    }
    check_places(&board, &offer)?;

    let mut table = Table::load(board.cells, first);
    table.add_points(points, horizon as i32);
    table.at_least(0, first, (clock + lead) as i32)?;
    for (step, action) in offer.chain().iter().enumerate() {
        let (start, end) = (first + step, first + step + 1);
        table.at_least(start, end, action.shortest() as i32)?;
        table.at_most(start, end, action.longest() as i32)?;
    }
    let mut lines = *board.lines;
    put_in_lines(&mut lines, &mut table, &offer, first)?;
    let last = first + points - 1;
    if let Some(before) = board.last_of_batch(offer.batch) {
        table.at_least(before, last, 0)?;
    }
    if offer.due != 0 {
        table.at_most(0, last, offer.due as i32)?;
    }

    table.store(board.cells);
    *board.lines = lines;
    board.jobs[jobs] = [points as u32, offer.batch, 0, offer.due];
    board.header[3] += 1;
    Ok(())
}

/// Refusals 15 and 16.
fn check_places(board: &Parts, offer: &Offer) -> Result<(), Refusal> {
    let mut counts = board.lines.map(|line| line[0]);
    for wanted in offer.allocations() {
        let count = &mut counts[wanted.resource];
        let allocation = wanted.number;
        if wanted.place > *count {
            return Err(Refusal::Place { allocation });
        }
        if *count == MOST_USES as u32 {
            return Err(Refusal::LineFull { allocation });
        }
        *count += 1;
    }
    Ok(())
}

type Lines = [[u32; 1 + 3 * MOST_USES]; RESOURCES];

/// Puts each allocation between its neighbours of that moment, with the rules this makes.
fn put_in_lines(
    lines: &mut Lines,
    table: &mut Table,
    offer: &Offer,
    first: usize,
) -> Result<(), Refusal> {
    for wanted in offer.allocations() {
        let (count, uses) = lines[wanted.resource].split_first_mut().expect("a line");
        let (uses, _) = uses.as_chunks_mut::<3>();
        let place = wanted.place as usize;
        let new = [(first + wanted.step) as u32, wanted.offset, wanted.length];
        uses.copy_within(place..*count as usize, place + 1);
        uses[place] = new;
        *count += 1;
        if place > 0 {
            ends_before(table, uses[place - 1], new)?;
        }
        if place + 1 < *count as usize {
            ends_before(table, new, uses[place + 1])?;
        }
    }
    Ok(())
}

fn ends_before(table: &mut Table, first: [u32; 3], second: [u32; 3]) -> Result<(), Refusal> {
    let [point, offset, length] = first;
    let least = (offset + length) as i32 - second[1] as i32;
    table.at_least(point as usize, second[0] as usize, least)
}

pub fn send(words: &mut [u32], place: u32) -> Result<(), Refusal> {
    let board = Parts::of_sound(words)?;
    let place = place as usize;
    let jobs = board.header[3] as usize;
    let unsent = board.jobs[..jobs].get(place).is_some_and(|job| job[2] == 0);
    if !unsent {
        return Err(Refusal::NoUnsentJob);
    }
    let mut table = Table::load(board.cells, board.live);
    let mut first = 1;
    for [points, _, sent, _] in &mut board.jobs[..=place] {
        let after = first + *points as usize;
        if *sent == 0 {
            *sent = 1;
            for point in first..after {
                table.at_most(0, point, table.earliest(point))?;
            }
        }
        first = after;
    }
    table.store(board.cells);
    Ok(())
}

pub fn clock(words: &mut [u32], to: u32) -> Result<(), Refusal> {
    let board = Parts::of_sound(words)?;
    let [horizon, lead, clock, jobs] = *board.header;
    if to < clock || to > horizon {
        return Err(Refusal::ClockRange);
    }
    let mut table = Table::load(board.cells, board.live);
    let mut first = 1;
    for [points, _, sent, _] in &board.jobs[..jobs as usize] {
        if *sent == 0 {
            let rule = table.at_least(0, first, (to + lead) as i32);
            rule.map_err(|_| Refusal::NoneAfterClock)?;
        }
        first += *points as usize;
    }
    table.store(board.cells);
    board.header[2] = to;
    Ok(())
}

pub fn retire(words: &mut [u32]) -> Result<(), Refusal> {
    let board = Parts::of_sound(words)?;
    let [_, _, clock, jobs] = *board.header;
    let [points, _, sent, _] = board.jobs[0];
    if jobs == 0 || sent == 0 {
        return Err(Refusal::NotRetired);
    }
    let last = points as usize;
    // A sent job's earliest times are its times.
    let time = |point: usize| ZERO_GAP - board.cells[point][0];
    let uses = board.lines.iter().flat_map(parts::uses);
    let mut ends = uses
        .filter(|one| one[0] <= points)
        .map(|&[point, offset, length]| time(point as usize) + offset + length);
    if time(last) > clock || ends.any(|end| end > clock) {
        return Err(Refusal::NotRetired);
    }
    board.jobs.copy_within(1.., 0);
    board.jobs[MOST_JOBS - 1] = [0; JOB_WORDS];
    board.header[3] -= 1;
    board
        .lines
        .iter_mut()
        .for_each(|line| retire_uses(line, points));
    retire_cells(board.cells, last, board.live);
    Ok(())
}

/// Takes the uses of the first points out of a line; those of later points are renumbered.
fn retire_uses(line: &mut [u32; 1 + 3 * MOST_USES], points: u32) {
    let (count, uses) = line.split_first_mut().expect("a line");
    let (uses, _) = uses.as_chunks_mut::<3>();
    let mut kept = 0;
    for place in 0..*count as usize {
        let [point, offset, length] = uses[place];
        if point > points {
            uses[kept] = [point - points, offset, length];
            kept += 1;
        }
    }
    uses[kept..].fill([0; 3]);
    *count = kept as u32;
}

/// Takes the rows and columns of the first points beside the origin out of the table.
fn retire_cells(cells: &mut [[u32; SIDE]; SIDE], points: usize, live: usize) {
    for row in &mut cells[..live] {
        row.copy_within(points + 1..live, 1);
        row[live - points..].fill(0);
    }
    cells.copy_within(points + 1..live, 1);
    cells[live - points..].fill([0; SIDE]);
}

/// Writes the rows into the front of the lent list and gives their number; a refused report writes
/// none.
pub fn report(words: &mut [u32], list: &mut [Row]) -> Result<usize, Refusal> {
    let board = Parts::of_sound(words)?;
    let count = board.live - 1;
    let rows = list.get_mut(..count).ok_or(Refusal::ShortList)?;
    let mut rows = rows.iter_mut();
    let mut number = 1;
    for (job, &[points, ..]) in (0..board.header[3]).zip(board.jobs.iter()) {
        for (point, row) in (0..points).zip(&mut rows) {
            *row = Row {
                job,
                point,
                earliest: ZERO_GAP - board.cells[number][0],
                latest: board.cells[0][number] - ZERO_GAP,
            };
            number += 1;
        }
    }
    Ok(count)
}

/// A current board in the fast form.
pub struct Fast(Box<[u32; BOARD_WORDS]>);

/// The board of a refused fresh.
impl Default for Fast {
    fn default() -> Self {
        Fast(Box::new([0; BOARD_WORDS]))
    }
}

impl BoardCalls for Fast {
    fn fresh(&mut self, horizon: u32, lead: u32) -> Result<(), Refusal> {
        fresh(&mut self.0, horizon, lead)
    }

    fn plan(&mut self, plant: &[u8], offer: &[u8]) -> Result<(), Refusal> {
        plan(&mut self.0[..], plant, offer)
    }

    fn send(&mut self, place: u32) -> Result<(), Refusal> {
        send(&mut self.0[..], place)
    }

    fn clock(&mut self, to: u32) -> Result<(), Refusal> {
        clock(&mut self.0[..], to)
    }

    fn retire(&mut self) -> Result<(), Refusal> {
        retire(&mut self.0[..])
    }

    fn report(&self, room: u32) -> Result<Vec<Row>, Refusal> {
        let mut rows = vec![Row::default(); room as usize];
        let count = report(&mut self.0.clone()[..], &mut rows)?;
        rows.truncate(count);
        Ok(rows)
    }

    fn take(&mut self, board: &Board) {
        self.0 = board.words();
    }

    fn board(&self) -> Board {
        Board::from_words(&self.0)
    }
}

#[cfg(test)]
mod tests;
