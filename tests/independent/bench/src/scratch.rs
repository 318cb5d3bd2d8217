//! Shortest paths from scratch: the board keeps the rules among live points, the tightest for each
//! pair, and the table that they come to. Each call trusts no table and builds it anew from the
//! rules, once to test the board and again where it adds rules; a circle of rules that no timetable
//! keeps shows as a gap below 0 from a point to itself. When a job retires, the gaps among the
//! points that stay become their rules.
//!
//! The table is built by Floyd and Warshall's three loops, of which the inmost is compiled to vectors:
//! one run of Bellman and Ford for each point takes six times as long at 16 jobs.

use crate::forms::Calls;
use crate::plain::{Plain, Rule};
use independent::board::{Row, MOST_HORIZON, SIDE, ZERO_GAP};
use independent::facts::check_facts_and_due;
use independent::offer::Offer;
use independent::plant::Plant;
use independent::Refusal;
use std::array;
use std::ops::Range;

/// Row i, column j: how much later than point i point j may be.
type Gaps = [[i32; SIDE]; SIDE];

fn no_gaps() -> Gaps {
    [[0; SIDE]; SIDE]
}

/// No rule for this pair. It lies above every gap, and the sum of two fits. None is left after the
/// first way round, by the origin, with which every point has rules.
const FREE: i32 = 1_000_000_000;

#[derive(Clone)]
pub struct Scratch {
    plain: Plain,
    rules: Gaps,
    /// The gap table as the product hands it out: cells of points that aren't live are 0.
    cells: [[u32; SIDE]; SIDE],
}

impl Scratch {
    /// Fills in the gaps that the rules come to; false where no timetable keeps them.
    fn build(&self, gaps: &mut Gaps) -> bool {
        let live = self.plain.live;
        for (row, rules) in gaps.iter_mut().zip(&self.rules[..live]) {
            row[..live].copy_from_slice(&rules[..live]);
        }
        close(gaps, live)
    }

    /// Fills in the gaps of a sound board; refusal 6.
    fn build_sound(&self, gaps: &mut Gaps) -> Result<(), Refusal> {
        let sound = self.rules_are_sized()
            && self.build(gaps)
            && self.plain.is_sound(|point| stands_still(gaps, point));
        sound.then_some(()).ok_or(Refusal::Unsound)
    }

    /// Whether each rule is in range, and those with the origin keep each point from 0 to the horizon.
    fn rules_are_sized(&self) -> bool {
        let (live, horizon) = (self.plain.live, self.plain.horizon);
        let sized = |rule: i32| (-2 * MOST_HORIZON as i32 <= rule) & (rule <= FREE);
        (1..=SIDE).contains(&live)
            && self.rules[..live].iter().enumerate().all(|(point, row)| {
                row[point] == 0
                    && row[0] <= 0
                    && row[..live]
                        .iter()
                        .fold(true, |all, &rule| all & sized(rule))
            })
            && self.rules[0][..live].iter().all(|&rule| rule <= horizon)
    }

    #[cfg(test)]
    pub fn cells(&self) -> &[[u32; SIDE]; SIDE] {
        &self.cells
    }

    /// Hands the table out.
    fn store(&mut self, gaps: &Gaps) {
        let live = self.plain.live;
        for (cells, row) in self.cells.iter_mut().zip(&gaps[..live]) {
            for (cell, &gap) in cells.iter_mut().zip(&row[..live]) {
                *cell = (gap + ZERO_GAP as i32) as u32;
            }
            cells[live..].fill(0);
        }
        self.cells[live..].fill([0; SIDE]);
    }

    /// The points of a new job: each from 0 to the horizon, the first not before clock and lead, the
    /// last no later than this.
    fn add_points(&mut self, new: Range<usize>, latest_end: i32) {
        for row in &mut self.rules[..new.start] {
            row[new.clone()].fill(FREE);
        }
        self.rules[0][new.clone()].fill(self.plain.horizon);
        self.rules[0][new.end - 1] = latest_end;
        for point in new.clone() {
            let row = &mut self.rules[point];
            row[..new.end].fill(FREE);
            (row[0], row[point]) = (0, 0);
        }
        self.rules[new.start][0] = -(self.plain.clock + self.plain.lead);
    }
}

/// Each gap becomes the least sum over all ways; false where one from a point to itself is below 0.
fn close(gaps: &mut Gaps, live: usize) -> bool {
    for by in 0..live {
        let onward = gaps[by];
        for (row, back) in gaps[..live].iter_mut().zip(onward) {
            let way = row[by];
            if way + back < 0 {
                return false;
            }
            for (gap, rest) in row[..live].iter_mut().zip(&onward[..live]) {
                *gap = (*gap).min(way + rest);
            }
        }
    }
    true
}

fn stands_still(gaps: &Gaps, point: usize) -> bool {
    gaps[point][0] + gaps[0][point] == 0
}

fn add(rules: &mut Gaps, rule: Rule) {
    let most = &mut rules[rule.to][rule.from];
    *most = (*most).min(-rule.least);
}

impl Calls for Scratch {
    fn fresh(horizon: u32, lead: u32) -> Result<Self, Refusal> {
        let mut board = Scratch {
            plain: Plain::fresh(horizon, lead)?,
            rules: no_gaps(),
            cells: [[0; SIDE]; SIDE],
        };
        board.store(&no_gaps());
        Ok(board)
    }

    fn plan(&mut self, plant: &[u8], offer: &[u8]) -> Result<(), Refusal> {
        let plant = Plant::read(plant)?;
        let mut gaps = no_gaps();
        self.build_sound(&mut gaps)?;
        let offer = Offer::read(&plant, offer)?;
        check_facts_and_due(&offer, self.plain.horizon as u32)?;
        let new = self.plain.new_points(&offer)?;
        self.add_points(new.clone(), self.plain.latest_end(&offer));
        let rules = &mut self.rules;
        self.plain.plan(&offer, new, |rule| add(rules, rule));
        if self.build(&mut gaps) {
            self.store(&gaps);
            return Ok(());
        }
        // Each of its rules has a new point, so that they leave with the points.
        self.plain.take_back(&offer);
        Err(Refusal::NoTimetable)
    }

    fn send(&mut self, place: u32) -> Result<(), Refusal> {
        let mut gaps = no_gaps();
        self.build_sound(&mut gaps)?;
        for point in self.plain.send(place)? {
            let earliest = -gaps[point][0];
            self.rules[0][point] = earliest;
            self.rules[point][0] = -earliest;
        }
        // The earliest times are a timetable together, so that this finds one.
        self.build(&mut gaps);
        self.store(&gaps);
        Ok(())
    }

    fn clock(&mut self, to: u32) -> Result<(), Refusal> {
        let mut gaps = no_gaps();
        self.build_sound(&mut gaps)?;
        let to = self.plain.check_clock(to)?;
        let before: [i32; SIDE] = array::from_fn(|point| self.rules[point][0]);
        let least = to + self.plain.lead;
        for start in self.plain.unsent_starts() {
            add(&mut self.rules, Rule::new(0, start, least));
        }
        if !self.build(&mut gaps) {
            let rows = self.rules.iter_mut().zip(before);
            rows.for_each(|(row, before)| row[0] = before);
            return Err(Refusal::NoneAfterClock);
        }
        self.store(&gaps);
        self.plain.clock = to;
        Ok(())
    }

    fn retire(&mut self) -> Result<(), Refusal> {
        let mut gaps = no_gaps();
        self.build_sound(&mut gaps)?;
        let count = self.plain.retire(|point| -gaps[point][0])?;
        let live = self.plain.live;
        gaps.copy_within(count + 1..count + live, 1);
        for row in &mut gaps[..live] {
            row.copy_within(count + 1..count + live, 1);
        }
        self.rules = gaps;
        self.store(&gaps);
        Ok(())
    }

    fn report(&mut self, rows: &mut [Row]) -> Result<usize, Refusal> {
        let mut gaps = no_gaps();
        self.build_sound(&mut gaps)?;
        let window = |point: usize| [-gaps[point][0], gaps[0][point]];
        self.plain.report(rows, window)
    }
}
