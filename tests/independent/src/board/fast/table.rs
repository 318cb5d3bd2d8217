//! A gap table that stays closed: no entry ever exceeds the sum by way of a third point.

use crate::board::{SIDE, ZERO_GAP};
use crate::ruling::Refusal;

/// Gaps are at most 100,000,000 both ways and rules little more, so that sums of three fit.
pub struct Table {
    gaps: [[i32; SIDE]; SIDE],
    live: usize,
}

impl Table {
    pub fn load(cells: &[[u32; SIDE]; SIDE], live: usize) -> Self {
        let mut gaps = [[0; SIDE]; SIDE];
        for (row, cells) in gaps.iter_mut().zip(&cells[..live]) {
            for (gap, &cell) in row.iter_mut().zip(&cells[..live]) {
                *gap = cell as i32 - ZERO_GAP as i32;
            }
        }
        Table { gaps, live }
    }

    pub fn store(&self, cells: &mut [[u32; SIDE]; SIDE]) {
        for (cells, row) in cells.iter_mut().zip(&self.gaps[..self.live]) {
            for (cell, &gap) in cells.iter_mut().zip(&row[..self.live]) {
                *cell = (gap + ZERO_GAP as i32) as u32;
            }
        }
    }

    pub fn earliest(&self, point: usize) -> i32 {
        -self.gaps[point][0]
    }

    /// Adds points of which no more is known than that they are from 0 to the horizon.
    pub fn add_points(&mut self, count: usize, horizon: i32) {
        let new = self.live..self.live + count;
        for row in &mut self.gaps[..self.live] {
            let latest = row[0] + horizon;
            row[new.clone()].fill(latest);
        }
        self.live = new.end;
        // Each new row begins like the origin's, whose part up to here is done.
        let origin = self.gaps[0];
        for point in new {
            self.gaps[point] = origin;
            self.gaps[point][point] = 0;
        }
    }

    /// From one point to the other it takes at least so long; refusal 17 if it can't.
    pub fn at_least(&mut self, from: usize, to: usize, least: i32) -> Result<(), Refusal> {
        self.at_most(to, from, -least)
    }

    /// From one point to the other it takes at most so long; refusal 17 if it can't.
    pub fn at_most(&mut self, from: usize, to: usize, most: i32) -> Result<(), Refusal> {
        if self.gaps[to][from] + most < 0 {
            return Err(Refusal::NoTimetable);
        }
        if self.gaps[from][to] <= most {
            return Ok(());
        }
        let after = self.gaps[to];
        for row in &mut self.gaps[..self.live] {
            let by_way = row[from] + most;
            if by_way < row[to] {
                for (gap, rest) in row[..self.live].iter_mut().zip(&after[..self.live]) {
                    *gap = (*gap).min(by_way + rest);
                }
            }
        }
        Ok(())
    }
}
