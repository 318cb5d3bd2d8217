//! The rule book of a board made by hand, and the board that stands for a rule book.

use super::{Job, RuleBook, Use, ORIGIN};
use crate::board::paths::{latest_after, Rule};
use crate::board::{self, Board, Line, ZERO_GAP};

impl RuleBook {
    /// The book of a sound board made by hand: it begins with one rule for each cell. A due time there
    /// is only a number of the job: the timetables meant are those that the table allows.
    pub fn by_hand(board: &Board) -> Self {
        let live = board.live();
        let cells = (0..live).flat_map(|from| (0..live).map(move |to| (from, to)));
        let rules = cells.map(|(from, to)| Rule {
            plus: to,
            minus: from,
            most: board.gap(from, to),
        });
        let jobs = board.jobs_in_use().iter().zip(board.points_of_jobs());
        let jobs = jobs.map(|(job, points)| Job {
            points: points.collect(),
            batch: job.batch,
            sent: job.sent == 1,
            due: job.due,
        });
        let line = |line: &Line| line.in_use().iter().map(Use::from).collect();
        RuleBook {
            horizon: i64::from(board.horizon),
            lead: i64::from(board.lead),
            clock: i64::from(board.clock),
            points: live,
            rules: rules.collect(),
            jobs: jobs.collect(),
            lines: board.lines.each_ref().map(line),
        }
    }

    /// The board that stands for this book, with all places that aren't in use 0.
    pub fn board(&self) -> Board {
        let mut board = Board {
            horizon: self.horizon as u32,
            lead: self.lead as u32,
            clock: self.clock as u32,
            job_count: self.jobs.len() as u32,
            ..Board::default()
        };
        for (job, own) in board.jobs.iter_mut().zip(&self.jobs) {
            job.points = own.points.len() as u32;
            job.batch = own.batch;
            job.sent = u32::from(own.sent);
            job.due = own.due;
        }
        let mut live = vec![ORIGIN];
        live.extend(self.live_points());
        let number = |point| live.iter().position(|&one| one == point);
        for (line, own) in board.lines.iter_mut().zip(&self.lines) {
            line.count = own.len() as u32;
            for (one, own) in line.uses.iter_mut().zip(own) {
                one.point = number(own.point).expect("a use has a live point") as u32;
                one.offset = own.offset as u32;
                one.length = own.length as u32;
            }
        }
        for (row, &from) in board.cells.iter_mut().zip(&live) {
            let latest = latest_after(from, self.points, &self.rules);
            for (cell, &to) in row.iter_mut().zip(&live) {
                *cell = (latest[to] + i64::from(ZERO_GAP)) as u32;
            }
        }
        board
    }
}

impl From<&board::Use> for Use {
    fn from(one: &board::Use) -> Self {
        Use {
            point: one.point as usize,
            offset: i64::from(one.offset),
            length: i64::from(one.length),
        }
    }
}
