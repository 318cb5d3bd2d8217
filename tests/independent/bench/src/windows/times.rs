//! The windows of points, and how a change of one spreads to others.

use super::rules::Rules;
use crate::plain::Rule;
use independent::board::SIDE;
use std::ops::Range;

/// A set of points, one bit for each.
#[derive(Clone, Copy)]
pub struct Points(u128);

impl Points {
    pub const NONE: Points = Points(0);

    pub fn insert(&mut self, point: usize) {
        self.0 |= 1 << point;
    }

    fn take_first(&mut self) -> Option<usize> {
        let point = self.0.trailing_zeros() as usize;
        self.0 &= self.0.wrapping_sub(1);
        (point < SIDE).then_some(point)
    }

    fn take_last(&mut self) -> Option<usize> {
        let point = self.0.checked_ilog2()? as usize;
        self.0 ^= 1 << point;
        Some(point)
    }

    fn is_empty(self) -> bool {
        self.0 == 0
    }
}

#[derive(Clone)]
pub struct Times {
    earliest: [i32; SIDE],
    latest: [i32; SIDE],
}

impl Times {
    pub const ORIGIN: Times = Times {
        earliest: [0; SIDE],
        latest: [0; SIDE],
    };

    /// Earliest and latest.
    pub fn window(&self, point: usize) -> [i32; 2] {
        [self.earliest[point], self.latest[point]]
    }

    pub fn stands_still(&self, point: usize) -> bool {
        self.earliest[point] == self.latest[point]
    }

    pub fn lie_within(&self, live: usize, horizon: i32) -> bool {
        let windows = self.earliest[..live].iter().zip(&self.latest[..live]);
        let within = windows.map(|(&earliest, &latest)| {
            (0 <= earliest) & (earliest <= latest) & (latest <= horizon)
        });
        self.latest[0] == 0 && within.fold(true, |all, one| all & one)
    }

    pub fn respect(&self, rule: Rule) -> bool {
        let Rule { from, to, least } = rule;
        (self.earliest[from] + least <= self.earliest[to])
            & (self.latest[from] + least <= self.latest[to])
    }

    pub fn add_points(&mut self, new: Range<usize>, horizon: i32) {
        self.earliest[new.clone()].fill(0);
        self.latest[new].fill(horizon);
    }

    /// `None` where the window runs empty.
    pub fn not_before(&mut self, point: usize, time: i32) -> Option<()> {
        self.earliest[point] = self.earliest[point].max(time);
        (self.earliest[point] <= self.latest[point]).then_some(())
    }

    /// Of a new point, whose earliest time is still 0.
    pub fn not_after(&mut self, point: usize, time: i32) {
        self.latest[point] = self.latest[point].min(time);
    }

    /// Sets the points to their earliest times and gives those that this changes.
    pub fn freeze(&mut self, points: Range<usize>) -> Points {
        let mut changed = Points::NONE;
        for point in points {
            if !self.stands_still(point) {
                self.latest[point] = self.earliest[point];
                changed.insert(point);
            }
        }
        changed
    }

    /// Raises earliest times as far as the rules ask, from the changed points on; `None` where a
    /// window runs empty.
    ///
    /// Points are looked at in rounds, each in number order. A path without a circle has fewer rules
    /// than there are points, so a change in a later round comes of a circle that no timetable
    /// keeps. Without this end such a circle would raise its times step by step up to the horizon.
    pub fn raise(&mut self, rules: &Rules, live: usize, changed: Points) -> Option<()> {
        let mut now = changed;
        for _ in 0..=live {
            let mut next = Points::NONE;
            while let Some(point) = now.take_first() {
                for Rule { to, least, .. } in rules.leaving(point) {
                    let time = self.earliest[point] + least;
                    if time <= self.earliest[to] {
                        continue;
                    }
                    self.earliest[to] = time;
                    if time > self.latest[to] {
                        return None;
                    }
                    if to > point { &mut now } else { &mut next }.insert(to);
                }
            }
            if next.is_empty() {
                return Some(());
            }
            now = next;
        }
        None
    }

    /// Lowers latest times as far as the rules ask, in rounds like those above, the last point
    /// first. The earliest times keep all rules, so that no window runs empty and this ends.
    pub fn lower(&mut self, rules: &Rules, changed: Points) {
        let mut now = changed;
        while !now.is_empty() {
            let mut next = Points::NONE;
            while let Some(point) = now.take_last() {
                for Rule { from, least, .. } in rules.reaching(point) {
                    let time = self.latest[point] - least;
                    if time < self.latest[from] {
                        self.latest[from] = time;
                        if from < point { &mut now } else { &mut next }.insert(from);
                    }
                }
            }
            now = next;
        }
    }

    /// Drops the points 1 to `count`.
    pub fn retire(&mut self, count: usize) {
        for times in [&mut self.earliest, &mut self.latest] {
            times.copy_within(count + 1.., 1);
        }
    }
}
