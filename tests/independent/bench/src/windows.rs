//! Windows alone: one earliest and one latest time for each point, and the rules among live points.
//! New rules are worked through to a fixed point of the windows (arc consistency on bounds, AC-3
//! with sets of changed points), which takes a few steps for each rule and no cube of the points.
//!
//! Its rulings and windows are right: rules of this kind have a timetable just where no window runs
//! empty, and a retired point was sent and so has one time, which its neighbours' windows already
//! reflect. What it lacks is the table. It cannot say how far apart two points may lie, nor whether two
//! boards allow the same timetables: a step of 10 to 20 ms and one of 10 to 30 ms, each alone on a
//! board, have the same windows at both ends, and lists of rules that differ can mean the same.

mod rules;
mod times;

use crate::forms::Calls;
use crate::plain::Plain;
use independent::board::Row;
use independent::facts::check_facts_and_due;
use independent::offer::Offer;
use independent::plant::Plant;
use independent::Refusal;
use rules::Rules;
use std::ops::Range;
use times::{Points, Times};

#[derive(Clone)]
pub struct Windows {
    plain: Plain,
    times: Times,
    rules: Rules,
}

impl Windows {
    /// Refusal 6: all numbers in range, each window within the horizon, and each rule respected by
    /// the windows of its two points.
    fn check_sound(&self) -> Result<(), Refusal> {
        let (plain, times) = (&self.plain, &self.times);
        let sound = plain.is_sound(|point| times.stands_still(point))
            && times.lie_within(plain.live, plain.horizon)
            && self.rules.iter().all(|rule| times.respect(rule));
        sound.then_some(()).ok_or(Refusal::Unsound)
    }

    /// The windows with new points, the last of them no later than this, and the rules from number
    /// `old` on, which came with them; `None` where a window runs empty.
    fn with_new(&self, new: Range<usize>, latest_end: i32, old: usize) -> Option<Times> {
        let plain = &self.plain;
        let mut times = self.times.clone();
        times.add_points(new.clone(), plain.horizon);
        times.not_before(new.start, plain.clock + plain.lead)?;
        // A rule reaches the last point, so that this is worked through with the rules.
        times.not_after(new.end - 1, latest_end);
        let (mut from, mut to) = (Points::NONE, Points::NONE);
        for rule in self.rules.iter().skip(old) {
            from.insert(rule.from);
            to.insert(rule.to);
        }
        times.raise(&self.rules, plain.live, from)?;
        times.lower(&self.rules, to);
        Some(times)
    }
}

impl Calls for Windows {
    fn fresh(horizon: u32, lead: u32) -> Result<Self, Refusal> {
        Ok(Windows {
            plain: Plain::fresh(horizon, lead)?,
            times: Times::ORIGIN,
            rules: Rules::NONE,
        })
    }

    fn plan(&mut self, plant: &[u8], offer: &[u8]) -> Result<(), Refusal> {
        let plant = Plant::read(plant)?;
        self.check_sound()?;
        let offer = Offer::read(&plant, offer)?;
        check_facts_and_due(&offer, self.plain.horizon as u32)?;
        let new = self.plain.new_points(&offer)?;
        let latest_end = self.plain.latest_end(&offer);
        let old = self.rules.count();
        let rules = &mut self.rules;
        self.plain
            .plan(&offer, new.clone(), |rule| rules.push(rule));
        if let Some(times) = self.with_new(new, latest_end, old) {
            self.times = times;
            return Ok(());
        }
        self.rules.truncate(old);
        self.plain.take_back(&offer);
        Err(Refusal::NoTimetable)
    }

    /// The earliest times are a timetable together, so only latest times can change.
    fn send(&mut self, place: u32) -> Result<(), Refusal> {
        self.check_sound()?;
        let points = self.plain.send(place)?;
        let changed = self.times.freeze(points);
        self.times.lower(&self.rules, changed);
        Ok(())
    }

    fn clock(&mut self, to: u32) -> Result<(), Refusal> {
        self.check_sound()?;
        let to = self.plain.check_clock(to)?;
        let mut times = self.times.clone();
        let mut changed = Points::NONE;
        for start in self.plain.unsent_starts() {
            let free = times.not_before(start, to + self.plain.lead);
            free.ok_or(Refusal::NoneAfterClock)?;
            changed.insert(start);
        }
        let raised = times.raise(&self.rules, self.plain.live, changed);
        raised.ok_or(Refusal::NoneAfterClock)?;
        self.times = times;
        self.plain.clock = to;
        Ok(())
    }

    fn retire(&mut self) -> Result<(), Refusal> {
        self.check_sound()?;
        let times = &mut self.times;
        let count = self.plain.retire(|point| times.window(point)[0])?;
        times.retire(count);
        self.rules.retire(count);
        Ok(())
    }

    fn report(&mut self, rows: &mut [Row]) -> Result<usize, Refusal> {
        self.check_sound()?;
        self.plain.report(rows, |point| self.times.window(point))
    }
}
