//! The rule book: document 01's plain machine. It keeps every rule ever made and finds out what
//! exists from all of them anew at each call.

mod words;

use super::paths::{exists, latest_after, least, Rule};
use super::{Row, MOST_HORIZON, MOST_JOBS, MOST_LEAD, MOST_POINTS, MOST_USES, RESOURCES};
use crate::offer::{Allocation, Offer};
use crate::ruling::Refusal;

const ORIGIN: usize = 0;

#[derive(Clone)]
pub struct RuleBook {
    pub horizon: i64,
    pub lead: i64,
    pub clock: i64,
    /// How many points were ever made, the origin and retired ones included.
    points: usize,
    rules: Vec<Rule>,
    pub jobs: Vec<Job>,
    pub lines: [Vec<Use>; RESOURCES],
}

#[derive(Clone)]
pub struct Job {
    /// Its points by the order in which points were ever made; the origin is 0.
    pub points: Vec<usize>,
    pub batch: u32,
    pub sent: bool,
    /// 0 is no due time.
    pub due: u32,
}

#[derive(Clone, Copy)]
pub struct Use {
    pub point: usize,
    pub offset: i64,
    pub length: i64,
}

impl Use {
    /// How long after its point it ends.
    fn end(self) -> i64 {
        self.offset + self.length
    }
}

impl Job {
    fn last_point(&self) -> usize {
        *self.points.last().expect("a job has points")
    }
}

impl RuleBook {
    pub fn fresh(horizon: u32, lead: u32) -> Result<Self, Refusal> {
        if !(1..=MOST_HORIZON).contains(&horizon) || lead > MOST_LEAD {
            return Err(Refusal::HorizonOrLead);
        }
        Ok(RuleBook {
            horizon: i64::from(horizon),
            lead: i64::from(lead),
            clock: 0,
            points: 1,
            rules: Vec::new(),
            jobs: Vec::new(),
            lines: Default::default(),
        })
    }

    /// Refusals 14 to 17.
    pub fn plan(&mut self, offer: &Offer) -> Result<(), Refusal> {
        let mut next = self.clone();
        let last = next.add_job(offer)?;
        if offer.due != 0 {
            next.lasts_at_most(ORIGIN, last, i64::from(offer.due));
        }
        if !next.has_timetable() {
            return Err(Refusal::NoTimetable);
        }
        *self = next;
        Ok(())
    }

    /// The earliest and the latest end that the offer's job would have without its due time;
    /// refusals 14 to 17.
    pub fn end_without_due(&self, offer: &Offer) -> Result<(i64, i64), Refusal> {
        let mut next = self.clone();
        let last = next.add_job(offer)?;
        if !next.has_timetable() {
            return Err(Refusal::NoTimetable);
        }
        Ok(next.windows()[last])
    }

    /// Adds the job with rules (a) to (e) and gives its last point.
    fn add_job(&mut self, offer: &Offer) -> Result<usize, Refusal> {
        let chain = offer.chain();
        let count = chain.len() + 1;
        if self.jobs.len() == MOST_JOBS || self.live_points().len() + count > MOST_POINTS {
            return Err(Refusal::NoRoom);
        }
        let points: Vec<usize> = (self.points..self.points + count).collect();
        self.points += count;
        for &point in &points {
            self.lasts_at_least(ORIGIN, point, 0);
            self.lasts_at_most(ORIGIN, point, self.horizon);
        }
        self.lasts_at_least(ORIGIN, points[0], self.clock + self.lead);
        for (action, ends) in chain.iter().zip(points.windows(2)) {
            self.lasts_at_least(ends[0], ends[1], i64::from(action.shortest()));
            self.lasts_at_most(ends[0], ends[1], i64::from(action.longest()));
        }
        for allocation in offer.allocations() {
            self.put_in_line(&allocation, points[allocation.step])?;
        }
        let job = Job {
            points,
            batch: offer.batch,
            sent: false,
            due: offer.due,
        };
        let last = job.last_point();
        let newest = self.jobs.iter().rfind(|other| other.batch == job.batch);
        if let Some(newest) = newest.filter(|_| job.batch != 0) {
            self.lasts_at_least(newest.last_point(), last, 0);
        }
        self.jobs.push(job);
        Ok(last)
    }

    fn put_in_line(&mut self, allocation: &Allocation, point: usize) -> Result<(), Refusal> {
        let line = &mut self.lines[allocation.resource];
        let place = allocation.place as usize;
        let number = allocation.number;
        if place > line.len() {
            return Err(Refusal::Place { allocation: number });
        }
        if line.len() == MOST_USES {
            return Err(Refusal::LineFull { allocation: number });
        }
        let new = Use {
            point,
            offset: i64::from(allocation.offset),
            length: i64::from(allocation.length),
        };
        let after = line.get(place).copied();
        let before = place.checked_sub(1).map(|before| line[before]);
        line.insert(place, new);
        if let Some(before) = before {
            self.ends_before(before, new);
        }
        if let Some(after) = after {
            self.ends_before(new, after);
        }
        Ok(())
    }

    /// Refusal 18.
    pub fn send(&mut self, place: u32) -> Result<(), Refusal> {
        let place = place as usize;
        if self.jobs.get(place).is_none_or(|job| job.sent) {
            return Err(Refusal::NoUnsentJob);
        }
        let least = least(self.points, &self.rules);
        let mut points = Vec::new();
        for job in self.jobs[..=place].iter_mut().filter(|job| !job.sent) {
            job.sent = true;
            points.extend(job.points.clone());
        }
        for point in points {
            self.lasts_at_least(ORIGIN, point, least[point]);
            self.lasts_at_most(ORIGIN, point, least[point]);
        }
        Ok(())
    }

    /// Refusals 19 and 20.
    pub fn clock(&mut self, to: u32) -> Result<(), Refusal> {
        let to = i64::from(to);
        if to < self.clock || to > self.horizon {
            return Err(Refusal::ClockRange);
        }
        let mut next = self.clone();
        next.clock = to;
        for job in self.jobs.iter().filter(|job| !job.sent) {
            next.lasts_at_least(ORIGIN, job.points[0], to + self.lead);
        }
        if !next.has_timetable() {
            return Err(Refusal::NoneAfterClock);
        }
        *self = next;
        Ok(())
    }

    /// Refusal 21.
    pub fn retire(&mut self) -> Result<(), Refusal> {
        let Some(oldest) = self.jobs.first().filter(|job| job.sent) else {
            return Err(Refusal::NotRetired);
        };
        // A sent job's points have one time each, which is then the least.
        let times = least(self.points, &self.rules);
        let uses = self.lines.iter().flatten();
        let mut uses = uses.filter(|one| oldest.points.contains(&one.point));
        let clock = self.clock;
        if times[oldest.last_point()] > clock
            || uses.any(|one| times[one.point] + one.end() > clock)
        {
            return Err(Refusal::NotRetired);
        }
        let retired = self.jobs.remove(0);
        for line in &mut self.lines {
            line.retain(|one| !retired.points.contains(&one.point));
        }
        Ok(())
    }

    /// Refusal 22. Earliest and latest are the least and the greatest time of all timetables.
    pub fn report(&self, room: u32) -> Result<Vec<Row>, Refusal> {
        if self.live_points().len() > room as usize {
            return Err(Refusal::ShortList);
        }
        let windows = self.windows();
        let mut rows = Vec::new();
        for (job, place) in self.jobs.iter().zip(0..) {
            for (&number, point) in job.points.iter().zip(0..) {
                let (earliest, latest) = windows[number];
                rows.push(Row {
                    job: place,
                    point,
                    earliest: earliest as u32,
                    latest: latest as u32,
                });
            }
        }
        Ok(rows)
    }

    /// The live points beside the origin in number order.
    fn live_points(&self) -> Vec<usize> {
        let points = self.jobs.iter().flat_map(|job| &job.points);
        points.copied().collect()
    }

    fn has_timetable(&self) -> bool {
        exists(self.points, &self.rules)
    }

    /// From the first point to the second it takes at least so long.
    fn lasts_at_least(&mut self, from: usize, to: usize, least: i64) {
        let (plus, minus, most) = (from, to, -least);
        self.rules.push(Rule { plus, minus, most });
    }

    /// From the first point to the second it takes at most so long.
    fn lasts_at_most(&mut self, from: usize, to: usize, most: i64) {
        let (plus, minus) = (to, from);
        self.rules.push(Rule { plus, minus, most });
    }

    /// The first use ends no later than the second starts.
    fn ends_before(&mut self, first: Use, second: Use) {
        self.lasts_at_least(first.point, second.point, first.end() - second.offset);
    }

    /// The least and the greatest time of every point, by the order in which points were made.
    pub fn windows(&self) -> Vec<(i64, i64)> {
        let least = least(self.points, &self.rules);
        let greatest = latest_after(ORIGIN, self.points, &self.rules);
        least.into_iter().zip(greatest).collect()
    }
}
