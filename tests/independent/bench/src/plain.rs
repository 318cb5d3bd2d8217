//! The part of a board that has no times: settings, jobs and lines. The forms `windows` and
//! `scratch` share it and add what they keep of the rules.

mod lines;

use independent::board::{
    Row, MOST_HORIZON, MOST_JOBS, MOST_JOB_POINTS, MOST_LEAD, MOST_POINTS, RESOURCES,
};
use independent::offer::Offer;
use independent::Refusal;
use lines::{Line, Use};
use std::ops::Range;

/// From one point to the other it takes at least so long.
#[derive(Clone, Copy)]
pub struct Rule {
    pub from: usize,
    pub to: usize,
    pub least: i32,
}

impl Rule {
    pub fn new(from: usize, to: usize, least: i32) -> Self {
        Rule { from, to, least }
    }
}

#[derive(Clone, Copy, Default)]
struct Job {
    points: usize,
    batch: u32,
    sent: bool,
    /// 0 is no due time.
    due: u32,
}

#[derive(Clone)]
pub struct Plain {
    pub horizon: i32,
    pub lead: i32,
    pub clock: i32,
    /// The number of live points, the origin included.
    pub live: usize,
    job_count: usize,
    jobs: [Job; MOST_JOBS],
    lines: [Line; RESOURCES],
}

impl Plain {
    /// Refusal 5.
    pub fn fresh(horizon: u32, lead: u32) -> Result<Self, Refusal> {
        if horizon == 0 || horizon > MOST_HORIZON || lead > MOST_LEAD {
            return Err(Refusal::HorizonOrLead);
        }
        Ok(Plain {
            horizon: horizon as i32,
            lead: lead as i32,
            clock: 0,
            live: 1,
            job_count: 0,
            jobs: Default::default(),
            lines: Default::default(),
        })
    }

    fn jobs(&self) -> &[Job] {
        &self.jobs[..self.job_count]
    }

    /// Each job with its points.
    fn jobs_and_points(&self) -> impl Iterator<Item = (&Job, Range<usize>)> {
        self.jobs().iter().scan(1, |first, job| {
            let points = *first..*first + job.points;
            *first = points.end;
            Some((job, points))
        })
    }

    /// Whether numbers, jobs and lines are in range, and each point of a sent job stands still.
    pub fn is_sound(&self, stands_still: impl Fn(usize) -> bool) -> bool {
        let points: usize = self.jobs().iter().map(|job| job.points).sum();
        let sizes = 2..=MOST_JOB_POINTS;
        let sent = self.jobs_and_points().filter(|(job, _)| job.sent);
        (1..=MOST_HORIZON as i32).contains(&self.horizon)
            && (0..=MOST_LEAD as i32).contains(&self.lead)
            && (0..=self.horizon).contains(&self.clock)
            && self.jobs().iter().all(|job| sizes.contains(&job.points))
            && self.jobs().iter().all(|job| job.due <= self.horizon as u32)
            && points <= MOST_POINTS
            && points + 1 == self.live
            && self.jobs().is_sorted_by(|one, next| one.sent >= next.sent)
            && self.lines.iter().all(|line| line.is_sound(self.live))
            && sent.flat_map(|(_, points)| points).all(stands_still)
    }

    /// The points that the offer's job would have; refusals 14 to 16.
    pub fn new_points(&self, offer: &Offer) -> Result<Range<usize>, Refusal> {
        let new = self.live..self.live + offer.chain().len() + 1;
        if self.job_count == MOST_JOBS || new.end > MOST_POINTS + 1 {
            return Err(Refusal::NoRoom);
        }
        self.check_places(offer)?;
        Ok(new)
    }

    /// The latest that the offer's job may end: its due time, or else the horizon.
    pub fn latest_end(&self, offer: &Offer) -> i32 {
        match offer.due {
            0 => self.horizon,
            due => due as i32,
        }
    }

    /// Puts the offer's job, of these new points, behind the others and tells the rules (c), (d)
    /// and (e) that it makes.
    pub fn plan(&mut self, offer: &Offer, new: Range<usize>, mut tell: impl FnMut(Rule)) {
        let first = new.start;
        for (step, action) in offer.chain().iter().enumerate() {
            let (start, end) = (first + step, first + step + 1);
            tell(Rule::new(start, end, action.shortest() as i32));
            tell(Rule::new(end, start, -(action.longest() as i32)));
        }
        for wanted in offer.allocations() {
            let new = Use::of(&wanted, first);
            self.lines[wanted.resource].insert(wanted.place as usize, new, &mut tell);
        }
        if let Some(from) = self.last_of_batch(offer.batch) {
            tell(Rule::new(from, new.end - 1, 0));
        }
        self.jobs[self.job_count] = Job {
            points: new.len(),
            batch: offer.batch,
            sent: false,
            due: offer.due,
        };
        self.job_count += 1;
        self.live = new.end;
    }

    /// Refusals 15 and 16.
    fn check_places(&self, offer: &Offer) -> Result<(), Refusal> {
        let mut counts = self.lines.each_ref().map(Line::count);
        for wanted in offer.allocations() {
            let count = &mut counts[wanted.resource];
            let allocation = wanted.number;
            if wanted.place as usize > *count {
                return Err(Refusal::Place { allocation });
            }
            if *count == lines::ROOM {
                return Err(Refusal::LineFull { allocation });
            }
            *count += 1;
        }
        Ok(())
    }

    /// The last point of the newest job of a batch.
    fn last_of_batch(&self, batch: u32) -> Option<usize> {
        let mut after = self.live;
        for job in self.jobs().iter().rev() {
            if batch != 0 && job.batch == batch {
                return Some(after - 1);
            }
            after -= job.points;
        }
        None
    }

    /// Takes the newest job off again, which came of this offer.
    pub fn take_back(&mut self, offer: &Offer) {
        let wanted: Vec<_> = offer.allocations().collect();
        for one in wanted.iter().rev() {
            self.lines[one.resource].remove(one.place as usize);
        }
        self.job_count -= 1;
        self.live -= self.jobs[self.job_count].points;
    }

    /// Marks the unsent jobs up to the place and gives their points; refusal 18.
    pub fn send(&mut self, place: u32) -> Result<Range<usize>, Refusal> {
        let place = place as usize;
        if self.jobs().get(place).is_none_or(|job| job.sent) {
            return Err(Refusal::NoUnsentJob);
        }
        let jobs = self.jobs_and_points().take(place + 1);
        let points = jobs.filter(|(job, _)| !job.sent).map(|(_, points)| points);
        // Sent jobs come first, so that the points of the unsent ones follow one another.
        let points = points.reduce(|all, own| all.start..own.end);
        self.jobs[..=place]
            .iter_mut()
            .for_each(|job| job.sent = true);
        points.ok_or(Refusal::NoUnsentJob)
    }

    /// Refusal 19.
    pub fn check_clock(&self, to: u32) -> Result<i32, Refusal> {
        if to < self.clock as u32 || to > self.horizon as u32 {
            return Err(Refusal::ClockRange);
        }
        Ok(to as i32)
    }

    /// The first point of each unsent job.
    pub fn unsent_starts(&self) -> impl Iterator<Item = usize> + use<'_> {
        let unsent = self.jobs_and_points().filter(|(job, _)| !job.sent);
        unsent.map(|(_, points)| points.start)
    }

    /// Drops the oldest job and gives the number of its points; refusal 21, by the times of its
    /// points.
    pub fn retire(&mut self, time: impl Fn(usize) -> i32) -> Result<usize, Refusal> {
        let oldest = self.jobs().first().filter(|job| job.sent);
        let count = oldest.ok_or(Refusal::NotRetired)?.points;
        let clock = self.clock;
        let mut lines = self.lines.iter();
        if time(count) > clock || !lines.all(|line| line.is_over(count, clock, &time)) {
            return Err(Refusal::NotRetired);
        }
        self.jobs.copy_within(1.., 0);
        self.job_count -= 1;
        self.live -= count;
        self.lines.iter_mut().for_each(|line| line.retire(count));
        Ok(count)
    }

    /// Writes the rows into the front of the list; refusal 22.
    pub fn report(
        &self,
        list: &mut [Row],
        window: impl Fn(usize) -> [i32; 2],
    ) -> Result<usize, Refusal> {
        let count = self.live - 1;
        let mut rows = list.get_mut(..count).ok_or(Refusal::ShortList)?.iter_mut();
        for ((_, points), job) in self.jobs_and_points().zip(0..) {
            let first = points.start;
            for (number, row) in points.zip(&mut rows) {
                let point = (number - first) as u32;
                let [earliest, latest] = window(number).map(|time| time as u32);
                *row = Row {
                    job,
                    point,
                    earliest,
                    latest,
                };
            }
        }
        Ok(count)
    }
}
