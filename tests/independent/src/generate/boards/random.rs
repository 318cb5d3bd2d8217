//! Random lists of board calls: most offers are made to be accepted, and most numbers lie at a
//! limit of the board reached.

use super::dues::{any_due, past_horizon};
use super::hand;
use super::limits::limits;
use super::press::Press;
use super::script::Script;
use crate::board::{MOST_HORIZON, MOST_JOBS};
use crate::generate::damage::{damage_bytes, damage_facts, damage_format};
use crate::generate::draft::OfferDraft;
use crate::generate::random::bad_plant;
use crate::generate::rng::Rng;

pub fn random(rng: &mut Rng, script: &mut Script) {
    let mut press = begin(rng, script);
    let length = rng.pick(&[8, 20, 30, 45]);
    for _ in 0..length {
        if rng.one_in(40) {
            press = Press::random(rng);
            script.plant(press.file());
        }
        any_call(rng, script, &press);
    }
}

/// A fresh board and a press, now and then after a refused one.
pub fn begin(rng: &mut Rng, script: &mut Script) -> Press {
    let press = Press::random(rng);
    script.plant(press.file());
    if rng.one_in(8) {
        script.fresh(
            rng.pick(&[0, 100_000_001, 50]),
            rng.pick(&[1_000_001, u32::MAX, 0]),
        );
        for _ in 0..2 {
            any_call(rng, script, &press);
        }
    }
    let horizon = press.horizon(rng);
    script.fresh(horizon, press.lead(rng, horizon));
    press
}

pub fn any_call(rng: &mut Rng, script: &mut Script, press: &Press) {
    match rng.below(100) {
        0..56 => plan(rng, script, press),
        56..64 => plan_wrong_facts(rng, script, press),
        64..67 => plan_wrong_format(rng, script, press),
        67..69 => plan_bad_plant(rng, script, press),
        69..76 => send(rng, script),
        76..86 => clock(rng, script, press),
        86..94 if script.retires => retire(rng, script),
        94..97 => script.show(),
        97 => report(rng, script),
        98 => hand::take_over(rng, script),
        _ => plan(rng, script, press),
    }
}

fn report(rng: &mut Rng, script: &mut Script) {
    let room = rng.pick(&script.rooms());
    script.report(room);
}

/// An offer whose facts pass, with places and a due time for the board reached.
fn offer(rng: &mut Rng, script: &Script, press: &Press) -> OfferDraft {
    let offer = press.offer(rng, script.book());
    let due = any_due(rng, script, &offer);
    offer.due(due)
}

fn plan(rng: &mut Rng, script: &mut Script, press: &Press) {
    let offer = offer(rng, script, press);
    script.plan(&offer);
}

fn plan_wrong_facts(rng: &mut Rng, script: &mut Script, press: &Press) {
    let mut offer = offer(rng, script, press);
    if rng.one_in(4) {
        offer.due = past_horizon(rng, script);
    }
    // Where the plant has no facts, there is one now.
    let mut world = press.world.clone();
    world.facts |= 1 << rng.below(32);
    for _ in 0..1 + rng.below(3) {
        damage_facts(rng, &world, &mut offer);
    }
    // The fact check goes on where plan stops at the due time.
    if script.plan(&offer) == 23 {
        script.fact(&offer);
    }
}

fn plan_wrong_format(rng: &mut Rng, script: &mut Script, press: &Press) {
    let mut offer = offer(rng, script, press);
    if rng.one_in(3) {
        let mut bytes = offer.bytes();
        damage_bytes(rng, &mut bytes);
        script.plan_bytes(bytes);
    } else {
        damage_format(rng, &press.world, &mut offer);
        script.plan(&offer);
    }
}

fn plan_bad_plant(rng: &mut Rng, script: &mut Script, press: &Press) {
    let good = script.current_plant();
    script.plant(bad_plant(rng, &press.world));
    plan(rng, script, press);
    script.plant(good);
}

fn send(rng: &mut Rng, script: &mut Script) {
    let (jobs, sent) = script.book().map_or((0, 0), |book| {
        let sent = book.jobs.iter().filter(|job| job.sent).count();
        (book.jobs.len() as u32, sent as u32)
    });
    let anywhere = rng.below(MOST_JOBS + 1) as u32;
    let last = jobs.saturating_sub(1);
    let edge = rng.edge();
    script.send(rng.pick(&[sent, sent, sent, sent + 1, last, jobs, 0, anywhere, edge]));
}

fn clock(rng: &mut Rng, script: &mut Script, press: &Press) {
    let limit = rng.pick(&limits(script));
    let clock = script.book().map_or(0, |book| book.clock as u32);
    let a_little = clock + rng.below(1 + 3 * press.unit as usize) as u32;
    let edge = rng.edge();
    let to = match rng.below(10) {
        0 => limit.saturating_sub(1),
        1 => limit,
        2 | 3 => limit + 1,
        4 => rng.pick(&[clock, clock.saturating_sub(1), edge]),
        _ => a_little,
    };
    // After 20, sending the newest job and repeating the call always succeeds.
    if script.clock(to) == 20 && rng.one_in(2) {
        let jobs = script.book().map_or(0, |book| book.jobs.len());
        script.send(jobs as u32 - 1);
        script.clock(to);
    }
}

/// Retires, most often just when the oldest job has ended or one millisecond before.
fn retire(rng: &mut Rng, script: &mut Script) {
    if let Some(end) = oldest_end(script).filter(|_| rng.below(4) > 0) {
        script.clock(end - 1);
        script.retire();
        script.clock(end);
    }
    script.retire();
}

/// When the last of the oldest job ends, if that is sent.
fn oldest_end(script: &Script) -> Option<u32> {
    let book = script.book()?;
    let oldest = book.jobs.first().filter(|job| job.sent)?;
    let windows = book.windows();
    let uses = book.lines.iter().flatten();
    let own = uses.filter(|one| oldest.points.contains(&one.point));
    let ends = own.map(|one| windows[one.point].0 + one.offset + one.length);
    let last = oldest.points.last().map(|&last| windows[last].0);
    // A board made by hand can have all of a job at 0.
    ends.chain(last).max().map(|end| end.max(1) as u32)
}

/// How many jobs a season retires, and the most rounds it takes for that.
const SEASON_JOBS: usize = 250;
const SEASON_ROUNDS: usize = 600;
/// The longest use of a season: hundreds that take much longer would reach the horizon.
const SEASON_USE: u32 = 10_000;

/// Hundreds of jobs on one board: they come, are sent, end and retire, so that points, lines and
/// places in the job list are used again and again.
pub fn season(rng: &mut Rng, script: &mut Script) {
    let press = willing_press(rng, script);
    let mut retired = 0;
    for _ in 0..SEASON_ROUNDS {
        if retired >= SEASON_JOBS {
            break;
        }
        for _ in 0..1 + rng.below(3) {
            plan(rng, script, &press);
        }
        let jobs = job_count(script);
        let unsent = script
            .book()
            .map_or(0, |book| book.jobs.iter().filter(|job| !job.sent).count());
        let last = jobs.saturating_sub(1);
        let place = rng.pick(&[jobs - unsent, last, last]);
        script.send(place as u32);
        for _ in 0..1 + rng.below(3) {
            let before = job_count(script);
            retire(rng, script);
            retired += before - job_count(script);
        }
        if rng.one_in(25) {
            script.show();
            script.reports();
        }
    }
}

/// A press most of whose offers are accepted, tried on a fresh board that the season goes on with.
/// Its steps and uses are short, so that the horizon is far away.
fn willing_press(rng: &mut Rng, script: &mut Script) -> Press {
    loop {
        let press = Press::random(rng);
        if press.unit > 300 || press.longest_use() > SEASON_USE {
            continue;
        }
        script.plant(press.file());
        script.fresh(MOST_HORIZON, press.unit);
        for _ in 0..8 {
            plan(rng, script, &press);
        }
        if job_count(script) >= 5 {
            return press;
        }
    }
}

fn job_count(script: &Script) -> usize {
    script.book().map_or(0, |book| book.jobs.len())
}

/// A day's work: jobs come, are sent, end and, where the list may, retire, over and over.
pub fn shift(rng: &mut Rng, script: &mut Script) {
    let press = begin(rng, script);
    let length = rng.pick(&[10, 20, 30]);
    for _ in 0..length {
        for _ in 0..rng.below(4) {
            plan(rng, script, &press);
        }
        if rng.one_in(2) {
            let sent = script.book().map_or(0, |book| {
                book.jobs.iter().filter(|job| job.sent).count() as u32
            });
            script.send(sent);
        }
        if script.retires {
            retire(rng, script);
        } else if rng.one_in(2) {
            clock(rng, script, &press);
        }
        if rng.one_in(6) {
            script.show();
        }
    }
}
