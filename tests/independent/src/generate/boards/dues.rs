//! Due times: Note 2's cases, due times at both sides of all that a board allows, jobs whose order
//! they decide, boards that differ in one of them alone, and due times on boards made by hand.

use super::press::{chain, free};
use super::script::Script;
use crate::board::MOST_HORIZON;
use crate::facts::Facts;
use crate::generate::draft::{plant_file, proving_offer, proving_plant, ActionDraft, OfferDraft};
use crate::generate::rng::Rng;

const HORIZON: u32 = 1_000;
const LEAD: u32 = 5;
/// The earliest end of job J on a fresh board.
const JOB_END: u32 = 20;

/// A due time for an offer on the board reached, most often none.
pub fn any_due(rng: &mut Rng, script: &Script, offer: &OfferDraft) -> u32 {
    let horizon = script.horizon();
    let end = || script.end_without_due(offer).unwrap_or_default().0;
    match rng.below(20) {
        0 => 1,
        1 | 2 => end(),
        3 => end().saturating_sub(1),
        4 => end() + rng.below(1 + horizon as usize / 8) as u32,
        5 => horizon,
        6 => past_horizon(rng, script),
        7 => rng.below(1 + horizon as usize) as u32,
        _ => 0,
    }
}

/// A due time past the horizon of the board reached.
pub fn past_horizon(rng: &mut Rng, script: &Script) -> u32 {
    rng.pick(&[script.horizon() + 1, u32::MAX])
}

/// The due times that matter to an offer on the board reached: none, the least, both sides of its
/// earliest end, of its latest and of the horizon, and the largest.
fn due_times(script: &Script, offer: &OfferDraft) -> Vec<u32> {
    let horizon = script.horizon();
    let (earliest, latest) = script.end_without_due(offer).unwrap_or((2, horizon));
    let sides = [earliest, latest, horizon].map(|time| [time - 1, time, time + 1]);
    let mut times = [&[0, 1], sides.as_flattened(), &[1 << 31, u32::MAX]].concat();
    times.sort_unstable();
    times.dedup();
    times
}

/// Job J of the proving table, and offers whose facts fail, with due times at both sides of J's end
/// and of the horizon. The fact check gets the same bytes.
pub fn cases(_: &mut Rng, script: &mut Script) {
    let plant = proving_plant();
    let job = proving_offer();
    let mut both_ways = job.clone();
    both_ways.goal.negative = both_ways.goal.positive;
    let offer = |goal, chain: &[usize]| OfferDraft::new(job.known, goal, &plant, chain);
    let backwards = offer(job.goal, &[1, 0]);
    let undone = offer(Facts::new(5, 0), &[0, 1]);
    let clash = offer(Facts::new(0, 8), &[2]);
    script.plant(plant_file(&plant));
    for offer in [job.clone(), both_ways, backwards, undone, clash] {
        for horizon in [JOB_END, HORIZON, MOST_HORIZON] {
            for due in [0, JOB_END - 1, JOB_END, horizon, horizon + 1, u32::MAX] {
                let offer = offer.clone().due(due);
                script.fresh(horizon, LEAD);
                script.plan(&offer);
                script.fact(&offer);
                script.report(64);
                script.show();
            }
        }
    }
}

/// Two steps on two resources; an allocation of the second outlasts it.
fn two_steps() -> Vec<ActionDraft> {
    free(&[(10, 20, &[[0, 0, 10]]), (5, 50, &[[1, 3, 40]])])
}

/// Every due time that matters, at every place before, between and behind other jobs, and what later
/// calls make of the job.
pub fn sides(_: &mut Rng, script: &mut Script) {
    let actions = two_steps();
    script.plant(plant_file(&actions));
    let fill = |script: &mut Script, jobs: u32| {
        script.fresh(400, LEAD);
        for job in 0..jobs {
            script.plan(&chain(&actions, &[0, 1], &[job, job]));
        }
    };
    for jobs in 0..4 {
        for place in 0..=jobs {
            let mut offer = chain(&actions, &[0, 1], &[place, place]);
            offer.batch = place;
            fill(script, jobs);
            for due in due_times(script, &offer) {
                fill(script, jobs);
                script.plan(&offer.clone().due(due));
                script.show();
                later_calls(script, jobs);
            }
        }
    }
}

/// The clock at both sides of the newest job's last start; then all jobs are sent and retire.
fn later_calls(script: &mut Script, newest: u32) {
    if let Some(to) = last_clock(script) {
        script.clock(to + 1);
        script.clock(to);
    }
    script.show();
    script.send(0);
    script.send(newest);
    script.show();
    script.clock(script.horizon());
    for _ in 0..=newest {
        script.retire();
    }
    script.show();
}

/// The last time to which the clock can go while no more jobs are sent.
fn last_clock(script: &Script) -> Option<u32> {
    let book = script.book()?;
    let windows = book.windows();
    let unsent = book.jobs.iter().filter(|job| !job.sent);
    let starts = unsent.map(|job| windows[job.points[0]].1 - book.lead);
    starts.min().map(|time| time.max(book.clock) as u32)
}

/// Two jobs on one resource of which one is due soon: that one must go first. Where it is the newer
/// one, the place behind the other is 17; where it is the older one, the place ahead of it is.
pub fn turns(_: &mut Rng, script: &mut Script) {
    for length in [1, 10, 1_000] {
        let actions = free(&[(length, length, &[[7, 0, length]])]);
        script.plant(plant_file(&actions));
        let [ahead, behind] = [0, 1].map(|place| chain(&actions, &[0], &[place]));
        let soon = LEAD + length;
        for due in [soon, soon + 1, soon + length - 1, soon + length] {
            script.fresh(100 * length, LEAD);
            script.plan(&ahead);
            script.plan(&behind.clone().due(due));
            script.plan(&ahead.clone().due(due));
            script.show();
            script.fresh(100 * length, LEAD);
            script.plan(&ahead.clone().due(due));
            script.plan(&ahead);
            script.plan(&behind);
            script.show();
        }
    }
}

/// What may come after the job on both boards of a pair.
const THEN: [fn(&mut Script); 6] = [
    |_| {},
    // A sent job has one timetable, whatever was possible before.
    |script| _ = script.send(0),
    |script| _ = script.clock(300),
    |script| plan_job_at(script, 0, 0),
    |script| plan_job(script, 0),
    |script| plan_job(script, 400),
];

/// Job J, in a batch, at a place of its line.
fn plan_job_at(script: &mut Script, place: u32, due: u32) {
    let mut offer = proving_offer().due(due);
    offer.batch = 7;
    offer.steps[0].places[0] = place;
    script.plan(&offer);
}

/// The same behind all other jobs.
fn plan_job(script: &mut Script, due: u32) {
    let place = script.book().map_or(0, |book| book.jobs.len());
    plan_job_at(script, place as u32, due);
}

/// Boards that differ in one due time alone, shown one after the other. Where it binds on one of them
/// the tables differ; where it binds on neither, or no longer, they are equal.
pub fn pairs(_: &mut Rng, script: &mut Script) {
    script.plant(plant_file(&proving_plant()));
    let pairs = [
        [0, HORIZON],
        [0, HORIZON - 1],
        [HORIZON - 1, HORIZON],
        [0, JOB_END],
        [JOB_END, JOB_END + 1],
        [400, 700],
    ];
    for pair in pairs {
        for then in THEN {
            for due in pair {
                script.fresh(HORIZON, LEAD);
                plan_job(script, due);
                then(script);
                script.show();
            }
            // The same behind a job that is over and, where the list may, retired.
            for due in pair {
                script.fresh(HORIZON, LEAD);
                plan_job(script, JOB_END);
                script.send(0);
                script.clock(JOB_END);
                script.retire();
                plan_job(script, due);
                then(script);
                script.show();
            }
        }
    }
}

/// What stands as a due time on boards made by hand.
const WORDS: [u32; 8] = [
    0,
    1,
    JOB_END,
    HORIZON - 1,
    HORIZON,
    HORIZON + 1,
    1 << 31,
    u32::MAX,
];

/// Due times on boards made by hand, of jobs in use and of others: within the horizon and past it,
/// and such as the table doesn't keep.
pub fn words(_: &mut Rng, script: &mut Script) {
    script.plant(plant_file(&proving_plant()));
    for sent in [0, 1] {
        script.fresh(HORIZON, LEAD);
        for _ in 0..3 {
            plan_job(script, 0);
        }
        script.send(sent);
        let base = script.reached();
        for slot in [0, 1, 2, 3, 15] {
            for due in WORDS {
                let mut board = base.clone();
                board.jobs[slot].due = due;
                script.board(&board);
                script.show();
                script.report(64);
                plan_job(script, due);
                script.clock(JOB_END);
                script.retire();
                script.send(2);
                script.show();
            }
        }
    }
}
