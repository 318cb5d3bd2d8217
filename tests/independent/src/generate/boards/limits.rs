//! Board calls at both sides of every limit.

use super::press::{chain, free};
use super::script::Script;
use crate::board::{MOST_HORIZON, MOST_JOBS, MOST_LEAD, MOST_POINTS, MOST_USES};
use crate::generate::draft::{plant_file, proving_offer, proving_plant};
use crate::generate::rng::Rng;
use crate::offer::{HEADER_BYTES, MOST_STEPS};
use crate::plant::MOST_TIME;

/// Horizons and leads, and every call on the board of a refused fresh.
pub fn freshes(_: &mut Rng, script: &mut Script) {
    let horizons = [
        0,
        1,
        2,
        20,
        MOST_HORIZON - 1,
        MOST_HORIZON,
        MOST_HORIZON + 1,
        1 << 31,
        u32::MAX,
    ];
    let leads = [
        0,
        1,
        5,
        MOST_LEAD - 1,
        MOST_LEAD,
        MOST_LEAD + 1,
        1 << 31,
        u32::MAX,
    ];
    every_call(script);
    script.plant(plant_file(&proving_plant()));
    for horizon in horizons {
        for lead in leads {
            script.fresh(horizon, lead);
            every_call(script);
        }
    }
}

fn every_call(script: &mut Script) {
    script.show();
    script.plan(&proving_offer());
    script.plan_bytes(vec![0; HEADER_BYTES - 1]);
    script.send(0);
    script.clock(0);
    script.clock(u32::MAX);
    script.retire();
    script.reports();
}

/// Jobs of each size until there is no room, then again of every size.
pub fn rooms(_: &mut Rng, script: &mut Script) {
    let actions = free(&[(1, 1, &[]), (1, 3, &[[4, 0, 1]])]);
    script.plant(plant_file(&actions));
    for first_steps in 1..=MOST_STEPS {
        for then_steps in 1..=MOST_STEPS {
            script.fresh(500, 3);
            let steps = vec![0; first_steps];
            while script.plan(&chain(&actions, &steps, &[])) == 0 {}
            for steps in [then_steps, 1] {
                let mut steps = vec![0; steps];
                // At times with a place that is wrong too, which comes later.
                steps[0] = first_steps % 2;
                script.plan(&chain(&actions, &steps, &[(then_steps % 2) as u32]));
            }
            script.show();
            script.reports();
        }
    }
    // Just as many points as there is room for, with fewer jobs than that, and one too many.
    for jobs in [8, 15, 16, 17] {
        script.fresh(500, 3);
        for job in 0..jobs {
            let left = (jobs - job).max(1);
            let live: usize = script
                .book()
                .map_or(0, |book| book.jobs.iter().map(|job| job.points.len()).sum());
            let points = (MOST_POINTS.saturating_sub(live) / left).clamp(2, MOST_STEPS + 1);
            script.plan(&chain(&actions, &vec![0; points - 1], &[]));
        }
        script.plan(&chain(&actions, &[0], &[]));
        script.show();
        script.clock(7);
        script.send(MOST_JOBS as u32 / 2);
        script.show();
        script.send(jobs as u32 - 1);
        script.show();
        script.reports();
        script.clock(300);
        script.retire();
        script.retire();
        script.plan(&chain(&actions, &[1, 1], &[0, 1]));
        script.plan(&chain(&actions, &[1, 1, 1], &[0, 1, 2]));
    }
}

/// Lines filled to the last place by offers of every size, then places at and past their end.
pub fn queues(rng: &mut Rng, script: &mut Script) {
    let four = [[3, 0, 1], [3, 1, 1], [3, 2, 1], [3, 3, 1]];
    let one = [[3, 0, 1]];
    let other = [[4, 0, 1], [3, 0, 1]];
    let actions = free(&[(4, 9, &four), (1, 9, &one), (1, 9, &other), (1, 1, &[])]);
    script.plant(plant_file(&actions));
    let most = MOST_USES as u32;
    for before in 0..=4 {
        for steps in [1, 2, 7, 8] {
            script.fresh(5_000, 0);
            for place in 0..before {
                script.plan(&chain(&actions, &[1], &[place]));
            }
            // All at the end of the line; the last one refused shows the full line's number.
            for round in 0..10 {
                let first = before + round * 4 * steps as u32;
                let places: Vec<u32> = (first..first + 4 * steps as u32).collect();
                if script.plan(&chain(&actions, &vec![0; steps], &places)) != 0 {
                    break;
                }
            }
            for place in [0, 1, most - 1, most, most + 1, u32::MAX] {
                script.plan(&chain(&actions, &[1], &[place]));
                script.plan(&chain(&actions, &[3, 2], &[0, place]));
                script.plan(&chain(&actions, &[3, 2], &[place, 0]));
            }
            script.show();
        }
    }
    // A place one too far at each allocation, and places counted from the front.
    for wrong in 0..MOST_USES {
        script.fresh(5_000, 0);
        let mut places: Vec<u32> = (0..most).collect();
        places[wrong] += 1;
        script.plan(&chain(&actions, &[0; MOST_STEPS], &places));
        places[wrong] = 0;
        script.plan(&chain(&actions, &[0; MOST_STEPS], &places));
        places[wrong] = wrong as u32;
        let anywhere = rng.below(MOST_USES);
        places[anywhere] = rng.below(anywhere + 1) as u32;
        script.plan(&chain(&actions, &[0; MOST_STEPS], &places));
    }
}

/// Horizons that an offer just fits into, with every way to use the time before it up.
pub fn horizons(_: &mut Rng, script: &mut Script) {
    let actions = free(&[
        (10, 20, &[[0, 0, 10]]),
        (5, 5, &[[0, 2, 30], [1, 0, 1]]),
        (7, 1_000_000, &[]),
        (1_000_000, 1_000_000, &[[15, 1_000_000, 1_000_000]]),
    ]);
    script.plant(plant_file(&actions));
    let chains: [&[usize]; 6] = [&[0], &[2, 2, 2], &[0, 1], &[1, 0], &[3, 0, 3], &[3; 8]];
    for steps in chains {
        let least: u32 = steps.iter().map(|&step| actions[step].shortest).sum();
        for (lead, to) in [(0, 0), (4, 0), (0, 6), (1_000, 2)] {
            let fits = least + lead + to;
            for horizon in [fits - 1, fits, fits + 1, fits + 40] {
                script.fresh(horizon, lead);
                script.clock(to);
                let places: Vec<u32> = (0..8).collect();
                script.plan(&chain(&actions, steps, &places));
                script.plan(&chain(&actions, steps, &[0; 8]));
                script.show();
            }
        }
    }
}

/// The largest numbers a table can hold: the whole horizon before and behind a point.
pub fn extremes(_: &mut Rng, script: &mut Script) {
    let most = [[15, MOST_TIME, MOST_TIME]];
    let least = [[15, 0, 1]];
    let actions = free(&[
        (1, 1, &least),
        (1, MOST_TIME, &most),
        (MOST_TIME, MOST_TIME, &most),
    ]);
    script.plant(plant_file(&actions));
    let chains: [&[usize]; 5] = [&[0], &[1], &[2], &[0, 1, 2], &[2; 8]];
    for lead in [0, 1, MOST_LEAD] {
        for steps in chains {
            let shortest: u32 = steps.iter().map(|&step| actions[step].shortest).sum();
            let last_start = MOST_HORIZON - shortest - lead;
            for to in [last_start - 1, last_start, last_start + 1, MOST_HORIZON] {
                script.fresh(MOST_HORIZON, lead);
                script.plan(&chain(&actions, &[1], &[0]));
                script.clock(to.min(MOST_HORIZON - lead - 1));
                script.clock(to);
                let places: Vec<u32> = (1..9).collect();
                script.plan(&chain(&actions, steps, &places));
                script.plan(&chain(&actions, steps, &[0; 8]));
                script.show();
                script.send(0);
                script.clock(to);
                let places: Vec<u32> = (1..9).collect();
                script.plan(&chain(&actions, steps, &places));
                script.send(1);
                script.show();
                script.clock(MOST_HORIZON);
                script.retire();
            }
        }
    }
}

/// Every place to send up to, and the clock at both sides of what each job allows.
pub fn clocks(_: &mut Rng, script: &mut Script) {
    let actions = free(&[(10, 20, &[[0, 0, 10]]), (5, 50, &[[1, 3, 40]])]);
    script.plant(plant_file(&actions));
    let (horizon, lead) = (300, 6);
    let fill = |script: &mut Script| {
        script.fresh(horizon, lead);
        for job in 0..3 {
            let mut offer = chain(&actions, &[0, 1], &[job, job]);
            offer.batch = job % 2;
            script.plan(&offer);
        }
    };
    for sent in 0..4 {
        for place in [0, 1, 2, 3, 4, 16, u32::MAX] {
            fill(script);
            if sent > 0 {
                script.send(sent - 1);
            }
            script.send(place);
            script.show();
        }
        fill(script);
        if sent > 0 {
            script.send(sent - 1);
        }
        for to in limits(script) {
            for to in [to.saturating_sub(1), to, to + 1] {
                fill(script);
                if sent > 0 {
                    script.send(sent - 1);
                }
                script.clock(to);
                script.retire();
                // After 20, sending the newest job and repeating the call always succeeds.
                script.send(2);
                script.clock(to);
                script.retire();
                script.clock(to.saturating_sub(1));
                script.retire();
                script.show();
            }
        }
    }
}

/// Times at which what the clock does to the board reached changes.
pub fn limits(script: &Script) -> Vec<u32> {
    let Some(book) = script.book() else {
        return vec![0];
    };
    let windows = book.windows();
    let mut limits = vec![book.clock, book.horizon];
    for job in &book.jobs {
        let (earliest, latest) = windows[job.points[0]];
        limits.extend([earliest - book.lead, latest - book.lead]);
        limits.extend(job.points.last().map(|&last| windows[last].0));
    }
    for one in book.lines.iter().flatten() {
        limits.push(windows[one.point].0 + one.offset + one.length);
    }
    limits
        .into_iter()
        .map(|limit| limit.max(0) as u32)
        .collect()
}
