//! The largest plant, with every action planned: through all resources, and in batches that are one
//! bit apart.

use super::press::{chain, free};
use super::script::Script;
use crate::board::RESOURCES;
use crate::generate::draft::{plant_file, ActionDraft};
use crate::generate::rng::Rng;
use crate::plant::MOST_ACTIONS;

/// How many allocations each action has.
const EACH: usize = 4;

pub fn wide(rng: &mut Rng, script: &mut Script) {
    let count = MOST_ACTIONS as usize;
    let actions: Vec<ActionDraft> = (0..count).flat_map(four_resources).collect();
    script.plant(plant_file(&actions));
    for first in 0..count {
        script.fresh(1_000, 0);
        // Four steps that together use each resource once.
        let steps = [0, 1, 2, 3].map(|step| (first + EACH * step) % count);
        let batch = rng.pick(&[0, 1, 7, u32::MAX]);
        let other = batch ^ 1 << (first % 32);
        let jobs = [
            (&steps[..], batch),
            (&[first], other),
            (&steps[1..3], batch),
        ];
        for (line_end, (steps, batch)) in (0..).zip(jobs) {
            // The third job's resources have one use each: the first job's.
            let place = u32::min(line_end, 1);
            let mut offer = chain(&actions, steps, &[place; EACH * EACH]);
            offer.batch = batch;
            script.plan(&offer);
        }
        script.show();
    }
}

/// An action that uses the resource of its number, round the sixteen, and the next three.
fn four_resources(number: usize) -> Vec<ActionDraft> {
    let resource = |next: usize| ((number + next) % RESOURCES) as u32;
    let allocations = [0, 1, 2, 3].map(|next| [resource(next), next as u32, 2]);
    let shortest = 1 + number as u32 % 5;
    free(&[(shortest, shortest + 9, &allocations)])
}
