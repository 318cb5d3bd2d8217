//! The cases of document 01's proving table that concern boards, one after another.

use super::script::Script;
use crate::facts::Facts;
use crate::generate::draft::{plant_file, proving_offer, proving_plant, OfferDraft};
use crate::generate::rng::Rng;

pub fn proving(_: &mut Rng, script: &mut Script) {
    let plant = proving_plant();
    let offer = |known, goal, chain: &[usize]| OfferDraft::new(known, goal, &plant, chain);
    let yes = |facts| Facts::new(facts, 0);
    let no = |facts| Facts::new(0, facts);
    let job = proving_offer();
    let mut second = job.clone();
    second.steps[0].places[0] = 1;
    script.plant(plant_file(&plant));

    // a to e
    for offer in [
        job.clone(),
        offer(yes(1), yes(4), &[1, 0]),
        offer(yes(1), yes(5), &[0, 1]),
        offer(Facts::NONE, no(8), &[2]),
        offer(yes(1), no(1), &[0]),
    ] {
        script.fresh(1_000, 5);
        script.plan(&offer);
        script.show();
    }
    // f, g
    for horizon in [20, 19] {
        script.fresh(horizon, 5);
        script.plan(&job);
        script.show();
    }
    // h
    script.fresh(1_000, 5);
    script.plan(&job);
    script.plan(&second);
    script.show();
    // i
    script.fresh(1_000, 5);
    script.plan(&job);
    script.send(0);
    script.plan(&job);
    script.show();
    // k
    for to in [980, 981] {
        script.fresh(1_000, 5);
        script.plan(&job);
        script.clock(to);
        script.show();
    }
    // l
    for to in [19, 20] {
        script.fresh(1_000, 5);
        script.plan(&job);
        script.send(0);
        script.clock(to);
        script.retire();
        script.show();
    }
    // m
    let mut first = job.clone();
    let mut other = offer(yes(8), yes(8), &[2]);
    (first.batch, other.batch) = (7, 7);
    script.fresh(1_000, 5);
    script.plan(&first);
    script.plan(&other);
    script.show();
    // n
    for (lead, to) in [(5, 0), (0, 5)] {
        script.fresh(1_000, lead);
        script.clock(to);
        script.plan(&job);
        script.show();
    }
}
