//! Offers at and beside every limit of the format, and all short chains over one fact.

use super::draft::{plant_file, ActionDraft, OfferDraft};
use super::rng::Rng;
use super::List;
use crate::facts::Facts;
use crate::log::MOST_BYTES;
use crate::offer::HEADER_BYTES;

const NONE: Facts = Facts::NONE;

/// Step counts, unknown actions, places, left-over bytes and headers that are cut.
pub fn formats(rng: &mut Rng, list: &mut List) {
    let count = 4;
    let allocations = [[1, 2, 3]; 4];
    let actions: Vec<ActionDraft> = (0..count)
        .map(|n| ActionDraft::new(NONE, NONE, &allocations[..n]))
        .collect();
    list.plant(plant_file(&actions));
    for steps in 0..=9 {
        let chain: Vec<usize> = (0..steps).map(|step| step % count).collect();
        let whole = OfferDraft::new(NONE, NONE, &actions, &chain);
        for claimed in (0..=10).chain([255, 256, 65_537, 0x2000_0001, 0x8000_0001, u32::MAX]) {
            let mut offer = whole.clone();
            offer.claimed_steps = Some(claimed);
            list.fact(&offer.bytes());
        }
        for left_over in 1..=8 {
            let mut offer = whole.clone();
            offer.left_over = vec![rng.pick(&[0, 1, 0xFF]); left_over];
            list.fact(&offer.bytes());
        }
        for step in 0..steps {
            // The last two are such that four times the number wraps to that of a true action.
            for action in [4, 5, 128, 0x7FFF_FFFF, u32::MAX, 0x4000_0000, 0x8000_0001] {
                let mut offer = whole.clone();
                offer.steps[step].action = action;
                list.fact(&offer.bytes());
            }
            let mut offer = whole.clone();
            offer.steps[step].places.fill_with(|| rng.edge());
            list.fact(&offer.bytes());
            offer.steps[step].places.push(0);
            list.fact(&offer.bytes());
        }
    }
    cut_headers(list, &OfferDraft::new(NONE, NONE, &actions, &[0, 1, 2]));
    // As long as a log has a line for.
    for length in [MOST_BYTES - 1, MOST_BYTES] {
        let mut offer = OfferDraft::new(NONE, NONE, &actions, &[0, 1, 2]);
        offer.left_over = vec![rng.pick(&[0, 0xFF]); length - offer.bytes().len()];
        list.fact(&offer.bytes());
    }
}

/// An offer cut at every byte of its header and of what follows, and one whose header ends without a
/// due time: its steps begin four bytes too soon.
fn cut_headers(list: &mut List, offer: &OfferDraft) {
    for due in [0, 1, u32::MAX] {
        let whole = offer.clone().due(due).bytes();
        for cut in 0..=whole.len() {
            list.fact(&whole[..cut]);
        }
        let without_due = [&whole[..HEADER_BYTES - 4], &whole[HEADER_BYTES..]].concat();
        list.fact(&without_due);
    }
}

/// For every fact: known both ways, wanted both ways, and the one that is lacking.
pub fn clashes(rng: &mut Rng, list: &mut List) {
    // Needs every fact one way or the other.
    let needs = rng.word();
    let needs = Facts::new(needs, !needs);
    let actions = [ActionDraft::new(needs, NONE, &[])];
    list.plant(plant_file(&actions));
    let mut try_facts = |known: Facts, goal: Facts| {
        list.fact(&OfferDraft::new(known, goal, &actions, &[0]).bytes());
    };
    try_facts(needs, needs);
    for fact in 0..32 {
        let mask = 1 << fact;
        let other = 1 << rng.below(32);
        let turned = Facts::new(needs.positive ^ mask, needs.negative ^ mask);
        try_facts(without(needs, mask), NONE);
        try_facts(without(needs, mask | other), NONE);
        try_facts(without(needs, mask), needs);
        try_facts(turned, NONE);
        try_facts(needs, turned);
        try_facts(with(needs, mask), NONE);
        try_facts(needs, with(needs, mask));
        try_facts(with(NONE, mask), with(NONE, other));
        try_facts(without(needs, mask), with(NONE, other));
    }
}

fn without(facts: Facts, mask: u32) -> Facts {
    Facts::new(facts.positive & !mask, facts.negative & !mask)
}

/// The facts with those of the mask both ways.
fn with(facts: Facts, mask: u32) -> Facts {
    Facts::new(facts.positive | mask, facts.negative | mask)
}

/// All chains of one and two steps over one fact, with all that can be known and wanted of it,
/// then chains of eight steps that fail at each step.
pub fn chains(rng: &mut Rng, list: &mut List) {
    for mask in [1, 0x8000_0000, 1 << rng.below(32)] {
        let ways = [NONE, Facts::new(mask, 0), Facts::new(0, mask)];
        let ways_and_both = [ways[0], ways[1], ways[2], Facts::new(mask, mask)];
        // Action 3 i + j needs the fact in way i and makes it in way j.
        let action = |number: usize| ActionDraft::new(ways[number / 3], ways[number % 3], &[]);
        let actions: Vec<ActionDraft> = (0..9).map(action).collect();
        list.plant(plant_file(&actions));
        let ones = (0..9).map(|step| vec![step]);
        let twos = (0..81).map(|steps| vec![steps / 9, steps % 9]);
        for chain in ones.chain(twos) {
            for known in ways_and_both {
                for goal in ways_and_both {
                    list.fact(&OfferDraft::new(known, goal, &actions, &chain).bytes());
                }
            }
        }
        for step in 0..8 {
            for number in 1..9 {
                let mut chain = [0; 8];
                chain[step] = number;
                for goal in ways {
                    list.fact(&OfferDraft::new(ways[1], goal, &actions, &chain).bytes());
                }
            }
        }
    }
}
