//! Random damage to plants and offers: to what they say, to how it is laid out, to the bytes.

use super::draft::{ActionDraft, OfferDraft, PlantDraft, StepDraft};
use super::rng::Rng;
use super::world::{as_in, World};
use crate::facts::Facts;

/// Changes an action so that its record may be refused, by 3 or by 4.
pub fn damage_action(rng: &mut Rng, action: &mut ActionDraft) {
    let last = action.allocations.len().checked_sub(1);
    match (rng.below(9), last) {
        (0, _) => {
            let too_long = action.longest.saturating_add(1);
            action.shortest = rng.pick(&[0, 1, action.longest, too_long]);
        }
        (1, _) => action.longest = rng.pick(&[0, 1, 1_000_000, 1_000_001, u32::MAX]),
        (2, _) => add_both_ways(rng, &mut action.needs, u32::MAX),
        (3, _) => add_both_ways(rng, &mut action.makes, u32::MAX),
        (4, _) => action.n = rng.pick(&[0, 1, 2, 3, 4, 5, 255]),
        (5, _) => action.spare[rng.below(3)] = rng.pick(&[1, 0x80, 0xFF]),
        (6, _) => {
            action.n = 5;
            action.allocations.resize(5, [0, 0, 1]);
        }
        (_, Some(last)) => {
            let allocation = &mut action.allocations[rng.below(last + 1)];
            allocation[rng.below(3)] = rng.edge();
        }
        (_, None) => action.shortest = 0,
    }
}

/// Changes where things are in the file.
pub fn damage_layout(rng: &mut Rng, draft: &mut PlantDraft) {
    let entry = rng.below(draft.index.len());
    match rng.below(8) {
        0 => draft.mark[rng.below(4)] ^= 1 << rng.below(8),
        1 => draft.count = rng.edge(),
        2 => draft.index_start = rng.edge(),
        3 => draft.index[entry] = rng.edge(),
        4 => draft.index[entry] = rng.pick(&draft.index),
        5 => draft.index[entry] = draft.index[entry].wrapping_add(rng.pick(&[1, 4, 12, u32::MAX])),
        // The sizes still add up, but the last record passes the index or ends short of it.
        6 => {
            let kept = rng.below(draft.records.len() + 1);
            draft.set_records(draft.records[..kept].to_vec());
        }
        _ => {
            let mut records = draft.records.clone();
            records.extend(vec![0; 1 + rng.below(40)]);
            draft.set_records(records);
        }
    }
}

/// Changes a few bytes, whatever they mean.
pub fn damage_bytes(rng: &mut Rng, bytes: &mut Vec<u8>) {
    let at = rng.below(bytes.len() + 1);
    match (rng.below(5), bytes.get_mut(at)) {
        (0, _) => bytes.truncate(at),
        (1, _) => bytes.insert(at, rng.word() as u8),
        (2, Some(_)) => drop(bytes.remove(at)),
        (3, Some(byte)) => *byte = rng.word() as u8,
        (_, Some(byte)) => *byte ^= 1 << rng.below(8),
        (_, None) => bytes.push(0),
    }
}

/// Changes what an offer in right format says, so that its facts may fail.
pub fn damage_facts(rng: &mut Rng, world: &World, offer: &mut OfferDraft) {
    let step = rng.below(offer.steps.len());
    match rng.below(14) {
        0 | 1 => remove_fact(rng, &mut offer.known),
        2 => turn_fact(rng, &mut offer.known),
        3 => add_both_ways(rng, &mut offer.known, world.facts),
        4 => add_both_ways(rng, &mut offer.goal, world.facts),
        5 => turn_fact(rng, &mut offer.goal),
        6 => add_fact(rng, &mut offer.goal, world.facts),
        7 => offer.steps.reverse(),
        8 => offer.steps.swap(step, 0),
        9 => offer.steps[step] = any_step(rng, world),
        10 => offer.steps.insert(step, any_step(rng, world)),
        11 if offer.steps.len() > 1 => drop(offer.steps.remove(step)),
        // Wants the opposite of what a step makes, or of what it needs.
        kind => {
            let action = &world.actions[offer.steps[step].action as usize];
            let facts = [action.needs, action.makes][kind % 2];
            let fact = rng.bit(facts.mentioned());
            offer.goal = replace(offer.goal, as_in(!facts.positive, fact));
        }
    }
}

/// Makes the format of an offer wrong.
pub fn damage_format(rng: &mut Rng, world: &World, offer: &mut OfferDraft) {
    let count = world.actions.len() as u32;
    let steps = offer.steps.len() as u32;
    let step = rng.below(offer.steps.len());
    let step = &mut offer.steps[step];
    match rng.below(7) {
        0 => offer.claimed_steps = Some(rng.edge()),
        1 => offer.claimed_steps = Some(rng.pick(&[steps - 1, steps + 1])),
        2 => offer.left_over = vec![rng.word() as u8; 1 + rng.below(4)],
        3 => drop(step.places.pop()),
        4 => step.places.push(rng.edge()),
        5 => step.action = rng.edge(),
        _ => step.action = rng.pick(&[count, count + 1, u32::MAX]),
    }
}

fn any_step(rng: &mut Rng, world: &World) -> StepDraft {
    let action = rng.below(world.actions.len());
    let places = vec![rng.edge(); world.actions[action].allocations.len()];
    StepDraft {
        action: action as u32,
        places,
    }
}

/// The first facts, except where the second say otherwise.
fn replace(facts: Facts, by: Facts) -> Facts {
    Facts::new(
        (facts.positive | by.positive) & !by.negative,
        (facts.negative | by.negative) & !by.positive,
    )
}

fn add_fact(rng: &mut Rng, facts: &mut Facts, among: u32) {
    let fact = rng.bit(among);
    *facts = replace(*facts, as_in(rng.word(), fact));
}

fn add_both_ways(rng: &mut Rng, facts: &mut Facts, among: u32) {
    let fact = rng.bit(among);
    facts.positive |= fact;
    facts.negative |= fact;
}

fn remove_fact(rng: &mut Rng, facts: &mut Facts) {
    let fact = rng.bit(facts.mentioned());
    facts.positive &= !fact;
    facts.negative &= !fact;
}

fn turn_fact(rng: &mut Rng, facts: &mut Facts) {
    let fact = rng.bit(facts.mentioned());
    facts.positive ^= fact;
    facts.negative ^= fact;
}
