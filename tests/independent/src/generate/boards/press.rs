//! Good plants for boards: most with few resources, so that lines fill, some with all of them, and
//! with times of one size, so that the horizon comes near.

use crate::board::definition::RuleBook;
use crate::board::{MOST_HORIZON, MOST_LEAD, MOST_USES, RESOURCES};
use crate::facts::Facts;
use crate::generate::draft::{plant_file, ActionDraft, OfferDraft};
use crate::generate::rng::Rng;
use crate::generate::world::World;
use crate::plant::MOST_TIME;

pub struct Press {
    pub world: World,
    /// The size of its times.
    pub unit: u32,
    /// The most steps of its offers.
    steps: usize,
    /// What its offers have as their batch.
    batches: [u32; 5],
}

impl Press {
    pub fn random(rng: &mut Rng) -> Self {
        let facts = rng.pick(&[0, 0, 0, 1, 0x8000_0003, u32::MAX]);
        let small = rng.pick(&[1, 2, 3, 4, 6, 9]);
        // The large ones make long lines, so they are few.
        let count = match rng.below(30) {
            0 => 128,
            1 => 127,
            2 => 40,
            _ => small,
        };
        let mut world = World::grow(rng, count, facts);
        let unit = rng.pick(&[1, 2, 10, 10, 300, 40_000, 250_000]);
        let resources = some_resources(rng);
        let tidy = rng.below(4) > 0;
        let few = rng.one_in(3);
        for action in &mut world.actions {
            dress(rng, action, unit, &resources, tidy, few);
        }
        // Without facts any part of a chain is a chain.
        let steps = rng.pick(&[1, 2, 3, 5, 8]);
        let steps = if facts == 0 { steps } else { 8 };
        Press {
            world,
            unit,
            steps,
            batches: some_batches(rng),
        }
    }

    pub fn file(&self) -> Vec<u8> {
        plant_file(&self.world.actions)
    }

    pub fn longest_use(&self) -> u32 {
        let allocations = self.world.actions.iter().flat_map(|one| &one.allocations);
        let lengths = allocations.map(|[_, _, length]| *length);
        lengths.max().unwrap_or_default()
    }

    pub fn horizon(&self, rng: &mut Rng) -> u32 {
        let units = rng.pick(&[5, 12, 30, 60, 60, 150, 400, 2_000]);
        let horizon = self.unit * units + rng.below(3) as u32;
        let horizon = rng.pick(&[horizon, horizon, horizon, horizon, MOST_HORIZON]);
        horizon.min(MOST_HORIZON)
    }

    pub fn lead(&self, rng: &mut Rng, horizon: u32) -> u32 {
        let unit = self.unit;
        let lead = rng.pick(&[0, 0, 0, 1, unit, unit, 3 * unit, horizon / 2]);
        // Now and then so long that every plan is refused, or nearly.
        let lead = if rng.one_in(20) {
            horizon + rng.below(2) as u32
        } else {
            lead
        };
        lead.min(MOST_LEAD)
    }

    /// An offer whose facts pass, with places for the board reached and no due time.
    pub fn offer(&self, rng: &mut Rng, book: Option<&RuleBook>) -> OfferDraft {
        let mut offer = self.world.passing_offer(rng).due(0);
        offer.steps.truncate(self.steps);
        offer.batch = rng.pick(&self.batches);
        let mood = rng.below(20);
        let mut counts = counts(book);
        let total: usize = offer.steps.iter().map(|step| step.places.len()).sum();
        // The allocation whose place is foolish, where one is.
        let fool = rng.below(1 + total);
        let mut number = 0;
        for step in &mut offer.steps {
            let action = &self.world.actions[step.action as usize];
            for (place, [resource, _, _]) in step.places.iter_mut().zip(&action.allocations) {
                let count = &mut counts[*resource as usize];
                *place = match mood {
                    0..12 => *count,
                    12..16 => rng.below(1 + *count as usize) as u32,
                    16 => rng.pick(&[0, *count / 2, *count]),
                    _ if number == fool => foolish(rng, *count),
                    _ => *count,
                };
                *count += 1;
                number += 1;
            }
        }
        offer
    }
}

/// Few resources, or all of them.
fn some_resources(rng: &mut Rng) -> Vec<u32> {
    if rng.one_in(4) {
        return (0..RESOURCES as u32).collect();
    }
    let few = 1 + rng.below(3);
    (0..few).map(|_| rng.below(RESOURCES) as u32).collect()
}

/// Batches, two of them one bit apart: that bit, alone, is a batch too and not none.
fn some_batches(rng: &mut Rng) -> [u32; 5] {
    let low = rng.pick(&[1, 2, 0xFF]);
    let high = 1 << (8 + rng.below(24));
    rng.pick(&[
        [0, 0, 0, low, low],
        [0, 0, low, low, u32::MAX],
        [0, low, low, low | high, high],
    ])
}

/// How many uses each line has.
fn counts(book: Option<&RuleBook>) -> [u32; RESOURCES] {
    book.map_or([0; RESOURCES], |book| {
        book.lines.each_ref().map(|line| line.len() as u32)
    })
}

fn foolish(rng: &mut Rng, count: u32) -> u32 {
    let most = MOST_USES as u32;
    let edge = rng.edge();
    rng.pick(&[
        count + 1,
        count + 1,
        count + 2,
        0,
        most - 1,
        most,
        most + 1,
        u32::MAX,
        edge,
    ])
}

/// Gives an action times and allocations. Tidy ones follow one another within the step.
fn dress(
    rng: &mut Rng,
    action: &mut ActionDraft,
    unit: u32,
    resources: &[u32],
    tidy: bool,
    few: bool,
) {
    let n = if few {
        rng.below(2)
    } else {
        rng.pick(&[0, 1, 1, 2, 3, 4, 4])
    };
    let time = |time: u32| time.clamp(1, MOST_TIME);
    let shortest = time(unit * (1 + rng.below(4) as u32) + rng.below(3) as u32);
    let longer = rng.pick(&[0, 0, 1, unit, 4 * unit, MOST_TIME]);
    action.shortest = shortest;
    action.longest = time(shortest + longer);
    action.n = n as u8;
    action.allocations = (0..n as u32)
        .map(|number| {
            let resource = rng.pick(resources);
            let within = rng.below(shortest as usize) as u32;
            let (offset, length) = if tidy {
                (number * unit, unit)
            } else {
                (
                    rng.pick(&[0, 0, 1, unit, within, shortest, 3 * shortest]),
                    rng.pick(&[1, unit, shortest, action.longest, 3 * shortest]),
                )
            };
            [resource, offset.min(MOST_TIME), time(length)]
        })
        .collect();
}

/// A plant of which any chain passes, with these times and allocations for each action.
pub fn free(actions: &[(u32, u32, &[[u32; 3]])]) -> Vec<ActionDraft> {
    let action = |&(shortest, longest, allocations): &(u32, u32, &[[u32; 3]])| {
        ActionDraft::new(Facts::NONE, Facts::NONE, allocations).lasting(shortest, longest)
    };
    actions.iter().map(action).collect()
}

/// An offer of a free plant's actions, with all places in a row.
pub fn chain(actions: &[ActionDraft], steps: &[usize], places: &[u32]) -> OfferDraft {
    let mut offer = OfferDraft::new(Facts::NONE, Facts::NONE, actions, steps);
    let wanted = offer.steps.iter_mut().flat_map(|step| &mut step.places);
    for (place, &given) in wanted.zip(places) {
        *place = given;
    }
    offer
}
