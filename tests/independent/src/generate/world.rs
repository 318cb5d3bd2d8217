//! Random good plants in which chains that pass are easy to find, and offers of such chains.

use super::draft::{ActionDraft, OfferDraft};
use super::rng::Rng;
use crate::facts::Facts;

const TIMES: [u32; 6] = [1, 2, 10, 999_999, 1_000_000, 5_000];

/// A good plant grown along a walk: each action's needs hold in the state that the actions
/// before it lead to, so every stretch of the walk is a chain that runs.
#[derive(Clone)]
pub struct World {
    pub actions: Vec<ActionDraft>,
    /// The facts in use.
    pub facts: u32,
    /// The state before each action.
    states: Vec<u32>,
}

impl World {
    pub fn grow(rng: &mut Rng, count: usize, facts: u32) -> Self {
        let mut world = World {
            actions: Vec::new(),
            facts,
            states: Vec::new(),
        };
        let mut state = rng.word();
        for _ in 0..count {
            let needs = as_in(state, some_facts(rng, facts));
            let makes = as_in(rng.word(), some_facts(rng, facts));
            world.states.push(state);
            world.actions.push(action(rng, needs, makes));
            state = makes.applied_to(state);
        }
        world
    }

    /// A chain that runs from a state of the walk, with a goal that holds at its end and no less
    /// known than it takes.
    pub fn passing_offer(&self, rng: &mut Rng) -> OfferDraft {
        let first = rng.below(self.actions.len());
        let start = self.states[first];
        let length = rng.pick(&[1, 1, 2, 2, 3, 4, 5, 6, 7, 8, 8]);
        let mut chain = Vec::new();
        let mut state = start;
        // Facts made so far, and facts asked for before they were made: these must be known.
        let (mut made, mut asked) = (0, 0);
        while chain.len() < length {
            let along_the_walk = first + chain.len();
            let anywhere = rng.below(self.actions.len());
            let from = rng.pick(&[along_the_walk, along_the_walk, anywhere]);
            let Some(next) = self.runnable(state, from) else {
                break;
            };
            let action = &self.actions[next];
            chain.push(next);
            asked |= action.needs.mentioned() & !made;
            made |= action.makes.mentioned();
            state = action.makes.applied_to(state);
        }
        let goal = as_in(state, some_facts(rng, self.facts));
        asked |= goal.mentioned() & !made;
        let known = as_in(start, asked | some_facts(rng, self.facts));

        let mut offer = OfferDraft::new(known, goal, &self.actions, &chain);
        offer.batch = rng.edge();
        // The facts are the same whatever the due time.
        offer.due = rng.edge();
        for place in offer.steps.iter_mut().flat_map(|step| &mut step.places) {
            *place = rng.edge();
        }
        offer
    }

    /// The first action at or after this one, round the plant, whose needs hold.
    fn runnable(&self, state: u32, from: usize) -> Option<usize> {
        let count = self.actions.len();
        let mut round = (from..from + count).map(|action| action % count);
        round.find(|&action| self.actions[action].needs.hold_in(state))
    }
}

/// The facts of a mask, each as it is in the state.
pub fn as_in(state: u32, mask: u32) -> Facts {
    Facts::new(state & mask, !state & mask)
}

/// Most often a few facts, at times many.
fn some_facts(rng: &mut Rng, facts: u32) -> u32 {
    if rng.one_in(8) {
        return rng.word() & facts;
    }
    let most = rng.below(4);
    rng.bits(facts, most)
}

/// A good action with random times and allocations.
fn action(rng: &mut Rng, needs: Facts, makes: Facts) -> ActionDraft {
    let n = rng.pick(&[0, 0, 1, 1, 2, 3, 4]);
    let allocations: Vec<[u32; 3]> = (0..n).map(|_| allocation(rng)).collect();
    let (a, b) = (rng.pick(&TIMES), rng.pick(&TIMES));
    ActionDraft::new(needs, makes, &allocations).lasting(a.min(b), a.max(b))
}

fn allocation(rng: &mut Rng) -> [u32; 3] {
    [
        rng.below(16) as u32,
        rng.pick(&[0, 1, 70, 999_999, 1_000_000]),
        rng.pick(&TIMES),
    ]
}
