//! The fact check, worked back from the goal, and the forward definition it must agree with.

use crate::offer::Offer;
use crate::plant::{Action, Plant};
use crate::ruling::{Refusal, Ruling};

/// Running forward is tried with at most this many unknown facts, that is 1,024 states.
pub const MOST_UNKNOWN: u32 = 10;

/// Facts held, needed or made: one mask of those true and one of those false.
#[derive(Clone, Copy, Debug, Default, PartialEq, Eq)]
pub struct Facts {
    pub positive: u32,
    pub negative: u32,
}

impl Facts {
    pub const NONE: Facts = Facts::new(0, 0);

    pub const fn new(positive: u32, negative: u32) -> Self {
        Facts { positive, negative }
    }

    pub fn both_ways(self) -> u32 {
        self.positive & self.negative
    }

    pub fn mentioned(self) -> u32 {
        self.positive | self.negative
    }

    pub fn hold_in(self, state: u32) -> bool {
        state & self.positive == self.positive && state & self.negative == 0
    }

    pub fn applied_to(self, state: u32) -> u32 {
        (state | self.positive) & !self.negative
    }
}

/// Rules on the facts of an offer, by working back from the goal.
pub fn fact_check(plant: &[u8], offer: &[u8]) -> Ruling {
    work_back(plant, offer).into()
}

fn work_back(plant: &[u8], offer: &[u8]) -> Result<(), Refusal> {
    let plant = Plant::read(plant)?;
    check_facts(&Offer::read(&plant, offer)?)
}

/// Refusals 10 to 13 of an offer in right format. A due time is for plan alone to test.
fn check_facts(offer: &Offer) -> Result<(), Refusal> {
    check_both_ways(offer)?;
    check_needs(offer)
}

/// The same as plan tests them on a board with this horizon: 23 stands straight after 10.
pub fn check_facts_and_due(offer: &Offer, horizon: u32) -> Result<(), Refusal> {
    check_both_ways(offer)?;
    if offer.due > horizon {
        return Err(Refusal::DuePastHorizon);
    }
    check_needs(offer)
}

/// Refusal 10.
fn check_both_ways(offer: &Offer) -> Result<(), Refusal> {
    if offer.known.both_ways() != 0 || offer.goal.both_ways() != 0 {
        return Err(Refusal::Contradiction);
    }
    Ok(())
}

/// Refusals 11 to 13.
fn check_needs(offer: &Offer) -> Result<(), Refusal> {
    let known = offer.known;
    let needed = regress(offer.goal, offer.chain())?;
    let lacking = (needed.positive & !known.positive) | (needed.negative & !known.negative);
    if lacking != 0 {
        return Err(Refusal::Lacking {
            fact: lacking.trailing_zeros(),
        });
    }
    Ok(())
}

/// What must hold before the chain so that it runs and the goal holds after it.
fn regress(goal: Facts, chain: &[Action]) -> Result<Facts, Refusal> {
    let mut needed = goal;
    for (step, action) in chain.iter().enumerate().rev() {
        let step = step as u32;
        let (needs, makes) = (action.needs(), action.makes());
        if (makes.negative & needed.positive) | (makes.positive & needed.negative) != 0 {
            return Err(Refusal::Undoes { step });
        }
        needed.positive = (needed.positive & !makes.positive) | needs.positive;
        needed.negative = (needed.negative & !makes.negative) | needs.negative;
        if needed.both_ways() != 0 {
            return Err(Refusal::Clashes { step });
        }
    }
    Ok(needed)
}

/// Whether the offer passes by definition: every full state that fits the known facts runs
/// through the chain to the goal. `None` where the definition doesn't apply (a refusal 1 to 9,
/// or a fact known both ways) or there are too many states to try.
pub fn fact_check_forward(plant: &[u8], offer: &[u8]) -> Option<bool> {
    let plant = Plant::read(plant).ok()?;
    let offer = Offer::read(&plant, offer).ok()?;
    let (known, goal, chain) = (offer.known, offer.goal, offer.chain());
    if known.both_ways() != 0 {
        return None;
    }
    // A fact that nothing mentions changes nothing, so one value of it stands for both.
    let mentioned = chain.iter().fold(goal.mentioned(), |mentioned, action| {
        mentioned | action.needs().mentioned() | action.makes().mentioned()
    });
    let unknown = mentioned & !known.mentioned();
    if unknown.count_ones() > MOST_UNKNOWN {
        return None;
    }
    Some(subsets(unknown).all(|guess| runs_to_goal(known.positive | guess, chain, goal)))
}

/// Runs one full state through the chain.
fn runs_to_goal(mut state: u32, chain: &[Action], goal: Facts) -> bool {
    for action in chain {
        if !action.needs().hold_in(state) {
            return false;
        }
        state = action.makes().applied_to(state);
    }
    goal.hold_in(state)
}

/// Every mask whose bits are all in the given one, the empty one and itself included.
fn subsets(mask: u32) -> impl Iterator<Item = u32> {
    let mut next = Some(0);
    std::iter::from_fn(move || {
        let subset = next?;
        // Counts up within the bits of the mask: the carry runs over the bits outside it.
        next = (subset != mask).then(|| subset.wrapping_sub(mask) & mask);
        Some(subset)
    })
}

#[cfg(test)]
mod tests {
    use super::*;
    use crate::generate::draft::{plant_file, proving_plant, ActionDraft, OfferDraft};

    const NONE: Facts = Facts::NONE;

    fn yes(facts: &[u32]) -> Facts {
        Facts::new(facts.iter().fold(0, |mask, fact| mask | 1 << fact), 0)
    }

    fn no(fact: u32) -> Facts {
        Facts::new(0, 1 << fact)
    }

    /// The number and value worked back, after holding them against the forward definition.
    fn ruling(
        actions: &[ActionDraft],
        known: Facts,
        goal: Facts,
        chain: &[usize],
    ) -> (u32, Option<u32>) {
        let plant = plant_file(actions);
        let offer = OfferDraft::new(known, goal, actions, chain);
        let due = offer.clone().due(u32::MAX).bytes();
        let offer = offer.bytes();
        let ruling = fact_check(&plant, &offer);
        // No due time makes a difference.
        assert_eq!(fact_check(&plant, &due), ruling);
        if let Some(passed) = fact_check_forward(&plant, &offer) {
            assert_eq!(passed, ruling == Ruling::Accepted);
        }
        (ruling.number(), ruling.value())
    }

    #[test]
    fn the_proving_table() {
        let plant = proving_plant();
        let a = ruling(&plant, yes(&[0]), yes(&[2]), &[0, 1]);
        let b = ruling(&plant, yes(&[0]), yes(&[2]), &[1, 0]);
        let c = ruling(&plant, yes(&[0]), yes(&[0, 2]), &[0, 1]);
        let d = ruling(&plant, yes(&[0]), no(3), &[2]);
        let e = ruling(&plant, yes(&[0]), no(0), &[0]);
        assert_eq!(a, (0, None));
        assert_eq!(b, (13, Some(1)));
        assert_eq!(c, (11, Some(0)));
        assert_eq!(d, (12, Some(0)));
        assert_eq!(e, (0, None));
    }

    #[test]
    fn a_fact_known_or_wanted_both_ways_is_10() {
        for fact in [0, 31] {
            let both = Facts::new(1 << fact, 1 << fact);
            assert_eq!(ruling(&proving_plant(), both, NONE, &[0]), (10, None));
            assert_eq!(ruling(&proving_plant(), NONE, both, &[0]), (10, None));
        }
    }

    #[test]
    fn unknown_is_neither_true_nor_false() {
        let idle = [ActionDraft::new(NONE, NONE, &[])];
        assert_eq!(ruling(&idle, NONE, no(31), &[0]), (13, Some(31)));
        assert_eq!(ruling(&idle, yes(&[31]), no(31), &[0]), (13, Some(31)));
        assert_eq!(ruling(&idle, no(31), no(31), &[0]), (0, None));
        let wanted = Facts::new(1 << 9, 1 << 4);
        assert_eq!(ruling(&idle, NONE, wanted, &[0]), (13, Some(4)));
    }

    #[test]
    fn the_last_step_that_fails_is_named_and_11_before_12() {
        let actions = [
            ActionDraft::new(NONE, NONE, &[]),
            ActionDraft::new(NONE, no(5), &[]),
            ActionDraft::new(no(5), NONE, &[]),
            ActionDraft::new(no(5), no(5), &[]),
        ];
        let chain_with = |first, second| [first, 0, 0, second, 0, 0, 0, 0];
        let ruling = |first, second| ruling(&actions, NONE, yes(&[5]), &chain_with(first, second));
        assert_eq!(ruling(1, 2), (12, Some(3)));
        assert_eq!(ruling(2, 1), (11, Some(3)));
        assert_eq!(ruling(0, 3), (11, Some(3)));
        assert_eq!(ruling(1, 0), (11, Some(0)));
    }

    #[test]
    fn a_step_may_make_what_it_needs_the_other_way() {
        let switch = [ActionDraft::new(no(0), yes(&[0]), &[])];
        assert_eq!(ruling(&switch, no(0), yes(&[0]), &[0]), (0, None));
        assert_eq!(ruling(&switch, no(0), yes(&[0]), &[0, 0]), (11, Some(0)));
    }

    #[test]
    fn all_subsets_are_tried() {
        assert_eq!(subsets(0).collect::<Vec<_>>(), [0]);
        assert_eq!(
            subsets(0b1010).collect::<Vec<_>>(),
            [0, 0b10, 0b1000, 0b1010]
        );
        assert_eq!(subsets(0xFFC0_0000).count(), 1024);
    }
}
