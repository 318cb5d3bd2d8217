//! The fact check, timed on plants of 8 and of 128 actions, and the load of a plant alone, which each
//! fact check and each plan begins with. They have no table, so that there are only two forms: ours and
//! the one in Rust; and another commit's library, where there is one.

use crate::columns::{columns, microseconds, Column, ROUNDS};
use crate::libraries::{Library, OtherCommit, ThisTree};
use crate::ours;
use independent::fact_check;
use independent::facts::Facts;
use independent::generate::draft::{plant_file, ActionDraft, OfferDraft};
use std::hint::black_box;

type FactCheck = fn(&[u8], &[u8]) -> u32;

fn in_rust(plant: &[u8], offer: &[u8]) -> u32 {
    fact_check(plant, offer).number()
}

fn forms() -> Vec<Column<FactCheck>> {
    let earlier = OtherCommit::CALLS.fact_check;
    let earlier = earlier.map(|_| ours::fact_check::<OtherCommit> as FactCheck);
    columns(ours::fact_check::<ThisTree>, in_rust, earlier)
}

// Each step leaves the facts that the next one needs as they are.
const NEEDS: Facts = Facts::new(1, 2);
const MAKES: Facts = Facts::new(1 | 4, 8);

/// The most allocations that an action has.
pub const MOST: usize = 4;

/// So many actions with so many allocations each.
pub fn actions(count: usize, allocation_count: usize) -> Vec<ActionDraft> {
    let last = [15, 1_000_000, 1_000_000];
    let allocations: [_; MOST] = [[0, 0, 10], [5, 20, 1_000], [9, 0, 1], last];
    let allocations = &allocations[..allocation_count];
    vec![ActionDraft::new(NEEDS, MAKES, allocations).lasting(10, 20); count]
}

pub struct Check {
    pub call: &'static str,
    pub size: String,
    plant: Vec<u8>,
    offer: Vec<u8>,
    columns: Vec<Column<FactCheck>>,
}

impl Check {
    /// An offer that passes.
    fn new(action_count: usize, step_count: usize) -> Self {
        let actions = actions(action_count, MOST);
        let chain: Vec<usize> = (0..step_count)
            .map(|step| step * 37 % action_count)
            .collect();
        let check = Check {
            call: "fact check",
            size: format!("{step_count} of {action_count} actions"),
            plant: plant_file(&actions),
            offer: OfferDraft::new(NEEDS, MAKES, &actions, &chain).bytes(),
            columns: forms(),
        };
        check.without_other_layout().expect(0)
    }

    /// No offer: the check is refused with 7 and does nothing but load the plant.
    fn load(action_count: usize, allocation_count: usize) -> Self {
        let ending = if action_count == 1 { "" } else { "s" };
        let check = Check {
            call: "load",
            size: format!("{action_count} action{ending} of {allocation_count}"),
            plant: plant_file(&actions(action_count, allocation_count)),
            offer: Vec::new(),
            columns: forms(),
        };
        check.expect(7)
    }

    /// Leaves the other commit out where its offers are laid out otherwise, so that it refuses ours.
    fn without_other_layout(mut self) -> Self {
        let (plant, offer) = (&self.plant, &self.offer);
        if let [ours, _, earlier] = &self.columns[..] {
            if (earlier.form)(plant, offer) != (ours.form)(plant, offer) {
                self.columns.pop();
            }
        }
        self
    }

    /// Every form must give this number.
    fn expect(self, number: u32) -> Self {
        for column in &self.columns {
            let given = (column.form)(&self.plant, &self.offer);
            assert_eq!(given, number, "{} {}", self.call, self.size);
        }
        self
    }

    fn take_turns(&mut self) {
        let (plant, offer) = (&self.plant, &self.offer);
        for column in &mut self.columns {
            column.take_turn(|form| form(black_box(plant), black_box(offer)));
        }
    }

    /// Microseconds of a call, by column.
    pub fn microseconds(&mut self) -> Vec<f64> {
        microseconds(&mut self.columns)
    }
}

pub fn time() -> Vec<Check> {
    let sizes = [(8, 1), (8, 3), (8, 8), (128, 1), (128, 3), (128, 8)];
    let mut checks = Vec::from(sizes.map(|(actions, steps)| Check::new(actions, steps)));
    for actions in [1, 8, 32, 128] {
        checks.extend([0, 1, MOST].map(|allocations| Check::load(actions, allocations)));
    }
    for _ in 0..ROUNDS {
        checks.iter_mut().for_each(Check::take_turns);
    }
    checks
}
