//! The work that is timed: boards of so many jobs of three steps, that is of four points; 16 such
//! jobs have the 64 points there is room for.

use crate::forms::{Call, Form};
use independent::facts::Facts;
use independent::generate::draft::{plant_file, ActionDraft, OfferDraft};

const HORIZON: u32 = 100_000;
const LEAD: u32 = 5;
pub const JOB_POINTS: usize = 4;
/// A due time that binds: without one a job may end as late as the horizon.
const DUE: u32 = HORIZON / 2;

/// The most actions that a plant has.
const MOST_ACTIONS: usize = 128;

pub struct Work {
    actions: Vec<ActionDraft>,
    plant: Vec<u8>,
    /// The same actions, and as many more as a plant has room for.
    full_plant: Vec<u8>,
}

impl Work {
    pub fn new() -> Self {
        let action = |resource| {
            ActionDraft::new(Facts::NONE, Facts::NONE, &[[resource, 2, 10]]).lasting(10, 30)
        };
        let actions = vec![action(0), action(1), action(2)];
        let plant = plant_file(&actions);
        let all: Vec<ActionDraft> = actions.iter().cycle().take(MOST_ACTIONS).cloned().collect();
        let full_plant = plant_file(&all);
        Work {
            actions,
            plant,
            full_plant,
        }
    }

    /// The plan of one more job, at the end of the lines of a board with so many.
    pub fn plan(&self, jobs: usize) -> Call {
        self.plan_due(&self.plant, jobs, 0)
    }

    /// The same with a plant of as many actions as there may be, each of which is read.
    pub fn plan_in_full_plant(&self, jobs: usize) -> Call {
        self.plan_due(&self.full_plant, jobs, 0)
    }

    /// The same of a job with a due time, which is one rule more.
    pub fn plan_in_time(&self, jobs: usize) -> Call {
        self.plan_due(&self.plant, jobs, DUE)
    }

    fn plan_due(&self, plant: &[u8], jobs: usize, due: u32) -> Call {
        let mut offer = OfferDraft::new(Facts::NONE, Facts::NONE, &self.actions, &[0, 1, 2]);
        (offer.batch, offer.due) = (1, due);
        for step in &mut offer.steps {
            step.places[0] = jobs as u32;
        }
        Call::Plan {
            plant: plant.to_vec(),
            offer: offer.bytes(),
        }
    }

    /// The calls that lead to a board of so many unsent jobs.
    pub fn planned(&self, jobs: usize) -> Vec<Call> {
        (0..jobs).map(|job| self.plan(job)).collect()
    }

    /// The same with the oldest job sent, and ended long ago.
    pub fn ended(&self, jobs: usize) -> Vec<Call> {
        let mut calls = self.planned(jobs);
        calls.extend([Call::Send { place: 0 }, Call::Clock { to: 1_000 }]);
        calls
    }
}

/// The board that these calls lead to, all of them accepted.
pub fn board<F: Form>(calls: &[Call]) -> F {
    let mut board = F::fresh(HORIZON, LEAD);
    for call in calls {
        assert_eq!(
            board.make(&F::spelled(call)),
            0,
            "a call that leads to a board"
        );
    }
    board
}
