//! Plans with two faults at once, for every pair: the earlier check must decide.

use super::press::chain;
use super::script::Script;
use crate::facts::Facts;
use crate::generate::draft::{plant_file, ActionDraft, OfferDraft, PlantDraft};
use crate::generate::rng::Rng;

const NONE: Facts = Facts::NONE;

/// Which action does what.
const PLAIN: usize = 0;
const UNDOES: usize = 1;
const CLASHES: usize = 2;
const LACKS: usize = 3;
const TOO_LONG: usize = 4;
const USES_FULL_LINE: usize = 5;

const HORIZON: u32 = 1_000;
/// A due time before the end that six steps of a millisecond each have.
const TOO_SOON: u32 = 5;

fn actions() -> Vec<ActionDraft> {
    let yes = |fact: u32| Facts::new(1 << fact, 0);
    let no = |fact: u32| Facts::new(0, 1 << fact);
    vec![
        ActionDraft::new(NONE, NONE, &[[0, 0, 1]]).lasting(1, 5),
        ActionDraft::new(NONE, no(0), &[]),
        ActionDraft::new(no(0), NONE, &[]),
        ActionDraft::new(yes(1), NONE, &[]),
        ActionDraft::new(NONE, NONE, &[]).lasting(HORIZON, HORIZON),
        ActionDraft::new(NONE, NONE, &[[9, 0, 1]]),
    ]
}

type Fault = fn(&mut OfferDraft);

/// One fault or more for each of refusals 7 to 13, 15 to 17 and 23.
const FAULTS: [Fault; 13] = [
    |offer| offer.claimed_steps = Some(9),
    |offer| offer.steps[1].action = 99,
    |offer| offer.left_over.push(0),
    |offer| offer.known = Facts::new(8, 8),
    |offer| offer.goal.negative |= offer.goal.positive,
    |offer| offer.due = HORIZON + 1,
    |offer| offer.steps[1] = step(UNDOES),
    |offer| offer.steps[2] = step(CLASHES),
    |offer| offer.steps[3] = step(LACKS),
    |offer| offer.steps[0].places[0] = 33,
    |offer| offer.steps[4] = step(USES_FULL_LINE),
    |offer| offer.steps[5] = step(TOO_LONG),
    |offer| offer.due = TOO_SOON,
];

fn step(action: usize) -> crate::generate::draft::StepDraft {
    OfferDraft::new(NONE, NONE, &actions(), &[action]).steps[0].clone()
}

/// A good offer of six steps that wants fact 0.
fn offer() -> OfferDraft {
    let mut offer = chain(&actions(), &[PLAIN; 6], &[0, 1, 2, 3, 4, 5]);
    offer.known = Facts::new(1, 0);
    offer.goal = Facts::new(1, 0);
    offer
}

pub fn orders(_: &mut Rng, script: &mut Script) {
    let boards: [fn(&mut Script); 5] = [
        |script| _ = script.fresh(HORIZON, 5),
        |script| _ = script.fresh(0, 5),
        fill_line,
        |script| fill_room(script, 1),
        |script| fill_room(script, 8),
    ];
    for board in boards {
        script.plant(plant_file(&actions()));
        board(script);
        let saved = script.book().is_some().then(|| script.reached());
        for plant in plants() {
            script.plant(plant);
            for (number, first) in FAULTS.iter().enumerate() {
                for second in &FAULTS[number..] {
                    let mut offer = offer();
                    second(&mut offer);
                    first(&mut offer);
                    script.plan(&offer);
                    // The fact check goes on where plan stops at the due time.
                    if offer.due > HORIZON {
                        script.fact(&offer);
                    }
                }
            }
            script.plan(&offer());
            if let Some(saved) = &saved {
                script.show();
                // What was accepted goes again.
                script.board(saved);
            }
        }
    }
}

/// Good, then with a fault for each of refusals 1 to 4.
fn plants() -> Vec<Vec<u8>> {
    let draft = PlantDraft::new(&actions());
    let mut faults = vec![draft.clone(); 4];
    faults[0].mark[0] = 0;
    faults[1].count += 1;
    faults[2].index[5] += 1;
    let mut out_of_range = actions();
    out_of_range[5].shortest = 0;
    faults[3] = PlantDraft::new(&out_of_range);
    let drafts = std::iter::once(draft).chain(faults);
    drafts.map(|draft| draft.bytes()).collect()
}

/// Fills the line of resource 9.
fn fill_line(script: &mut Script) {
    script.fresh(HORIZON, 5);
    for first in [0, 8, 16, 24] {
        let places: Vec<u32> = (first..first + 8).collect();
        script.plan(&chain(&actions(), &[USES_FULL_LINE; 8], &places));
    }
}

/// Plans jobs of so many steps until there is no room.
fn fill_room(script: &mut Script, steps: usize) {
    script.fresh(HORIZON, 5);
    while script.plan(&chain(&actions(), &vec![UNDOES; steps], &[])) == 0 {}
}
