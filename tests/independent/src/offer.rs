//! Offers, read in place against a plant: refusals 7 to 9.

use crate::facts::Facts;
use crate::plant::{Action, Plant, Word};
use crate::ruling::Refusal;

pub const MOST_STEPS: usize = 8;

/// The words before the first step, of which the due time is the last.
const HEADER_WORDS: usize = 7;
/// The bytes before the first step.
pub const HEADER_BYTES: usize = 4 * HEADER_WORDS;

/// An offer in right format.
pub struct Offer<'a> {
    pub batch: u32,
    pub known: Facts,
    pub goal: Facts,
    /// No later than this the job's last point must be; 0 is no due time.
    pub due: u32,
    step_count: usize,
    /// The action of each step; those from `step_count` on aren't used.
    actions: [Action<'a>; MOST_STEPS],
    /// The words after the header: of each step its action number and its places.
    steps: &'a [Word],
}

impl<'a> Offer<'a> {
    // Inlined, the offer needn't be copied from one place on the stack to another.
    #[inline]
    pub fn read(plant: &Plant<'a>, bytes: &'a [u8]) -> Result<Self, Refusal> {
        let (words, odd_bytes) = bytes.as_chunks();
        let Some((header, steps)) = words.split_first_chunk::<HEADER_WORDS>() else {
            return Err(Refusal::OfferSize);
        };
        let [batch, known_true, known_false, goal_true, goal_false, step_count, due] =
            header.map(u32::from_le_bytes);
        let step_count = step_count as usize;
        if step_count == 0 || step_count > MOST_STEPS {
            return Err(Refusal::OfferSize);
        }
        let mut rest = steps;
        let mut actions = [Action::default(); MOST_STEPS];
        for (step, slot) in (0..).zip(&mut actions[..step_count]) {
            let Some((action, _places, after)) = split_step(plant, rest) else {
                return Err(Refusal::Step { step });
            };
            *slot = action;
            rest = after;
        }
        if !rest.is_empty() || !odd_bytes.is_empty() {
            return Err(Refusal::LeftOver);
        }
        Ok(Offer {
            batch,
            known: Facts::new(known_true, known_false),
            goal: Facts::new(goal_true, goal_false),
            due,
            step_count,
            actions,
            steps,
        })
    }

    /// The actions from the first step to the last.
    pub fn chain(&self) -> &[Action<'a>] {
        &self.actions[..self.step_count]
    }

    /// The action number of each step.
    pub fn action_numbers(&self) -> impl Iterator<Item = u32> + use<'_, 'a> {
        let mut rest = self.steps;
        self.chain().iter().map(move |action| {
            let number = u32::from_le_bytes(rest[0]);
            rest = &rest[1 + action.allocations().len()..];
            number
        })
    }

    /// Every allocation of the chain in offer order.
    pub fn allocations(&self) -> impl Iterator<Item = Allocation> + use<'_, 'a> {
        let mut rest = self.steps;
        let steps = self.chain().iter().enumerate();
        let allocations = steps.flat_map(move |(step, action)| {
            let allocations = action.allocations();
            let (places, after) = rest[1..].split_at(allocations.len());
            rest = after;
            let step = std::iter::repeat(step);
            step.zip(allocations.iter().zip(places))
        });
        (0..)
            .zip(allocations)
            .map(|(number, (step, (allocation, place)))| {
                let [resource, offset, length] = allocation.map(u32::from_le_bytes);
                Allocation {
                    number,
                    step,
                    resource: resource as usize,
                    offset,
                    length,
                    place: u32::from_le_bytes(*place),
                }
            })
    }
}

/// An allocation that an offer asks for.
pub struct Allocation {
    /// Its number in the offer, 0 first.
    pub number: u32,
    pub step: usize,
    pub resource: usize,
    pub offset: u32,
    pub length: u32,
    /// How many allocations of its line come before it.
    pub place: u32,
}

/// Takes the first step, action and places, off the words; `None` if it runs past them or the
/// plant has no such action.
fn split_step<'a>(
    plant: &Plant<'a>,
    words: &'a [Word],
) -> Option<(Action<'a>, &'a [Word], &'a [Word])> {
    let (number, rest) = words.split_first()?;
    let action = plant.action(u32::from_le_bytes(*number))?;
    let (places, rest) = rest.split_at_checked(action.allocations().len())?;
    Some((action, places, rest))
}

#[cfg(test)]
mod tests {
    use super::*;
    use crate::facts::fact_check;
    use crate::generate::draft::{
        plant_file, proving_offer, proving_plant, ActionDraft, OfferDraft,
    };

    fn ruling_on(offer: &[u8]) -> (u32, Option<u32>) {
        let ruling = fact_check(&plant_file(&proving_plant()), offer);
        (ruling.number(), ruling.value())
    }

    #[test]
    fn an_offer_cut_short_is_7_or_8() {
        let offer = proving_offer().bytes();
        assert_eq!(offer.len(), 40);
        let cuts = [
            (0, 7, None),
            (23, 7, None),
            (24, 7, None),
            (27, 7, None),
            (28, 8, Some(0)),
            (31, 8, Some(0)),
        ];
        for (length, number, value) in cuts {
            assert_eq!(ruling_on(&offer[..length]), (number, value), "{length}");
        }
        // Byte 32 begins the place of step 0, byte 36 step 1.
        for (length, step) in [(32, 0), (35, 0), (36, 1), (39, 1)] {
            assert_eq!(ruling_on(&offer[..length]), (8, Some(step)), "{length}");
        }
        assert_eq!(ruling_on(&offer), (0, None));
    }

    #[test]
    fn the_due_time_is_at_byte_24_behind_the_step_count() {
        let file = plant_file(&proving_plant());
        let plant = Plant::read(&file).unwrap();
        let bytes = proving_offer().due(0x0403_0201).bytes();
        assert_eq!(bytes[20..HEADER_BYTES], [2, 0, 0, 0, 1, 2, 3, 4]);
        let offer = Offer::read(&plant, &bytes).unwrap();
        assert_eq!((offer.due, offer.chain().len()), (0x0403_0201, 2));
    }

    /// Its steps begin where the due time should be, so that the last of them runs past the offer.
    #[test]
    fn an_offer_without_the_due_time_is_8() {
        let mut offer = proving_offer().bytes();
        offer.drain(24..28);
        assert_eq!(ruling_on(&offer), (8, Some(1)));
    }

    #[test]
    fn the_step_count_is_from_1_to_8() {
        for (claimed, ruling) in [
            (0, (7, None)),
            (1, (9, None)),
            (3, (8, Some(2))),
            (8, (8, Some(2))),
            (9, (7, None)),
            (u32::MAX, (7, None)),
        ] {
            let claimed_steps = Some(claimed);
            let offer = OfferDraft {
                claimed_steps,
                ..proving_offer()
            };
            assert_eq!(ruling_on(&offer.bytes()), ruling, "{claimed}");
        }
    }

    #[test]
    fn a_step_names_an_action_of_the_plant() {
        for action in [3, 4, 0x4000_0001, u32::MAX] {
            let mut offer = proving_offer();
            offer.steps[1].action = action;
            assert_eq!(ruling_on(&offer.bytes()), (8, Some(1)), "{action}");
        }
    }

    #[test]
    fn bytes_left_over_are_9_and_come_before_facts() {
        for left_over in 1..=4 {
            let mut offer = proving_offer();
            offer.known.negative = 1;
            assert_eq!(ruling_on(&offer.bytes()), (10, None));
            offer.left_over = vec![0; left_over];
            assert_eq!(ruling_on(&offer.bytes()), (9, None), "{left_over}");
        }
    }

    #[test]
    fn allocations_are_counted_through_all_steps() {
        let one = ActionDraft::new(Facts::NONE, Facts::NONE, &[[7, 8, 9]]);
        let two = ActionDraft::new(Facts::NONE, Facts::NONE, &[[1, 2, 3], [4, 5, 6]]);
        let none = ActionDraft::new(Facts::NONE, Facts::NONE, &[]);
        let actions = [one, two, none];
        let mut offer = OfferDraft::new(Facts::NONE, Facts::NONE, &actions, &[1, 2, 0]);
        offer.steps[0].places = vec![10, 20];
        offer.steps[2].places = vec![30];
        let (plant, offer) = (plant_file(&actions), offer.bytes());
        let plant = Plant::read(&plant).unwrap();
        let offer = Offer::read(&plant, &offer).unwrap();
        let seen: Vec<_> = offer
            .allocations()
            .map(|a| (a.number, a.step, a.resource, a.offset, a.length, a.place))
            .collect();
        let expected = [
            (0, 0, 1, 2, 3, 10),
            (1, 0, 4, 5, 6, 20),
            (2, 2, 7, 8, 9, 30),
        ];
        assert_eq!(seen, expected);
    }
}
