//! One list on both sides, step by step, up to the first difference.

use crate::case::{Case, Longer, Step};
use crate::lender::{Lender, Wanted};
use crate::longer::{longer_offer, longer_plant};
use crate::product::{has_call, Product};
use crate::range::Range;
use crate::second::{answer, answer_by_definition, Answer};
use crate::tally::{Tally, Way};
use independent::board::{BoardCalls, Definition, BOARD_WORDS, MOST_POINTS};
use independent::log::Item;
use independent::replay::Session;
use std::borrow::Cow;

/// What first differs.
#[derive(Debug)]
pub struct Difference {
    /// The step at which it shows.
    pub at: usize,
    /// What each side answered.
    pub told: String,
}

/// What both sides go on with between two steps.
pub struct Trial<'a, P> {
    lender: Lender<'a, P>,
    board: Range<u32>,
    definition: Option<Session<Definition>>,
}

impl<'a, P: Product> Trial<'a, P> {
    /// Begins as a list does, with no plant and a board of zeros.
    pub fn new(product: &'a P, case: &Case, tally: &'a mut Tally) -> Self {
        let guard = case.guard;
        let lender = Lender {
            product,
            tally,
            guard,
            plant: Vec::new(),
        };
        Trial {
            lender,
            board: Range::guarded(&[0; BOARD_WORDS], guard),
            definition: case.by_definition.then(Session::default),
        }
    }

    pub fn leave_out_definition(&mut self) {
        self.definition = None;
    }

    pub fn run<'s>(mut self, steps: impl IntoIterator<Item = &'s Step>) -> Option<Difference> {
        for (at, step) in steps.into_iter().enumerate() {
            if let Err(told) = self.step(step) {
                return Some(Difference { at, told });
            }
        }
        None
    }

    fn step(&mut self, step: &Step) -> Result<(), String> {
        match &step.item {
            Item::Plant(file) => self.lender.plant.clone_from(file),
            Item::Board(board) => self.board.set(&board.words()[..]),
            Item::Write(room, actions) => return self.lender.write(step, *room, actions),
            item if has_call(item) => {
                self.call_on_another_length(step)?;
                self.call_with_more_bytes(step)?;
                return self.call(&with_more_rows(step));
            }
            _ => return Ok(()),
        }
        if let Some(session) = &mut self.definition {
            session.answer(&step.item);
        }
        Ok(())
    }

    fn call(&mut self, step: &Step) -> Result<(), String> {
        let item = &step.item;
        self.count_room(item);
        let answer = answer(item, &self.lender.plant, self.board.wanted());
        self.compare_with_definition(item, &answer)?;
        let wanted = Wanted::of(item, answer);
        self.lender.compare(step, &mut self.board, &wanted)?;
        self.lender.tally.numbers[wanted.number as usize] += 1;
        Ok(())
    }

    /// The fact check has no board.
    fn call_on_another_length(&mut self, step: &Step) -> Result<(), String> {
        let length = step.lending.other_length;
        let Some(length) = length.filter(|_| !matches!(step.item, Item::Fact(_))) else {
            return Ok(());
        };
        let mut words = self.board.wanted().to_vec();
        words.resize(length, 0);
        let mut board = Range::guarded(&words, self.lender.guard);
        let answer = answer(&step.item, &self.lender.plant, board.wanted());
        let wanted = Wanted::of(&step.item, answer);
        let compared = self.lender.compare(step, &mut board, &wanted);
        compared.map_err(|told| format!("on a board of {length} words: {told}"))?;
        self.lender.tally.see(Way::OtherLength(length));
        Ok(())
    }

    /// Of plan and fact check alone, which take bytes. No such plant or offer is a good one, so the
    /// board is the same after it.
    fn call_with_more_bytes(&mut self, step: &Step) -> Result<(), String> {
        let (Item::Plan(offer) | Item::Fact(offer), Some(longer)) =
            (&step.item, &step.lending.longer)
        else {
            return Ok(());
        };
        let plant = self.lender.plant.clone();
        let (way, item) = match longer {
            Longer::Plant(length) => {
                self.lender.plant = longer_plant(&plant, *length);
                (Way::LongPlant, step.item.clone())
            }
            Longer::Offer(length) => {
                let offer = longer_offer(offer, *length);
                let is_plan = matches!(step.item, Item::Plan(_));
                let call = if is_plan { Item::Plan } else { Item::Fact };
                (Way::LongOffer, call(offer))
            }
        };
        let lending = step.lending.clone();
        let answer = answer(&item, &self.lender.plant, self.board.wanted());
        let wanted = Wanted::of(&item, answer);
        let step = Step { item, lending };
        let compared = self.lender.compare(&step, &mut self.board, &wanted);
        self.lender.plant = plant;
        compared.map_err(|told| format!("with more bytes: {told}"))?;
        self.lender.tally.see(way);
        Ok(())
    }

    /// How the room of a report's list compares with the rows, where there are any.
    fn count_room(&mut self, item: &Item) {
        let Item::Report(room) = item else { return };
        let whole = Item::Report(MOST_POINTS as u32);
        let rows = answer(&whole, &self.lender.plant, self.board.wanted());
        let rows = rows.map_or(0, |rows| rows.len() as u32);
        let ways = [
            (Way::MoreRoom, *room > rows),
            (Way::JustRoom, *room == rows),
            (Way::OneShort, room + 1 == rows),
            (Way::NoRoom, *room == 0),
        ];
        for (way, _) in ways.into_iter().filter(|(_, seen)| rows > 0 && *seen) {
            self.lender.tally.see(way);
        }
    }

    /// Holds the fast form against the rule book, in a list in which that is asked.
    fn compare_with_definition(&mut self, item: &Item, answer: &Answer) -> Result<(), String> {
        let Some(session) = &mut self.definition else {
            return Ok(());
        };
        self.lender.tally.by_definition += 1;
        let by_definition = answer_by_definition(session, item);
        if by_definition != *answer {
            return Err(format!("fast form {answer:?}, rule book {by_definition:?}"));
        }
        // The words of a refused call are compared with those before it.
        let changes_board = !matches!(item, Item::Fact(_) | Item::Report(_));
        if answer.is_ok() && changes_board {
            let words = session.board().board().words();
            if words[..] != *self.board.wanted() {
                return Err("fast form and rule book have other words on the board".to_string());
            }
        }
        Ok(())
    }
}

/// The step with the rows that its lending adds to a report's list.
fn with_more_rows(step: &Step) -> Cow<'_, Step> {
    let mut step = Cow::Borrowed(step);
    if let Item::Report(room) = step.item {
        step.to_mut().item = Item::Report(room + step.lending.more_rows);
    }
    step
}
