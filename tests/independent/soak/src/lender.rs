//! Lends the product the ranges of a call and compares what it makes of them.

use crate::bytes::Bytes;
use crate::case::{Lending, Step};
use crate::product::{Lent, Product, ROW_WORDS};
use crate::range::{Range, PATTERN};
use crate::second::{write_rows, Answer};
use crate::tally::{Tally, Way};
use independent::board::Row;
use independent::log::Item;
use std::time::Instant;

/// What a call should give.
pub struct Wanted {
    pub number: u32,
    /// What `cause` should hold, if it should be written.
    cause: Option<u32>,
    rows: Vec<Row>,
}

impl Wanted {
    /// Only plan has a cause.
    pub fn of(item: &Item, answer: Answer) -> Self {
        let refusal = answer.as_ref().err();
        let (number, value) = refusal.map_or((0, None), |refusal| refusal.number_and_value());
        Wanted {
            number,
            cause: matches!(item, Item::Plan(_)).then_some(value.unwrap_or(0)),
            rows: answer.unwrap_or_default(),
        }
    }

    fn cause_range(&self, lending: &Lending, guard: usize) -> Range<u32> {
        let mut cause = Range::guarded(&vec![PATTERN; lending.cause_room], guard);
        if let (Some(value), Some(first)) = (self.cause, cause.wanted().first_mut()) {
            *first = value;
        }
        cause
    }

    fn rows_range(&self, item: &Item, guard: usize) -> Range<u32> {
        let room = match item {
            Item::Report(room) => ROW_WORDS * *room as usize,
            _ => 0,
        };
        let mut rows = Range::guarded(&vec![PATTERN; room], guard);
        write_rows(rows.wanted(), &self.rows);
        rows
    }
}

pub struct Lender<'a, P> {
    pub product: &'a P,
    pub tally: &'a mut Tally,
    /// How many guard words stand on each side of a lent list.
    pub guard: usize,
    pub plant: Vec<u8>,
}

impl<P: Product> Lender<'_, P> {
    /// Asks the product and compares all that can be seen. An error tells both sides' answers.
    pub fn compare(
        &mut self,
        step: &Step,
        board: &mut Range<u32>,
        wanted: &Wanted,
    ) -> Result<(), String> {
        let Step { item, lending } = step;
        let bytes = self.bytes(item, lending);
        let mut cause = wanted.cause_range(lending, self.guard);
        let mut rows = wanted.rows_range(item, self.guard);
        let null = lending.null;
        let lent = Lent {
            board: board.lend(null),
            plant: bytes.plant(null),
            offer: bytes.offer(null),
            cause: cause.lend(null),
            rows: rows.lend(null),
        };
        let start = Instant::now();
        let number = self.product.ask(item, lent);
        self.tally.in_product += start.elapsed();
        if number != wanted.number {
            let wanted = wanted.number;
            return Err(format!("product {number}, second implementation {wanted}"));
        }
        let difference = board
            .difference("the board")
            .or_else(|| cause.difference("the cause"))
            .or_else(|| rows.difference("the rows"))
            .or_else(|| bytes.difference());
        difference.map_or(Ok(()), |told| Err(format!("both {number}, but {told}")))
    }

    /// Plant and offer, in one block where that is asked. Where there are no guards each has its own:
    /// a tool that watches the heap knows blocks alone.
    fn bytes(&mut self, item: &Item, lending: &Lending) -> Bytes {
        let offer = offer_of(item);
        let Some(beside) = lending.beside.as_ref().filter(|_| self.guard > 0) else {
            return Bytes::apart(&self.plant, offer);
        };
        if !self.plant.is_empty() && !offer.is_empty() {
            self.tally.see(Way::Beside);
        }
        Bytes::beside(&self.plant, offer, beside)
    }
}

fn offer_of(item: &Item) -> &[u8] {
    match item {
        Item::Fact(offer) | Item::Plan(offer) => offer,
        _ => &[],
    }
}
