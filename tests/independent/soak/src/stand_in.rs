//! Stand-ins for the product: the second implementation itself, and wrong ones.

use crate::product::{Lent, LentToWrite, Product};
use crate::second::{answer, write_rows};
use crate::writing::tell;
use independent::log::Item;
use independent::write_plant;

/// Answers as it should.
pub struct Right;

impl Product for Right {
    fn ask(&self, item: &Item, lent: Lent) -> u32 {
        let board = lent.board.unwrap_or_default();
        let answer = answer(item, lent.plant.unwrap_or_default(), board);
        let refusal = answer.as_ref().err();
        let (number, value) = refusal.map_or((0, None), |refusal| refusal.number_and_value());
        let cause = lent.cause.filter(|_| matches!(item, Item::Plan(_)));
        if let Some([first, ..]) = cause {
            *first = value.unwrap_or(0);
        }
        write_rows(lent.rows.unwrap_or_default(), &answer.unwrap_or_default());
        number
    }

    fn write(&self, lent: LentToWrite) -> u32 {
        let actions = lent.actions.unwrap_or_default();
        let ruled = write_plant(actions, lent.plant.unwrap_or_default());
        tell(lent.written.unwrap_or_default(), ruled);
        ruled.map_or_else(|refusal| refusal.number_and_value().0, |_| 0)
    }
}

/// Answers as it should, and then spoils the ranges or the number.
pub struct Wrong(pub fn(&Item, u32, Lent) -> u32);

impl Product for Wrong {
    fn ask(&self, item: &Item, mut lent: Lent) -> u32 {
        let right = Lent {
            board: lent.board.as_deref_mut(),
            cause: lent.cause.as_deref_mut(),
            rows: lent.rows.as_deref_mut(),
            ..lent
        };
        let number = Right.ask(item, right);
        (self.0)(item, number, lent)
    }
    fn write(&self, lent: LentToWrite) -> u32 {
        Right.write(lent)
    }
}

/// Writes as it should, and then spoils the ranges or the number.
pub struct WrongWriter(pub fn(u32, LentToWrite) -> u32);

impl Product for WrongWriter {
    fn ask(&self, item: &Item, lent: Lent) -> u32 {
        Right.ask(item, lent)
    }

    fn write(&self, mut lent: LentToWrite) -> u32 {
        let right = LentToWrite {
            actions: lent.actions,
            plant: lent.plant.as_deref_mut(),
            written: lent.written.as_deref_mut(),
        };
        let number = Right.write(right);
        (self.0)(number, lent)
    }
}
