//! The current board by the definition: a rule book, or a board that isn't sound.

use super::sound::is_sound;
use super::{Board, BoardCalls, Row};
use crate::facts::check_facts_and_due;
use crate::offer::Offer;
use crate::plant::Plant;
use crate::ruling::Refusal;

pub use super::book::RuleBook;

pub enum Definition {
    Sound(Box<RuleBook>),
    Unsound(Box<Board>),
}

/// The board of a refused fresh.
impl Default for Definition {
    fn default() -> Self {
        Definition::Unsound(Box::default())
    }
}

impl Definition {
    /// The rule book; refusal 6 where the board isn't sound.
    pub fn book(&self) -> Result<&RuleBook, Refusal> {
        match self {
            Definition::Sound(book) => Ok(book),
            Definition::Unsound(_) => Err(Refusal::Unsound),
        }
    }

    fn book_mut(&mut self) -> Result<&mut RuleBook, Refusal> {
        match self {
            Definition::Sound(book) => Ok(book),
            Definition::Unsound(_) => Err(Refusal::Unsound),
        }
    }
}

impl BoardCalls for Definition {
    fn fresh(&mut self, horizon: u32, lead: u32) -> Result<(), Refusal> {
        *self = Definition::default();
        *self = Definition::Sound(Box::new(RuleBook::fresh(horizon, lead)?));
        Ok(())
    }

    fn plan(&mut self, plant: &[u8], offer: &[u8]) -> Result<(), Refusal> {
        let plant = Plant::read(plant)?;
        let book = self.book_mut()?;
        let offer = Offer::read(&plant, offer)?;
        check_facts_and_due(&offer, book.horizon as u32)?;
        book.plan(&offer)
    }

    fn send(&mut self, place: u32) -> Result<(), Refusal> {
        self.book_mut()?.send(place)
    }

    fn clock(&mut self, to: u32) -> Result<(), Refusal> {
        self.book_mut()?.clock(to)
    }

    fn retire(&mut self) -> Result<(), Refusal> {
        self.book_mut()?.retire()
    }

    fn report(&self, room: u32) -> Result<Vec<Row>, Refusal> {
        self.book()?.report(room)
    }

    fn take(&mut self, board: &Board) {
        *self = if is_sound(board) {
            Definition::Sound(Box::new(RuleBook::by_hand(board)))
        } else {
            Definition::Unsound(Box::new(board.clone()))
        };
    }

    fn board(&self) -> Board {
        match self {
            Definition::Sound(book) => book.board(),
            Definition::Unsound(board) => Board::clone(board),
        }
    }
}

#[cfg(test)]
mod tests;
