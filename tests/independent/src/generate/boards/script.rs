//! A list of board calls in the making, with the board that its calls lead to.

use crate::board::definition::RuleBook;
use crate::board::Board;
use crate::generate::draft::OfferDraft;
use crate::generate::writes::written_back;
use crate::log::{Item, MOST_ROWS};
use crate::offer::Offer;
use crate::plant::Plant;
use crate::replay::{Answer, Session};

pub struct Script {
    items: Vec<Item>,
    session: Session,
    /// Whether the list may retire.
    pub retires: bool,
}

impl Script {
    pub fn new(retires: bool) -> Self {
        Script {
            items: Vec::new(),
            session: Session::default(),
            retires,
        }
    }

    pub fn into_items(self) -> Vec<Item> {
        self.items
    }

    /// Adds an item and gives the number of its ruling, if it has one.
    fn add(&mut self, item: Item) -> u32 {
        let number = match self.session.answer(&item) {
            Some(Answer::Ruling(ruling)) => ruling.number(),
            _ => 0,
        };
        self.items.push(item);
        number
    }

    /// The plant from now on. A good file is written from its actions first.
    pub fn plant(&mut self, file: Vec<u8>) {
        if let Some(write) = written_back(&file) {
            self.add(write);
        }
        self.add(Item::Plant(file));
    }

    pub fn fresh(&mut self, horizon: u32, lead: u32) -> u32 {
        self.add(Item::Fresh(horizon, lead))
    }

    pub fn plan(&mut self, offer: &OfferDraft) -> u32 {
        self.plan_bytes(offer.bytes())
    }

    pub fn plan_bytes(&mut self, offer: Vec<u8>) -> u32 {
        self.add(Item::Plan(offer))
    }

    /// The fact check of an offer, which sees no board.
    pub fn fact(&mut self, offer: &OfferDraft) {
        self.add(Item::Fact(offer.bytes()));
    }

    pub fn send(&mut self, place: u32) -> u32 {
        self.add(Item::Send(place))
    }

    pub fn clock(&mut self, to: u32) -> u32 {
        self.add(Item::Clock(to))
    }

    /// Retires where the list may.
    pub fn retire(&mut self) {
        if self.retires {
            self.add(Item::Retire);
        }
    }

    pub fn report(&mut self, room: u32) {
        self.add(Item::Report(room));
    }

    /// The lengths of lists that matter to a report of the board reached: just too short, just long
    /// enough, and the shortest and longest.
    pub fn rooms(&self) -> Vec<u32> {
        let rows = self.book().map_or(2, |book| {
            let points = book.jobs.iter().map(|job| job.points.len() as u32);
            points.sum()
        });
        let near = [rows.saturating_sub(1), rows, rows + 1];
        let mut rooms = vec![0, MOST_ROWS];
        rooms.extend(near.map(|room| room.min(MOST_ROWS)));
        rooms
    }

    /// Reports into a list of each of these lengths.
    pub fn reports(&mut self) {
        for room in self.rooms() {
            self.report(room);
        }
    }

    pub fn board(&mut self, board: &Board) {
        self.add(Item::Board(board.clone()));
    }

    /// Shows the board, sound or not.
    pub fn show(&mut self) {
        self.items.extend([Item::Table, Item::State]);
    }

    /// The rule book of the board reached, where that is sound.
    pub fn book(&self) -> Option<&RuleBook> {
        self.session.board().book().ok()
    }

    /// The earliest and the latest end that the board reached would give the offer's job without its
    /// due time; `None` where it refuses the offer.
    pub fn end_without_due(&self, offer: &OfferDraft) -> Option<(u32, u32)> {
        let bytes = offer.bytes();
        let plant = Plant::read(self.session.plant()).ok()?;
        let offer = Offer::read(&plant, &bytes).ok()?;
        let (earliest, latest) = self.book()?.end_without_due(&offer).ok()?;
        Some((earliest as u32, latest as u32))
    }

    /// The horizon of the board reached; 0 where that isn't sound.
    pub fn horizon(&self) -> u32 {
        self.book().map_or(0, |book| book.horizon as u32)
    }

    /// The board reached.
    pub fn reached(&self) -> Board {
        self.session.reached()
    }

    pub fn current_plant(&self) -> Vec<u8> {
        self.session.plant().to_vec()
    }
}
