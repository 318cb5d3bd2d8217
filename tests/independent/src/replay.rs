//! Replays the items of a call log on one current plant and one current board.

use crate::board::{Board, BoardCalls, Definition, Row, State, Table};
use crate::facts::fact_check;
use crate::log::{hex, Item};
use crate::plant::{allocations, check_plant};
use crate::ruling::Ruling;
use crate::write::file_of;
use std::fmt;

/// What is current between two items; the board is kept in one of its two forms.
#[derive(Default)]
pub struct Session<B = Definition> {
    plant: Vec<u8>,
    board: B,
}

/// The answer to an item; shown, it is the answer's lines.
pub enum Answer<'a> {
    List(&'a str),
    Ruling(Ruling),
    Part(&'a [u8]),
    Written(Vec<u8>),
    Rows(Vec<Row>),
    Table(Board),
    State(Board),
}

impl<B: BoardCalls> Session<B> {
    /// Does what the item asks; `None` where the log shows no answer.
    pub fn answer<'a>(&'a mut self, item: &'a Item) -> Option<Answer<'a>> {
        let ruling = match item {
            Item::List(name) => {
                *self = Session::default();
                return Some(Answer::List(name));
            }
            Item::Plant(file) => {
                self.plant.clone_from(file);
                return None;
            }
            Item::Board(board) => {
                self.board.take(board);
                return None;
            }
            Item::Part(action) => return Some(Answer::Part(allocations(&self.plant, *action))),
            Item::Write(room, actions) => match file_of(actions, *room as usize) {
                Ok(file) => return Some(Answer::Written(file)),
                Err(refusal) => Ruling::Refused(refusal),
            },
            Item::Table => return Some(Answer::Table(self.board.board())),
            Item::State => return Some(Answer::State(self.board.board())),
            Item::Check => check_plant(&self.plant),
            Item::Fact(offer) => fact_check(&self.plant, offer),
            Item::Fresh(horizon, lead) => self.board.fresh(*horizon, *lead).into(),
            Item::Plan(offer) => self.board.plan(&self.plant, offer).into(),
            Item::Send(place) => self.board.send(*place).into(),
            Item::Clock(to) => self.board.clock(*to).into(),
            Item::Retire => self.board.retire().into(),
            Item::Report(room) => match self.board.report(*room) {
                Ok(rows) => return Some(Answer::Rows(rows)),
                Err(refusal) => Ruling::Refused(refusal),
            },
        };
        Some(Answer::Ruling(ruling))
    }

    pub fn plant(&self) -> &[u8] {
        &self.plant
    }

    pub fn board(&self) -> &B {
        &self.board
    }

    /// The board reached, in its words.
    pub fn reached(&self) -> Board {
        self.board.board()
    }
}

impl fmt::Display for Answer<'_> {
    fn fmt(&self, f: &mut fmt::Formatter) -> fmt::Result {
        match self {
            Answer::List(name) => write!(f, "list {name}"),
            Answer::Ruling(ruling) => write!(f, "= {ruling}"),
            Answer::Part(part) => write!(f, "= 0 {}", hex(part)),
            Answer::Written(file) => write!(f, "= 0 {} {}", file.len(), hex(file)),
            Answer::Rows(rows) => {
                write!(f, "= 0 {}", rows.len())?;
                for row in rows {
                    let [job, point] = [row.job, row.point];
                    write!(f, "\nr {job} {point} {} {}", row.earliest, row.latest)?;
                }
                Ok(())
            }
            Answer::Table(board) => Table(board).fmt(f),
            Answer::State(board) => State(board).fmt(f),
        }
    }
}
