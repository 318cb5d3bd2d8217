//! Call logs: the items of a log, read from and written as lines.

use crate::board::{Board, BOARD_WORDS};
use crate::write::Fields;
use std::fmt;

/// The most bytes a `plant`, `fact` or `plan` line may have, and the most room a `write` line.
pub const MOST_BYTES: usize = 16_384;
/// The most rows of a list that a log reports into.
pub const MOST_ROWS: u32 = 64;
/// The most actions that a `write` line may list.
pub const MOST_LISTED: usize = 200;

/// A line of a call log that asks for something.
#[derive(Clone, Debug, PartialEq, Eq)]
pub enum Item {
    /// Begins anew, with no plant and the board of a refused fresh.
    List(String),
    /// The plant file from now on.
    Plant(Vec<u8>),
    /// Read the plant file.
    Check,
    /// Hand out an action's allocations.
    Part(u32),
    /// Write a plant file of these actions into a buffer of so many bytes.
    Write(u32, Vec<Fields>),
    /// The fact check of an offer.
    Fact(Vec<u8>),
    /// A fresh board with this horizon and lead.
    Fresh(u32, u32),
    /// Plan an offer.
    Plan(Vec<u8>),
    /// Send up to a place in the job list.
    Send(u32),
    /// Move the clock.
    Clock(u32),
    /// Retire the oldest job.
    Retire,
    /// Report into a list of so many rows.
    Report(u32),
    /// The board from now on, made by hand.
    Board(Board),
    /// Show the gap table.
    Table,
    /// Show the rest of the board.
    State,
}

impl Item {
    /// The first word of its line.
    pub fn word(&self) -> &'static str {
        match self {
            Item::List(_) => "list",
            Item::Plant(_) => "plant",
            Item::Check => "check",
            Item::Part(_) => "part",
            Item::Write(..) => "write",
            Item::Fact(_) => "fact",
            Item::Fresh(..) => "fresh",
            Item::Plan(_) => "plan",
            Item::Send(_) => "send",
            Item::Clock(_) => "clock",
            Item::Retire => "retire",
            Item::Report(_) => "report",
            Item::Board(_) => "board",
            Item::Table => "table",
            Item::State => "state",
        }
    }

    /// Whether it is a call: changing what is current by hand or showing it is none.
    pub fn is_call(&self) -> bool {
        !matches!(
            self,
            Item::List(_) | Item::Plant(_) | Item::Board(_) | Item::Table | Item::State
        )
    }
}

/// Reads a line; `None` for one to pass over, an error for one that ends the replay.
pub fn parse(line: &str) -> Result<Option<Item>, &'static str> {
    if line.is_empty() || line.starts_with('#') {
        return Ok(None);
    }
    let words: Vec<&str> = line.split(' ').collect();
    let item = match words[..] {
        ["list", name] if !name.is_empty() => Item::List(name.to_string()),
        ["plant", hex] => Item::Plant(parse_hex(hex)?),
        ["check"] => Item::Check,
        ["part", action] => Item::Part(parse_number(action)?),
        ["write", room, count, ref numbers @ ..] => {
            Item::Write(parse_number(room)?, parse_actions(count, numbers)?)
        }
        ["fact", hex] => Item::Fact(parse_hex(hex)?),
        ["fresh", horizon, lead] => Item::Fresh(parse_number(horizon)?, parse_number(lead)?),
        ["plan", hex] => Item::Plan(parse_hex(hex)?),
        ["send", place] => Item::Send(parse_number(place)?),
        ["clock", to] => Item::Clock(parse_number(to)?),
        ["retire"] => Item::Retire,
        ["report", room] => Item::Report(parse_number(room)?),
        ["board", hex] => Item::Board(parse_board(hex)?),
        ["table"] => Item::Table,
        ["state"] => Item::State,
        _ => return Err("no such line"),
    };
    match &item {
        Item::Plant(bytes) | Item::Fact(bytes) | Item::Plan(bytes) if bytes.len() > MOST_BYTES => {
            Err("too many bytes")
        }
        Item::Write(room, _) if *room as usize > MOST_BYTES => Err("too much room"),
        Item::Report(room) if *room > MOST_ROWS => Err("too many rows"),
        _ => Ok(Some(item)),
    }
}

fn parse_number(word: &str) -> Result<u32, &'static str> {
    if !word.bytes().all(|byte| byte.is_ascii_digit()) {
        return Err("not a decimal number");
    }
    word.parse().map_err(|_| "not a 32-bit number")
}

/// As many actions as are counted, and nothing behind them.
fn parse_actions(count: &str, numbers: &[&str]) -> Result<Vec<Fields>, &'static str> {
    let count = parse_number(count)? as usize;
    if count > MOST_LISTED {
        return Err("too many actions");
    }
    let numbers: Result<Vec<u32>, _> = numbers.iter().map(|word| parse_number(word)).collect();
    let numbers = numbers?;
    let mut rest = &numbers[..];
    let mut actions = Vec::new();
    for _ in 0..count {
        let (action, after) = Fields::split(rest).ok_or("too few numbers")?;
        actions.push(action);
        rest = after;
    }
    if !rest.is_empty() {
        return Err("too many numbers");
    }
    Ok(actions)
}

fn parse_hex(word: &str) -> Result<Vec<u8>, &'static str> {
    if word == "-" {
        return Ok(Vec::new());
    }
    let (pairs, odd) = word.as_bytes().as_chunks();
    if pairs.is_empty() || !odd.is_empty() {
        return Err("not whole bytes");
    }
    let byte = |&[high, low]: &[u8; 2]| Some(parse_digit(high)? << 4 | parse_digit(low)?);
    let bytes: Option<Vec<u8>> = pairs.iter().map(byte).collect();
    bytes.ok_or("not lower-case hex")
}

fn parse_board(word: &str) -> Result<Board, &'static str> {
    let bytes = parse_hex(word)?;
    let (words, odd_bytes) = bytes.as_chunks();
    let words: Vec<u32> = words.iter().copied().map(u32::from_le_bytes).collect();
    let words: Result<&[u32; BOARD_WORDS], _> = words[..].try_into();
    match words {
        Ok(words) if odd_bytes.is_empty() => Ok(Board::from_words(words)),
        _ => Err("not the words of a board"),
    }
}

fn parse_digit(digit: u8) -> Option<u8> {
    match digit {
        b'0'..=b'9' => Some(digit - b'0'),
        b'a'..=b'f' => Some(digit - b'a' + 10),
        _ => None,
    }
}

/// Bytes as a log shows them.
pub fn hex(bytes: &[u8]) -> String {
    if bytes.is_empty() {
        return "-".to_string();
    }
    let digit = |value: u8| char::from(b"0123456789abcdef"[usize::from(value)]);
    let digits = bytes
        .iter()
        .flat_map(|byte| [digit(byte >> 4), digit(byte & 15)]);
    digits.collect()
}

impl fmt::Display for Item {
    fn fmt(&self, f: &mut fmt::Formatter) -> fmt::Result {
        let word = self.word();
        match self {
            Item::List(name) => write!(f, "{word} {name}"),
            Item::Plant(bytes) | Item::Fact(bytes) | Item::Plan(bytes) => {
                write!(f, "{word} {}", hex(bytes))
            }
            Item::Part(number)
            | Item::Send(number)
            | Item::Clock(number)
            | Item::Report(number) => {
                write!(f, "{word} {number}")
            }
            Item::Write(room, actions) => {
                write!(f, "{word} {room} {}", actions.len())?;
                let mut numbers = actions.iter().flat_map(Fields::numbers);
                numbers.try_for_each(|number| write!(f, " {number}"))
            }
            Item::Fresh(horizon, lead) => write!(f, "{word} {horizon} {lead}"),
            Item::Board(board) => write!(f, "{word} {}", hex(&bytes_of(&board.words()[..]))),
            Item::Check | Item::Retire | Item::Table | Item::State => write!(f, "{word}"),
        }
    }
}

fn bytes_of(words: &[u32]) -> Vec<u8> {
    words.iter().flat_map(|word| word.to_le_bytes()).collect()
}

#[cfg(test)]
mod tests;
