//! What a call log is about.

use std::fmt;
use std::str::FromStr;

#[derive(Clone, Copy, Debug, PartialEq, Eq)]
pub enum Kind {
    /// Plant files, read and written, offers and the fact check.
    Read,
    /// Boards, without retire.
    Board,
    /// Boards with retire.
    Retire,
}

impl FromStr for Kind {
    type Err = ();

    fn from_str(word: &str) -> Result<Self, ()> {
        match word {
            "read" => Ok(Kind::Read),
            "board" => Ok(Kind::Board),
            "retire" => Ok(Kind::Retire),
            _ => Err(()),
        }
    }
}

impl fmt::Display for Kind {
    fn fmt(&self, f: &mut fmt::Formatter) -> fmt::Result {
        f.write_str(match self {
            Kind::Read => "read",
            Kind::Board => "board",
            Kind::Retire => "retire",
        })
    }
}
