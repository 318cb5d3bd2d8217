//! Rulings: accepted, or refused with the number of documents 01 and 02 and the value its cause has.

use std::fmt;

/// Why a call is refused.
#[derive(Clone, Copy, Debug, PartialEq, Eq)]
pub enum Refusal {
    /// 1: the plant file is too short or lacks the mark.
    PlantMark,
    /// 2: the action count is out of range or the sizes don't add up.
    PlantSize,
    /// 3: a record isn't where or what it should be.
    Record { action: u32 },
    /// 4: a number is out of range, or a fact stands both ways.
    Range { action: u32 },
    /// 5: horizon or lead is out of range.
    HorizonOrLead,
    /// 6: the board isn't sound.
    Unsound,
    /// 7: the offer is too short or its step count out of range.
    OfferSize,
    /// 8: a step runs past the offer or names an action the plant lacks.
    Step { step: u32 },
    /// 9: bytes are left over.
    LeftOver,
    /// 10: a fact is known both ways, or wanted both ways.
    Contradiction,
    /// 11: a step undoes what is needed after it.
    Undoes { step: u32 },
    /// 12: a step's need clashes with what is needed after it.
    Clashes { step: u32 },
    /// 13: a needed fact isn't known so; the lowest such.
    Lacking { fact: u32 },
    /// 14: there are 16 jobs, or the points would pass 64.
    NoRoom,
    /// 15: a place exceeds the number in its line.
    Place { allocation: u32 },
    /// 16: the line has 32 already.
    LineFull { allocation: u32 },
    /// 17: no timetable keeps all rules.
    NoTimetable,
    /// 18: the place has no unsent job.
    NoUnsentJob,
    /// 19: the clock would go back or pass the horizon.
    ClockRange,
    /// 20: no timetable is left after the clock's rules.
    NoneAfterClock,
    /// 21: there is no job to retire, or it is unsent, or something of it ends after the clock.
    NotRetired,
    /// 22: the list is shorter than the rows, or the buffer than the plant file.
    ShortList,
    /// 23: the due time is past the horizon.
    DuePastHorizon,
}

impl Refusal {
    /// The documents' number, with the value where the cause has one.
    pub fn number_and_value(self) -> (u32, Option<u32>) {
        match self {
            Refusal::PlantMark => (1, None),
            Refusal::PlantSize => (2, None),
            Refusal::Record { action } => (3, Some(action)),
            Refusal::Range { action } => (4, Some(action)),
            Refusal::HorizonOrLead => (5, None),
            Refusal::Unsound => (6, None),
            Refusal::OfferSize => (7, None),
            Refusal::Step { step } => (8, Some(step)),
            Refusal::LeftOver => (9, None),
            Refusal::Contradiction => (10, None),
            Refusal::Undoes { step } => (11, Some(step)),
            Refusal::Clashes { step } => (12, Some(step)),
            Refusal::Lacking { fact } => (13, Some(fact)),
            Refusal::NoRoom => (14, None),
            Refusal::Place { allocation } => (15, Some(allocation)),
            Refusal::LineFull { allocation } => (16, Some(allocation)),
            Refusal::NoTimetable => (17, None),
            Refusal::NoUnsentJob => (18, None),
            Refusal::ClockRange => (19, None),
            Refusal::NoneAfterClock => (20, None),
            Refusal::NotRetired => (21, None),
            Refusal::ShortList => (22, None),
            Refusal::DuePastHorizon => (23, None),
        }
    }
}

/// The answer to a call.
#[derive(Clone, Copy, Debug, PartialEq, Eq)]
pub enum Ruling {
    Accepted,
    Refused(Refusal),
}

impl Ruling {
    /// 0 for accepted, else the documents' number.
    pub fn number(self) -> u32 {
        self.number_and_value().0
    }

    /// The action, step, fact or allocation where the cause has one.
    pub fn value(self) -> Option<u32> {
        self.number_and_value().1
    }

    fn number_and_value(self) -> (u32, Option<u32>) {
        match self {
            Ruling::Accepted => (0, None),
            Ruling::Refused(refusal) => refusal.number_and_value(),
        }
    }
}

impl From<Result<(), Refusal>> for Ruling {
    fn from(result: Result<(), Refusal>) -> Self {
        match result {
            Ok(()) => Ruling::Accepted,
            Err(refusal) => Ruling::Refused(refusal),
        }
    }
}

/// The number and value as a call log shows them.
impl fmt::Display for Ruling {
    fn fmt(&self, f: &mut fmt::Formatter) -> fmt::Result {
        match self.number_and_value() {
            (number, None) => write!(f, "{number}"),
            (number, Some(value)) => write!(f, "{number} {value}"),
        }
    }
}
