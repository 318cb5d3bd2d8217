//! How much a log must show, by what it is about.

use super::sights::{DueSight, Sight};
use crate::kind::Kind;

/// What a log must show of one call.
pub struct Floor {
    pub call: &'static str,
    /// Numbers that must be seen often.
    pub numbers: &'static [u32],
    /// Numbers with the last value they can have; each must be seen with 0 and with the last.
    pub ends: &'static [(u32, u32)],
}

const READ: [Floor; 3] = [
    Floor {
        call: "check",
        numbers: &[0, 1, 2, 3, 4],
        ends: &[(3, 127), (4, 127)],
    },
    Floor {
        call: "write",
        numbers: &[0, 2, 3, 4, 22],
        ends: &[(3, 127), (4, 127)],
    },
    Floor {
        call: "fact",
        numbers: &[0, 1, 2, 3, 4, 7, 8, 9, 10, 11, 12, 13],
        ends: &[(8, 7), (11, 7), (12, 7), (13, 31)],
    },
];

/// Retire comes last, to be left out of a log without it.
const BOARD: [Floor; 7] = [
    Floor {
        call: "write",
        numbers: &[0],
        ends: &[],
    },
    Floor {
        call: "fresh",
        numbers: &[0, 5],
        ends: &[],
    },
    Floor {
        call: "plan",
        numbers: &[
            0, 1, 2, 3, 4, 6, 7, 8, 9, 10, 11, 12, 13, 14, 15, 16, 17, 23,
        ],
        ends: &[(8, 7), (11, 7), (12, 7), (13, 31), (15, 31), (16, 31)],
    },
    Floor {
        call: "send",
        numbers: &[0, 6, 18],
        ends: &[],
    },
    Floor {
        call: "clock",
        numbers: &[0, 6, 19, 20],
        ends: &[],
    },
    Floor {
        call: "report",
        numbers: &[0, 6, 22],
        ends: &[],
    },
    Floor {
        call: "retire",
        numbers: &[0, 6, 21],
        ends: &[],
    },
];

const READ_SIGHTS: [(Sight, usize); 15] = [
    (Sight::WrittenPlant, 1_000),
    (Sight::LargestFile, 4),
    (Sight::FileMoreRoom, 50),
    (Sight::FileJustRoom, 500),
    (Sight::FileOneShort, 300),
    (Sight::FileNoRoom, 10),
    (Sight::RefusedWithoutRoom, 500),
    (Sight::LowByte, 50),
    (Sight::EmptyPart, 50),
    (Sight::FilledPart, 50),
    (Sight::ForwardPassed, 3_000),
    (Sight::ForwardFailed, 3_000),
    (Sight::ForwardGoalClash, 300),
    (Sight::LongestPlant, 1),
    (Sight::LongestOffer, 1),
];

/// The last one is for logs that retire.
const BOARD_SIGHTS: [(Sight, usize); 29] = [
    (Sight::WrittenPlant, 100),
    (Sight::Table, 1_000),
    (Sight::State, 1_000),
    (Sight::AllPoints, 50),
    (Sight::AllJobs, 50),
    (Sight::FullLine, 50),
    (Sight::SoundByHand, 100),
    (Sight::UnsoundByHand, 100),
    (Sight::AllRows, 20),
    (Sight::NoRows, 50),
    (Sight::LongestPlant, 1),
    (Sight::LongestOffer, 1),
    (Sight::LargestPlant, 100),
    (Sight::LateAction, 100),
    (Sight::EveryResource, 100),
    (Sight::FourResources, 100),
    (Sight::HighBits, 100),
    (Sight::SeveralFlaws, 80),
    (Sight::RandomWords, 20),
    (Sight::CellOff, 100),
    (Sight::CellOffOfMany, 500),
    (Sight::UnsoundTable, 100),
    (Sight::UnsoundState, 100),
    (Sight::OverfullState, 20),
    (Sight::MoreRoom, 100),
    (Sight::JustRoom, 100),
    (Sight::OneShort, 100),
    (Sight::NoRoom, 100),
    (Sight::HundredsRetired, 4),
];

const READ_DUES: [(DueSight, usize); 3] = [
    (DueSight::FactPassed, 500),
    (DueSight::FactFailed, 500),
    (DueSight::CutWithin, 10),
];

const BOARD_DUES: [(DueSight, usize); 25] = [
    (DueSight::Idle, 300),
    (DueSight::Binding, 300),
    (DueSight::JustInTime, 300),
    (DueSight::AtHorizon, 100),
    (DueSight::AtOne, 100),
    (DueSight::TooSoon, 300),
    (DueSight::OneTooSoon, 100),
    (DueSight::OtherPlace, 5),
    (DueSight::OnePast, 100),
    (DueSight::FarPast, 100),
    (DueSight::PastBothWays, 20),
    (DueSight::PastUndone, 15),
    (DueSight::PastClash, 12),
    (DueSight::PastLacking, 15),
    (DueSight::FactPassed, 20),
    (DueSight::FactFailed, 20),
    (DueSight::CutWithin, 10),
    (DueSight::ByHand, 100),
    (DueSight::ByHandAtHorizon, 100),
    (DueSight::ByHandNotKept, 100),
    (DueSight::ByHandNotInUse, 20),
    (DueSight::ByHandOnePast, 10),
    (DueSight::ByHandFarPast, 10),
    (DueSight::EqualTables, 10),
    (DueSight::OtherTables, 10),
];

/// How often each number of a floor must be seen.
pub fn least_seen(kind: Kind) -> usize {
    match kind {
        Kind::Read => 50,
        Kind::Board | Kind::Retire => 100,
    }
}

pub fn floors(kind: Kind) -> &'static [Floor] {
    match kind {
        Kind::Read => &READ,
        Kind::Board => &BOARD[..BOARD.len() - 1],
        Kind::Retire => &BOARD,
    }
}

/// How often each of these must be seen.
pub fn sights(kind: Kind) -> Vec<(Sight, usize)> {
    let (sights, dues): (&[_], &[_]) = match kind {
        Kind::Read => (&READ_SIGHTS, &READ_DUES),
        Kind::Board => (&BOARD_SIGHTS[..BOARD_SIGHTS.len() - 1], &BOARD_DUES),
        Kind::Retire => (&BOARD_SIGHTS, &BOARD_DUES),
    };
    let dues = dues
        .iter()
        .map(|&(sight, least)| (Sight::Due(sight), least));
    sights.iter().copied().chain(dues).collect()
}
