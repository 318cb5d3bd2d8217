//! What else than numbers a log can show.

mod due;

use crate::board::{MOST_JOBS, MOST_POINTS, MOST_USES, SIDE};
use crate::replay::Answer;
use crate::write::MOST_FILE;

pub use due::DueSight;

#[derive(Clone, Copy, Debug, PartialEq, Eq, PartialOrd, Ord)]
pub enum Sight {
    EmptyPart,
    FilledPart,
    /// A plant whose bytes were written just before.
    WrittenPlant,
    /// A written file of as many bytes as any can have.
    LargestFile,
    /// Good actions written into a buffer with more room than the file takes, with just as much,
    /// with one byte less, and with none.
    FileMoreRoom,
    FileJustRoom,
    FileOneShort,
    FileNoRoom,
    /// Actions refused for what they are, with no room either.
    RefusedWithoutRoom,
    /// An n above 4 whose low byte would pass.
    LowByte,
    ForwardPassed,
    ForwardFailed,
    ForwardGoalClash,
    Table,
    State,
    /// A table of 64 points and the origin.
    AllPoints,
    /// A state of 16 jobs.
    AllJobs,
    /// A state with a line of 32.
    FullLine,
    SoundByHand,
    UnsoundByHand,
    /// A report of all the rows that there can be.
    AllRows,
    /// A report of no rows.
    NoRows,
    /// A plant and an offer of as many bytes as a line may have.
    LongestPlant,
    LongestOffer,
    /// An accepted plan of a plant with 128 actions.
    LargestPlant,
    /// An accepted plan with an action that only a large plant has.
    LateAction,
    /// Accepted plans that use a resource, of the one that the fewest use.
    EveryResource,
    /// An accepted plan that uses more than three resources.
    FourResources,
    /// An accepted plan whose batch differs from that of another job in high bits alone.
    HighBits,
    /// An unsound board made of a sound one by changes to more than one of jobs, lines and cells.
    SeveralFlaws,
    /// A board made by hand of words that were never a board.
    RandomWords,
    /// A sound board with one cell one more or less, of few points and of many.
    CellOff,
    CellOffOfMany,
    UnsoundTable,
    UnsoundState,
    /// A state shown of a board with a count larger than what there is room for.
    OverfullState,
    /// A report into a list with more room than rows, with just as much, with room for one less,
    /// and with none; of a board that has rows.
    MoreRoom,
    JustRoom,
    OneShort,
    NoRoom,
    /// A board from which 200 jobs have retired.
    HundredsRetired,
    Due(DueSight),
}

impl Sight {
    pub fn name(self) -> &'static str {
        match self {
            Sight::EmptyPart => "empty parts",
            Sight::FilledPart => "parts with bytes",
            Sight::WrittenPlant => "plants that were written just before",
            Sight::LargestFile => "written files of 10,252 bytes",
            Sight::FileMoreRoom => "files with more room than they take",
            Sight::FileJustRoom => "files with just as much room as they take",
            Sight::FileOneShort => "files with room for one byte less",
            Sight::FileNoRoom => "files with no room",
            Sight::RefusedWithoutRoom => "actions refused for what they are, with no room",
            Sight::LowByte => "numbers of allocations whose low byte would pass",
            Sight::ForwardPassed => "passed forward",
            Sight::ForwardFailed => "failed forward",
            Sight::ForwardGoalClash => "goals that clash, run forward",
            Sight::Table => "tables",
            Sight::State => "states",
            Sight::AllPoints => "tables of 64 points",
            Sight::AllJobs => "states of 16 jobs",
            Sight::FullLine => "states with a full line",
            Sight::SoundByHand => "sound boards made by hand",
            Sight::UnsoundByHand => "unsound boards made by hand",
            Sight::AllRows => "reports of 64 rows",
            Sight::NoRows => "reports of no rows",
            Sight::LongestPlant => "plants of 16,384 bytes",
            Sight::LongestOffer => "offers of 16,384 bytes",
            Sight::LargestPlant => "accepted plans of a plant with 128 actions",
            Sight::LateAction => "accepted plans with an action from 64 on",
            Sight::EveryResource => "accepted plans of the resource that the fewest use",
            Sight::FourResources => "accepted plans that use more than three resources",
            Sight::HighBits => "batches that differ in high bits alone",
            Sight::SeveralFlaws => "unsound boards made of a sound one by several changes",
            Sight::RandomWords => "boards made by hand of random words",
            Sight::CellOff => "sound boards of up to 16 points with one cell off by one",
            Sight::CellOffOfMany => "sound boards of more points with one cell off by one",
            Sight::UnsoundTable => "tables of unsound boards",
            Sight::UnsoundState => "states of unsound boards",
            Sight::OverfullState => "states of boards with a count past its room",
            Sight::MoreRoom => "reports with more room than rows",
            Sight::JustRoom => "reports with just as much room as rows",
            Sight::OneShort => "reports with room for one row less",
            Sight::NoRoom => "reports of rows with no room",
            Sight::HundredsRetired => "boards from which 200 jobs retired",
            Sight::Due(sight) => sight.name(),
        }
    }

    /// All that an answer shows.
    pub fn all_of(answer: &Answer) -> Vec<Sight> {
        let mut sights = Vec::new();
        match answer {
            Answer::List(_) | Answer::Ruling(_) => {}
            Answer::Part([]) => sights.push(Sight::EmptyPart),
            Answer::Part(_) => sights.push(Sight::FilledPart),
            Answer::Written(file) => {
                sights.extend((file.len() == MOST_FILE).then_some(Sight::LargestFile));
            }
            Answer::Rows(rows) => match rows.len() {
                0 => sights.push(Sight::NoRows),
                MOST_POINTS => sights.push(Sight::AllRows),
                _ => {}
            },
            Answer::Table(board) => {
                sights.push(Sight::Table);
                sights.extend((board.live() == SIDE).then_some(Sight::AllPoints));
            }
            Answer::State(board) => {
                let all_jobs = board.jobs_in_use().len() == MOST_JOBS;
                let mut lines = board.lines.iter();
                let full_line = lines.any(|line| line.in_use().len() == MOST_USES);
                sights.push(Sight::State);
                sights.extend(all_jobs.then_some(Sight::AllJobs));
                sights.extend(full_line.then_some(Sight::FullLine));
            }
        }
        sights
    }
}
