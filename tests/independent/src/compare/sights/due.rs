//! What a log can show of due times.

#[derive(Clone, Copy, Debug, PartialEq, Eq, PartialOrd, Ord)]
pub enum DueSight {
    /// An accepted plan whose due time leaves all timetables, and one whose due time doesn't.
    Idle,
    Binding,
    /// An accepted plan due just when the job can end, and one due at the horizon.
    JustInTime,
    AtHorizon,
    /// A plan due at 1 ms that was tried on the table.
    AtOne,
    /// A plan refused by 17 for its due time alone, and one that a millisecond more would do for.
    TooSoon,
    OneTooSoon,
    /// A plan refused for its due time alone, then accepted with other places.
    OtherPlace,
    /// A plan refused by 23 with the least such due time, and with the largest.
    OnePast,
    FarPast,
    /// A plan due past the horizon with a fact both ways, which is 10.
    PastBothWays,
    /// A plan refused by 23 whose facts fail too, by 11, 12 and 13.
    PastUndone,
    PastClash,
    PastLacking,
    /// A fact check of an offer due past the horizon that passes, and one that is 11, 12 or 13.
    FactPassed,
    FactFailed,
    /// An offer that ends within the due time, which is 7.
    CutWithin,
    /// A sound board made by hand with a due time, with one at the horizon, with one that its table
    /// doesn't keep, and with one past the horizon in a place that isn't in use.
    ByHand,
    ByHandAtHorizon,
    ByHandNotKept,
    ByHandNotInUse,
    /// A board made by hand that would be sound but for a due time, the least such and the largest.
    ByHandOnePast,
    ByHandFarPast,
    /// Two tables shown in a row, of sound boards that differ in one due time alone: equal tables,
    /// and others.
    EqualTables,
    OtherTables,
}

impl DueSight {
    pub fn name(self) -> &'static str {
        match self {
            DueSight::Idle => "accepted plans whose due time doesn't bind",
            DueSight::Binding => "accepted plans whose due time binds",
            DueSight::JustInTime => "accepted plans due just when the job can end",
            DueSight::AtHorizon => "accepted plans due at the horizon",
            DueSight::AtOne => "plans due at 1 ms, tried on the table",
            DueSight::TooSoon => "plans refused for their due time alone",
            DueSight::OneTooSoon => "plans due a millisecond too soon",
            DueSight::OtherPlace => "plans refused for their due time, accepted at other places",
            DueSight::OnePast => "plans due a millisecond past the horizon",
            DueSight::FarPast => "plans due at 4,294,967,295",
            DueSight::PastBothWays => "plans due past the horizon with a fact both ways",
            DueSight::PastUndone => "plans due past the horizon that would be 11",
            DueSight::PastClash => "plans due past the horizon that would be 12",
            DueSight::PastLacking => "plans due past the horizon that would be 13",
            DueSight::FactPassed => "passed fact checks of offers due past the horizon",
            DueSight::FactFailed => "failed fact checks of offers due past the horizon",
            DueSight::CutWithin => "offers of 24 to 27 bytes",
            DueSight::ByHand => "sound boards made by hand with a due time",
            DueSight::ByHandAtHorizon => "sound boards made by hand with a due time at the horizon",
            DueSight::ByHandNotKept => {
                "sound boards made by hand with a due time that the table doesn't keep"
            }
            DueSight::ByHandNotInUse => {
                "sound boards made by hand with a due time past the horizon that isn't in use"
            }
            DueSight::ByHandOnePast => {
                "boards unsound by a due time a millisecond past the horizon"
            }
            DueSight::ByHandFarPast => "boards unsound by a due time of 4,294,967,295",
            DueSight::EqualTables => "equal tables of boards that differ in a due time alone",
            DueSight::OtherTables => "other tables of boards that differ in a due time alone",
        }
    }
}
