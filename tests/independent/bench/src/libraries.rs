//! The libraries whose calls are timed: this tree's, and another commit's beside it where ./bench was
//! told of one.

#[path = "../../c_calls.rs"]
#[macro_use]
mod c_calls;

use crate::forms::Call;
pub use c_calls::SfRow;
use independent::board;

type FactCheck = unsafe extern "C" fn(*const u8, usize, *const u8, usize) -> u32;
#[rustfmt::skip]
type WritePlant = unsafe extern "C" fn(
    *const u32, usize, *mut u8, usize, *mut u32, usize,
) -> u32;
type Fresh = unsafe extern "C" fn(*mut u32, usize, u32, u32) -> u32;
#[rustfmt::skip]
type Plan = unsafe extern "C" fn(
    *mut u32, usize, *const u8, usize, *const u8, usize, *mut u32, usize,
) -> u32;
type ToNumber = unsafe extern "C" fn(*mut u32, usize, u32) -> u32;
type Retire = unsafe extern "C" fn(*mut u32, usize) -> u32;
type Report = unsafe extern "C" fn(*const u32, usize, *mut SfRow, usize) -> u32;

/// The calls of a library; those that it lacks, or that its header declares otherwise, are None.
pub struct Calls {
    pub fact_check: Option<FactCheck>,
    pub write_plant: Option<WritePlant>,
    pub fresh: Option<Fresh>,
    pub plan: Option<Plan>,
    pub send: Option<ToNumber>,
    pub clock: Option<ToNumber>,
    pub retire: Option<Retire>,
    pub report: Option<Report>,
}

impl Calls {
    fn has(&self, call: &Call) -> bool {
        match call {
            Call::Plan { .. } => self.plan.is_some(),
            Call::Send { .. } => self.send.is_some(),
            Call::Clock { .. } => self.clock.is_some(),
            Call::Retire => self.retire.is_some(),
            Call::Report => self.report.is_some(),
        }
    }

    /// Whether a board can be led to by the calls before this one, and the call made on it.
    pub fn have_all(&self, before: &[Call], call: &Call) -> bool {
        self.fresh.is_some() && before.iter().chain([call]).all(|call| self.has(call))
    }
}

/// The due time in an offer's header, its last word.
const DUE: std::ops::Range<usize> = 24..28;

pub trait Library: Clone {
    const CALLS: Calls;
    const BOARD_WORDS: usize;
    /// Whether offers have due times.
    const HAS_DUE: bool;

    /// Whether the call can be made: a due time only where offers have one.
    fn takes(call: &Call) -> bool {
        match call {
            Call::Plan { offer, .. } => Self::HAS_DUE || offer[DUE] == [0; 4],
            _ => true,
        }
    }

    /// The call as the library takes it.
    fn spelled(call: &Call) -> Call {
        let mut call = call.clone();
        if let (false, Call::Plan { offer, .. }) = (Self::HAS_DUE, &mut call) {
            offer.drain(DUE);
        }
        call
    }
}

/// This tree's library, which include/snipefeather.h declares.
#[derive(Clone)]
pub struct ThisTree;

impl Library for ThisTree {
    const CALLS: Calls = Calls {
        fact_check: Some(c_calls::sf_fact_check),
        write_plant: Some(c_calls::sf_write_plant),
        fresh: Some(c_calls::sf_fresh),
        plan: Some(c_calls::sf_plan),
        send: Some(c_calls::sf_send),
        clock: Some(c_calls::sf_clock),
        retire: Some(c_calls::sf_retire),
        report: Some(c_calls::sf_report),
    };
    const BOARD_WORDS: usize = board::BOARD_WORDS;
    const HAS_DUE: bool = true;
}

/// Another commit's library, whose calls scripts/earlier renames.
#[derive(Clone)]
pub struct OtherCommit;

mod renamed {
    use super::SfRow;
    c_calls!("earlier_");
}

/// A call of the other commit, where build.rs was told that it is declared alike.
macro_rules! alike {
    ($call:ident) => {
        match option_env!(concat!("ALIKE_", stringify!($call))) {
            Some(_) => Some(renamed::$call),
            None => None,
        }
    };
}

impl Library for OtherCommit {
    const CALLS: Calls = Calls {
        fact_check: alike!(sf_fact_check),
        write_plant: alike!(sf_write_plant),
        fresh: alike!(sf_fresh),
        plan: alike!(sf_plan),
        send: alike!(sf_send),
        clock: alike!(sf_clock),
        retire: alike!(sf_retire),
        report: alike!(sf_report),
    };
    const BOARD_WORDS: usize = match option_env!("EARLIER_BOARD_WORDS") {
        Some(text) => number(text),
        None => 0,
    };
    const HAS_DUE: bool = option_env!("EARLIER_HAS_DUE").is_some();
}

// A board of the other commit is held in the words of ours.
const _: () = assert!(OtherCommit::BOARD_WORDS <= board::BOARD_WORDS);

/// A number in decimal digits.
const fn number(text: &str) -> usize {
    let (digits, mut value, mut k) = (text.as_bytes(), 0, 0);
    while k < digits.len() {
        value = 10 * value + (digits[k] - b'0') as usize;
        k += 1;
    }
    value
}

/// Whether another commit's library is linked.
pub const HAS_OTHER: bool =
    OtherCommit::CALLS.fresh.is_some() || OtherCommit::CALLS.fact_check.is_some();
