//! All forms in Rust answer the same lists of calls with the same rulings and the same windows; scratch
//! comes to the same table as well, which windows alone don't have.

use crate::forms::{Calls, Incremental};
use crate::scratch::Scratch;
use crate::windows::Windows;
use independent::board::{Row, BOARD_WORDS, MOST_POINTS, SIDE, ZERO_GAP};
use independent::facts::Facts;
use independent::generate::draft::{plant_file, ActionDraft, OfferDraft};
use independent::generate::generate;
use independent::kind::Kind;
use independent::log::{parse, Item};
use independent::{Refusal, Ruling};

/// The three forms, where a fresh board was made.
struct Forms {
    incremental: Incremental,
    windows: Windows,
    scratch: Scratch,
}

fn fresh(horizon: u32, lead: u32) -> Result<Forms, Refusal> {
    Ok(Forms {
        incremental: Calls::fresh(horizon, lead)?,
        windows: Calls::fresh(horizon, lead)?,
        scratch: Calls::fresh(horizon, lead)?,
    })
}

/// Makes the call of a log and gives the ruling's number; items that are no such call are 0.
fn make(board: &mut impl Calls, plant: &[u8], item: &Item) -> u32 {
    let ruled = match item {
        Item::Plan(offer) => board.plan(plant, offer),
        Item::Send(place) => board.send(*place),
        Item::Clock(to) => board.clock(*to),
        Item::Retire => board.retire(),
        _ => Ok(()),
    };
    Ruling::from(ruled).number()
}

fn rows(board: &mut impl Calls) -> Vec<Row> {
    let mut rows = [Row::default(); MOST_POINTS];
    let count = board.report(&mut rows).expect("a sound board");
    rows[..count].to_vec()
}

impl Forms {
    /// The number that all forms give, which then agree on the windows of all points.
    fn make(&mut self, plant: &[u8], item: &Item) -> u32 {
        let number = make(&mut self.incremental, plant, item);
        assert_eq!(make(&mut self.windows, plant, item), number, "{item}");
        assert_eq!(make(&mut self.scratch, plant, item), number, "{item}");
        let expected = rows(&mut self.incremental);
        assert_eq!(rows(&mut self.windows), expected, "{item}");
        assert_eq!(rows(&mut self.scratch), expected, "{item}");
        let cells = &self.incremental.0[BOARD_WORDS - SIDE * SIDE..];
        assert!(self.scratch.cells().as_flattened() == cells, "{item}");
        number
    }
}

/// Logs of board calls, retire among them. Calls on a board made by hand are left out: windows alone
/// cannot take one, since it is a table.
#[test]
fn all_forms_give_the_same_rulings_and_windows() {
    let mut seen = [0; 24];
    for seed in 0..2 {
        let mut log = Vec::new();
        generate(seed, 24_000, Kind::Retire, &mut log).unwrap();
        let mut plant = Vec::new();
        let mut forms = None;
        for line in String::from_utf8(log).unwrap().lines() {
            match (parse(line).unwrap(), &mut forms) {
                (Some(Item::List(_) | Item::Board(_)), _) => forms = None,
                (Some(Item::Plant(file)), _) => plant = file,
                (Some(Item::Fresh(horizon, lead)), _) => forms = fresh(horizon, lead).ok(),
                (Some(item), Some(forms)) => seen[forms.make(&plant, &item) as usize] += 1,
                _ => {}
            }
        }
    }
    for number in [0, 14, 15, 16, 17, 18, 19, 20, 21, 23] {
        assert!(seen[number] >= 10, "{number}: {seen:?}");
    }
}

/// A due time that binds narrows the windows of all points before it; a later one changes nothing.
#[test]
fn all_forms_keep_due_times() {
    let actions = [ActionDraft::new(Facts::NONE, Facts::NONE, &[]).lasting(10, 20)];
    let plant = plant_file(&actions);
    let offer = OfferDraft::new(Facts::NONE, Facts::NONE, &actions, &[0, 0]);
    for (due, number, latest) in [
        (0, 0, vec![980, 990, 1_000]),
        (1_000, 0, vec![980, 990, 1_000]),
        (30, 0, vec![10, 20, 30]),
        (25, 0, vec![5, 15, 25]),
        (24, 17, vec![]),
        (1_001, 23, vec![]),
    ] {
        let mut forms = fresh(1_000, 5).unwrap();
        let plan = Item::Plan(offer.clone().due(due).bytes());
        assert_eq!(forms.make(&plant, &plan), number, "{due}");
        let rows = rows(&mut forms.windows);
        let seen: Vec<u32> = rows.iter().map(|row| row.latest).collect();
        assert_eq!(seen, latest, "{due}");
    }
}

/// What windows alone can't tell: a step of 10 to 20 ms allows other timetables than one of 10 to 30,
/// and has the same windows.
#[test]
fn windows_do_not_tell_boards_apart() {
    let boards = [20, 30].map(|longest| {
        let actions = [ActionDraft::new(Facts::NONE, Facts::NONE, &[]).lasting(10, longest)];
        let offer = OfferDraft::new(Facts::NONE, Facts::NONE, &actions, &[0]);
        let mut forms = fresh(1_000, 5).unwrap();
        let plan = Item::Plan(offer.bytes());
        assert_eq!(forms.make(&plant_file(&actions), &plan), 0);
        (
            rows(&mut forms.windows),
            forms.scratch.cells()[1][2] - ZERO_GAP,
        )
    });
    let [(windows, gap), (other_windows, other_gap)] = boards;
    assert_eq!(windows, other_windows);
    assert_eq!([gap, other_gap], [20, 30]);
}
