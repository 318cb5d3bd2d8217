//! What products that are wrong about due times show.

use crate::case::{Case, Lending, Step};
use crate::product::{Lent, Product};
use crate::shortest::shortest;
use crate::stand_in::{Right, Wrong};
use crate::tally::Tally;
use crate::trial::Trial;
use independent::board::{HEADER_WORDS, JOB_WORDS};
use independent::fact_check;
use independent::generate::{self, rng::Rng};
use independent::kind::Kind;
use independent::log::Item;

/// Where among a job's words its due time is.
const DUE: usize = 3;

/// The lists that go through every due time.
fn cases() -> impl Iterator<Item = Case> {
    let mut rng = Rng::new(7);
    let lists = generate::lists(7, Kind::Retire).take(20);
    let dues = lists.filter(|(name, _)| name.starts_with("due-"));
    dues.map(move |(name, items)| {
        let steps = items.into_iter().map(|item| Step {
            item,
            lending: Lending::any(&mut rng),
        });
        Case {
            name,
            steps: steps.collect(),
            guard: 8,
            by_definition: true,
        }
    })
}

/// The numbers that the lists show, or the first difference.
fn numbers(product: &impl Product) -> Result<Tally, String> {
    let mut tally = Tally::default();
    for case in cases() {
        let trial = Trial::new(product, &case, &mut tally);
        if let Some(difference) = trial.run(&case.steps) {
            return Err(difference.told);
        }
    }
    Ok(tally)
}

/// Some list must show the fault, and be left with these items.
fn assert_seen(items: &[&str], spoil: fn(&Item, u32, Lent) -> u32) {
    let case = cases().find(|case| shortest(&Wrong(spoil), case).is_some());
    let case = case.expect("a list that shows it");
    let log = shortest(&Wrong(spoil), &case).expect("the same list");
    let left: Vec<&str> = log.steps.iter().map(|step| step.item.word()).collect();
    assert_eq!(left, items, "{log}");
}

/// The word with the due time of the job at a place.
fn due_at(place: usize) -> usize {
    HEADER_WORDS + JOB_WORDS * place + DUE
}

#[test]
fn a_right_product_shows_no_difference() {
    let tally = numbers(&Right).unwrap();
    for number in [0, 6, 10, 11, 12, 13, 17, 20, 23] {
        assert!(tally.numbers[number] > 5, "{number}");
    }
}

#[test]
fn a_due_time_that_is_lost_is_seen() {
    assert_seen(&["plant", "fresh", "plan"], |item, number, lent| {
        if let (Item::Plan(_), 0, Some(board)) = (item, number, lent.board) {
            let newest = board[HEADER_WORDS - 1] as usize - 1;
            board[due_at(newest)] = 0;
        }
        number
    });
}

#[test]
fn a_due_time_that_stays_behind_a_retired_job_is_seen() {
    let items = ["plant", "fresh", "plan", "send", "clock", "retire"];
    assert_seen(&items, |item, number, lent| {
        if let (Item::Retire, 0, Some(board)) = (item, number, lent.board) {
            board[due_at(0)] = 20;
        }
        number
    });
}

#[test]
fn a_due_time_past_the_horizon_that_is_not_23_is_seen() {
    let number_17 = |_: &Item, number, _: Lent| if number == 23 { 17 } else { number };
    assert_seen(&["plant", "fresh", "plan"], number_17);
    // 23 comes behind the facts.
    assert_seen(&["plant", "fresh", "plan"], |_, number, lent| {
        match (number, lent.plant, lent.offer) {
            (23, Some(plant), Some(offer)) => match fact_check(plant, offer).number() {
                0 => 23,
                facts => facts,
            },
            _ => number,
        }
    });
}

#[test]
fn a_fact_check_that_looks_at_the_due_time_is_seen() {
    assert_seen(&["plant", "fact"], |item, number, _| match item {
        Item::Fact(offer) if number == 0 && offer[24..28] == [0xFF; 4] => 23,
        _ => number,
    });
}

#[test]
fn a_due_time_that_is_not_in_use_must_not_be_looked_at() {
    assert_seen(&["board", "report"], |item, number, lent| {
        match (item, number, lent.board) {
            (Item::Report(_), 0, Some(board)) if board[due_at(15)] > board[0] => 6,
            _ => number,
        }
    });
}
