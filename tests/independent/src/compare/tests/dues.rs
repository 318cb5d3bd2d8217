//! What is seen of due times.

use super::*;
use crate::compare::sights::DueSight;
use crate::facts::Facts;
use crate::generate::draft::OfferDraft;

/// How often each was seen, of those that were.
fn due_sights(items: &[Item]) -> Vec<(DueSight, usize)> {
    let comparison = compared(items);
    assert_eq!(comparison.differences, 0);
    let due = |(sight, times): (&Sight, &usize)| match sight {
        Sight::Due(sight) => Some((*sight, *times)),
        _ => None,
    };
    comparison.sights.iter().filter_map(due).collect()
}

/// Document 01's plant and fresh board, then these.
fn on_a_fresh_board(items: &[Item]) -> Vec<Item> {
    let plant = Item::Plant(plant_file(&proving_plant()));
    [&[plant, Item::Fresh(1_000, 5)], items].concat()
}

/// A plan of job J with this due time and place.
fn due_job(due: u32, place: u32) -> Item {
    let mut offer = proving_offer().due(due);
    offer.steps[0].places[0] = place;
    Item::Plan(offer.bytes())
}

#[test]
fn the_due_times_of_plans_are_seen() {
    let seen = |items: &[Item]| due_sights(&on_a_fresh_board(items));
    let idle = [(DueSight::Idle, 1), (DueSight::AtHorizon, 1)];
    assert_eq!(seen(&[due_job(0, 0)]), []);
    assert_eq!(seen(&[due_job(1_000, 0)]), idle);
    assert_eq!(seen(&[due_job(999, 0)]), [(DueSight::Binding, 1)]);
    let just = [(DueSight::Binding, 1), (DueSight::JustInTime, 1)];
    assert_eq!(seen(&[due_job(20, 0)]), just);
    let too_soon = [(DueSight::TooSoon, 1), (DueSight::OneTooSoon, 1)];
    assert_eq!(seen(&[due_job(19, 0)]), too_soon);
    let at_one = [(DueSight::AtOne, 1), (DueSight::TooSoon, 1)];
    assert_eq!(seen(&[due_job(1, 0)]), at_one);
    assert_eq!(seen(&[due_job(1_001, 0)]), [(DueSight::OnePast, 1)]);
    assert_eq!(seen(&[due_job(u32::MAX, 0)]), [(DueSight::FarPast, 1)]);
    // 15 whatever the due time.
    assert_eq!(seen(&[due_job(20, 1)]), []);
    let other_place = [due_job(0, 0), due_job(25, 1), due_job(25, 0)];
    let places = [
        (DueSight::Binding, 1),
        (DueSight::TooSoon, 1),
        (DueSight::OtherPlace, 1),
    ];
    assert_eq!(seen(&other_place), places);
}

#[test]
fn due_times_past_the_horizon_are_seen_with_facts_that_fail() {
    let job = proving_offer().due(1_500);
    let mut both_ways = job.clone();
    both_ways.goal.negative = 4;
    let with = |goal, chain: &[usize]| {
        let offer = OfferDraft::new(job.known, goal, &proving_plant(), chain);
        offer.due(1_500)
    };
    for (offer, plan, fact) in [
        (&job, None, Some(DueSight::FactPassed)),
        (&both_ways, Some(DueSight::PastBothWays), None),
        (
            &with(job.goal, &[1, 0]),
            Some(DueSight::PastLacking),
            Some(DueSight::FactFailed),
        ),
        (
            &with(Facts::new(5, 0), &[0, 1]),
            Some(DueSight::PastUndone),
            Some(DueSight::FactFailed),
        ),
        (
            &with(Facts::new(0, 8), &[2]),
            Some(DueSight::PastClash),
            Some(DueSight::FactFailed),
        ),
    ] {
        let bytes = offer.bytes();
        let items = [Item::Plan(bytes.clone()), Item::Fact(bytes)];
        let seen = due_sights(&on_a_fresh_board(&items));
        let wanted = plan.into_iter().chain(fact).map(|sight| (sight, 1));
        assert_eq!(seen, wanted.collect::<Vec<_>>());
    }
    let cut = |length| Item::Fact(job.bytes()[..length].to_vec());
    let seen = due_sights(&on_a_fresh_board(&[23, 24, 27, 28].map(cut)));
    assert_eq!(seen, [(DueSight::CutWithin, 2)]);
}

#[test]
fn the_due_times_of_boards_are_seen() {
    let mut session: Session = Session::default();
    for item in on_a_fresh_board(&[due_job(0, 0)]) {
        session.answer(&item);
    }
    let board = |slot: usize, due| {
        let mut board = session.reached();
        board.jobs[slot].due = due;
        Item::Board(board)
    };
    let seen = |item: Item| due_sights(&[item]);
    let by_hand = (DueSight::ByHand, 1);
    assert_eq!(seen(board(0, 0)), []);
    let not_kept = [by_hand, (DueSight::ByHandNotKept, 1)];
    assert_eq!(seen(board(0, 999)), not_kept);
    let at_horizon = [by_hand, (DueSight::ByHandAtHorizon, 1)];
    assert_eq!(seen(board(0, 1_000)), at_horizon);
    assert_eq!(seen(board(0, 1_001)), [(DueSight::ByHandOnePast, 1)]);
    assert_eq!(seen(board(0, u32::MAX)), [(DueSight::ByHandFarPast, 1)]);
    assert_eq!(seen(board(1, 1_001)), [(DueSight::ByHandNotInUse, 1)]);

    let pair = |one, other| {
        let mut items = on_a_fresh_board(&[due_job(one, 0), Item::Table]);
        items.extend([Item::Fresh(1_000, 5), due_job(other, 0), Item::Table]);
        let sights = due_sights(&items).into_iter().map(|(sight, _)| sight);
        let is_pair = |sight: &DueSight| *sight >= DueSight::EqualTables;
        sights.filter(is_pair).collect::<Vec<_>>()
    };
    assert_eq!(pair(0, 0), []);
    assert_eq!(pair(0, 1_000), [DueSight::EqualTables]);
    assert_eq!(pair(0, 999), [DueSight::OtherTables]);
}
