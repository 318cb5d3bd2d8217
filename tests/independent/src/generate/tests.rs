use super::*;
use crate::compare::compare;
use crate::facts::{fact_check, Facts};
use crate::log::{parse, MOST_BYTES};
use crate::replay::Session;
use crate::ruling::Ruling;
use crate::write::Fields;
use world::World;

const KINDS: [Kind; 3] = [Kind::Read, Kind::Board, Kind::Retire];

fn log(seed: u64, calls: u64, kind: Kind) -> String {
    let mut bytes = Vec::new();
    generate(seed, calls, kind, &mut bytes).unwrap();
    String::from_utf8(bytes).unwrap()
}

#[test]
fn a_seed_always_gives_the_same_log() {
    for kind in KINDS {
        let once = log(5, 26_000, kind);
        assert!(once == log(5, 26_000, kind));
        assert!(once != log(6, 26_000, kind));
    }
}

#[test]
fn a_log_is_well_formed_and_has_as_many_calls_as_asked() {
    for kind in KINDS {
        let mut calls = 0;
        let mut retires = false;
        for item in log(1, 40_000, kind)
            .lines()
            .map(|line| parse(line).unwrap())
        {
            calls += usize::from(item.as_ref().is_some_and(Item::is_call));
            retires |= item == Some(Item::Retire);
            if let Some(Item::Plant(file)) = item {
                assert!(file.len() <= MOST_BYTES);
            }
        }
        let most = if kind == Kind::Read { 40_000 } else { 40_500 };
        assert!((40_000..=most).contains(&calls), "{calls}");
        assert_eq!(retires, kind == Kind::Retire);
    }
}

#[test]
fn a_log_shows_all_that_a_comparison_wants() {
    for kind in KINDS {
        let log = log(2, 70_000, kind);
        let mut session: Session = Session::default();
        let mut answers = String::new();
        for line in log.lines() {
            let item = parse(line).unwrap();
            if let Some(answer) = item.as_ref().and_then(|item| session.answer(item)) {
                answers += &format!("{answer}\n");
            }
        }
        let comparison = compare(log.as_bytes(), answers.as_bytes()).unwrap();
        assert_eq!(comparison.faults(kind), Vec::<String>::new());
    }
}

#[test]
fn a_list_of_board_calls_ends_with_table_and_state() {
    let log = log(3, 20_000, Kind::Board);
    let mut lists = log.split("\nlist ").skip(1);
    assert!(lists.all(|list| list.trim_end().ends_with("\ntable\nstate")));
}

#[test]
fn an_offer_of_one_action_alone_passes() {
    let mut rng = Rng::new(9);
    let world = World::grow(&mut rng, 128, u32::MAX);
    let file = draft::plant_file(&world.actions);
    for (number, action) in (0..).zip(&world.actions) {
        let offer = draft::OfferDraft::alone(number, &Fields::from(action));
        assert_eq!(fact_check(&file, &offer.bytes()), Ruling::Accepted);
    }
}

/// What a writer is likeliest to get wrong, with its answer, is in every log of this kind.
#[test]
fn a_log_has_the_likely_slips_of_a_writer() {
    let log = log(8, 40_000, Kind::Read);
    let [a0, a1, a2] = ["1 0 2 1 10 20 1 0 0 10", "2 0 4 2 5 5", "8 0 0 0 1 1 0"];
    let zeros = "0 0 0 0 0 0 0 0 0 0 0 0";
    let slips = [
        (format!("write 0 2 {a0} {a1} 256 {zeros}"), "= 3 1"),
        (format!("write 119 3 {a0} 2 2 4 2 5 5 0 {a2}"), "= 4 1"),
        (format!("write 119 3 {a0} {a1} 0 {a2}"), "= 22"),
    ];
    let mut session: Session = Session::default();
    for (line, answer) in slips {
        assert!(log.lines().any(|other| other == line), "{line}");
        let item = parse(&line).unwrap().unwrap();
        let given = session.answer(&item).map(|given| given.to_string());
        assert_eq!(given.as_deref(), Some(answer), "{line}");
    }
    // 4 of an action comes before 3 of the next.
    let before = log.lines().filter_map(|line| parse(line).unwrap());
    let is_slip = |item: &Item| match item {
        Item::Write(_, actions) => {
            matches!(&actions[..], [a, b, ..] if a.shortest == 0 && a.n <= 4 && b.n == 5)
        }
        _ => false,
    };
    let slips: Vec<Item> = before.filter(is_slip).collect();
    assert!(!slips.is_empty());
    for slip in slips {
        let given = session.answer(&slip).map(|given| given.to_string());
        assert_eq!(given.as_deref(), Some("= 4 0"));
    }
}

#[test]
fn offers_built_to_pass_do_pass() {
    let mut rng = Rng::new(3);
    for facts in [1, 0x8000_0001, 0xF0, u32::MAX] {
        for count in [1, 2, 5, 128] {
            let world = World::grow(&mut rng, count, facts);
            let file = draft::plant_file(&world.actions);
            for _ in 0..50 {
                let offer = world.passing_offer(&mut rng).bytes();
                assert_eq!(fact_check(&file, &offer), Ruling::Accepted);
            }
        }
    }
}

/// What a board is likeliest to get wrong about due times, with its answer, is in every log of these
/// kinds.
#[test]
fn a_log_has_the_likely_slips_of_due_times() {
    let plant = draft::proving_plant();
    let job = draft::proving_offer();
    let offer = |goal, chain: &[usize]| draft::OfferDraft::new(job.known, goal, &plant, chain);
    let mut both_ways = job.clone();
    both_ways.goal.negative = both_ways.goal.positive;
    let past = job.clone().due(1_001).bytes();
    let slips = [
        (Item::Plan(job.clone().due(20).bytes()), "= 0"),
        (Item::Plan(job.clone().due(19).bytes()), "= 17"),
        (Item::Plan(past.clone()), "= 23"),
        (Item::Fact(past), "= 0"),
        (Item::Plan(both_ways.due(1_001).bytes()), "= 10"),
        (
            Item::Plan(offer(job.goal, &[1, 0]).due(1_001).bytes()),
            "= 23",
        ),
        (
            Item::Plan(offer(Facts::new(5, 0), &[0, 1]).due(1_001).bytes()),
            "= 23",
        ),
    ];
    for kind in [Kind::Board, Kind::Retire] {
        let log = log(8, 2_000, kind);
        for (item, answer) in &slips {
            let line = item.to_string();
            assert!(log.lines().any(|other| other == line), "{line}");
            let mut session: Session = Session::default();
            session.answer(&Item::Plant(draft::plant_file(&plant)));
            session.answer(&Item::Fresh(1_000, 5));
            let given = session.answer(item).map(|given| given.to_string());
            assert_eq!(given.as_deref(), Some(*answer), "{line}");
        }
    }
}
