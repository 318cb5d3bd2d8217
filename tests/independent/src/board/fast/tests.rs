use super::*;
use crate::board::{Definition, State, Table};
use crate::generate::generate;
use crate::kind::Kind;
use crate::log::{parse, Item};
use crate::replay::{Answer, Session};
use crate::ruling::Ruling;

#[test]
fn it_answers_like_the_definition() {
    for seed in 0..2 {
        let mut log = Vec::new();
        generate(seed, 24_000, Kind::Retire, &mut log).unwrap();
        let mut definition = Session::<Definition>::default();
        let mut fast = Session::<Fast>::default();
        for line in String::from_utf8(log).unwrap().lines() {
            let Some(item) = parse(line).unwrap() else {
                continue;
            };
            let before = fast.board().board();
            let expected = definition.answer(&item).map(|answer| answer.to_string());
            let answer = fast.answer(&item);
            let refused = matches!(answer, Some(Answer::Ruling(Ruling::Refused(_))));
            let got = answer.map(|answer| answer.to_string());
            assert_eq!(got, expected, "{line}");
            if refused && !matches!(item, Item::Fresh(..)) {
                assert!(fast.board().board() == before, "{line}");
            }
        }
    }
}

#[test]
fn it_reaches_the_boards_of_the_definition() {
    let mut log = Vec::new();
    generate(9, 24_000, Kind::Retire, &mut log).unwrap();
    let mut definition = Session::<Definition>::default();
    let mut fast = Session::<Fast>::default();
    for (number, line) in String::from_utf8(log).unwrap().lines().enumerate() {
        if let Some(item) = parse(line).unwrap() {
            definition.answer(&item);
            fast.answer(&item);
            if number % 5 != 0 {
                continue;
            }
            let (expected, got) = (definition.board().board(), fast.board().board());
            assert_eq!(Table(&got).to_string(), Table(&expected).to_string());
            assert_eq!(State(&got).to_string(), State(&expected).to_string());
            assert_eq!(got.cells, expected.cells);
            assert_eq!((got.horizon, got.lead), (expected.horizon, expected.lead));
        }
    }
}

#[test]
fn words_of_another_length_are_6_and_stay() {
    let mut words = Fast::default().0.to_vec();
    fresh((&mut words[..]).try_into().unwrap(), 1_000, 5).unwrap();
    assert_eq!(clock(&mut words, 1), Ok(()));
    for length in [0, BOARD_WORDS - 1, BOARD_WORDS + 1] {
        let mut other = words.clone();
        other.resize(length, 0);
        let before = other.clone();
        assert_eq!(clock(&mut other, 2), Err(Refusal::Unsound));
        assert_eq!(send(&mut other, 0), Err(Refusal::Unsound));
        assert_eq!(other, before);
    }
}
