mod dues;

use super::*;
use crate::board::{Board, BOARD_WORDS};
use crate::generate::draft::{plant_file, proving_offer, proving_plant};
use crate::write::Fields;

const LOG: &str = "# a comment\nlist a\n\nplant 00\ncheck\npart 3\nfact -\n";

fn told(log: &str, answers: &str) -> Vec<String> {
    compare(log.as_bytes(), answers.as_bytes()).unwrap().told
}

#[test]
fn equal_answers_make_no_difference() {
    let comparison = compare(LOG.as_bytes(), "list a\n= 1\n= 0 -\n= 1\n".as_bytes()).unwrap();
    assert_eq!(comparison.differences, 0);
    assert_eq!(comparison.calls(), 3);
}

#[test]
fn a_wrong_missing_or_surplus_answer_is_told() {
    let cases = [
        ("list b\n= 1\n= 0 -\n= 1\n", "line 2: list a"),
        ("list a\n= 2\n= 0 -\n= 1\n", "line 5: check"),
        ("list a\n= 1\n= 0 00\n= 1\n", "line 6: part 3"),
        ("list a\n= 1\n= 0 -\n= 1 0\n", "line 7: fact -"),
        ("list a\n= 1\n= 0 -\n", "the answer is missing"),
        ("list a\n= 1\n= 0 -\n= 1\n\n", "a surplus answer"),
    ];
    for (answers, text) in cases {
        let told = told(LOG, answers);
        assert_eq!(told.len(), 1, "{told:?}");
        assert!(told[0].contains(text), "{told:?}");
    }
}

#[test]
fn answers_of_more_lines_are_compared_whole() {
    let log = "fresh 9 1\ntable\nstate\nclock 10\n";
    let right = "= 0\ntable 1\nt 0\nstate 0 0\n= 19\n";
    assert!(told(log, right).is_empty());
    let cases = [
        ("= 0\ntable 1\nt 1\nstate 0 0\n= 19\n", "got      t 1"),
        ("= 0\ntable 1\nstate 0 0\n= 19\n", "expected t 0"),
        ("= 0\ntable 1\nt 0\nt 0\nstate 0 0\n= 19\n", "got      t 0"),
        (
            "= 0\ntable 1\nt 0\nstate 0 0\nj 2 0 0 9\n= 19\n",
            "j 2 0 0 9",
        ),
    ];
    for (answers, text) in cases {
        let told = told(log, answers);
        assert_eq!(told.len(), 1, "{told:?}");
        assert!(told[0].contains(text), "{told:?}");
    }
}

#[test]
fn a_poor_log_is_told() {
    let comparison = compare("".as_bytes(), "".as_bytes()).unwrap();
    assert_eq!(comparison.differences, 0);
    for kind in [Kind::Read, Kind::Board, Kind::Retire] {
        assert!(!comparison.faults(kind).is_empty());
    }
}

/// The comparison of a log with the right answers.
fn compared(items: &[Item]) -> Comparison {
    let mut session: Session = Session::default();
    let (mut log, mut answers) = (String::new(), String::new());
    for item in items {
        log += &format!("{item}\n");
        if let Some(answer) = session.answer(item) {
            answers += &format!("{answer}\n");
        }
    }
    compare(log.as_bytes(), answers.as_bytes()).unwrap()
}

#[test]
fn a_written_file_is_compared_whole() {
    let log = "write 44 1 0 0 0 0 1 1 0\nwrite 43 1 0 0 0 0 1 1 0\nwrite 0 1 0 0 0 0 1 1 256 0 0 1 0 0 1 0 0 1 0 0 1\n";
    let file =
        "00000000000000000000000000000000010000000100000000000000000000001c00000001000000504c4e54";
    let right = format!("= 0 44 {file}\n= 22\n= 3 0\n");
    assert!(told(log, &right).is_empty());
    let cases = [
        (right.replace("= 0 44", "= 0 43"), "line 1"),
        (right.replace("4c4e54", "4c4e55"), "line 1"),
        (right.replace("= 22", "= 22 0"), "line 2"),
        (right.replace("= 3 0", "= 22"), "line 3"),
    ];
    for (answers, text) in cases {
        let told = told(log, &answers);
        assert_eq!(told.len(), 1, "{told:?}");
        assert!(told[0].contains(text), "{told:?}");
    }
}

#[test]
fn the_room_of_a_written_file_is_seen() {
    let actions: Vec<Fields> = proving_plant().iter().map(Fields::from).collect();
    let mut bad = actions.clone();
    bad[1].n = 257;
    let write = |room| Item::Write(room, actions.clone());
    let file = Item::Plant(plant_file(&proving_plant()));
    let comparison = compared(&[
        write(120),
        file.clone(),
        write(119),
        file,
        write(121),
        write(0),
        Item::Write(0, bad),
    ]);
    assert_eq!(comparison.differences, 0);
    assert_eq!(comparison.calls(), 5);
    for (sight, times) in [
        (Sight::WrittenPlant, 1),
        (Sight::FileJustRoom, 1),
        (Sight::FileOneShort, 1),
        (Sight::FileMoreRoom, 1),
        (Sight::FileNoRoom, 1),
        (Sight::RefusedWithoutRoom, 1),
        (Sight::LowByte, 1),
        (Sight::LargestFile, 0),
    ] {
        assert_eq!(comparison.seen(sight), times, "{sight:?}");
    }
}

#[test]
fn what_a_board_made_by_hand_is_like_is_seen() {
    let base = Board {
        horizon: 1_000,
        ..Board::default()
    };
    let changed = |change: fn(&mut Board)| {
        let mut board = base.clone();
        board.cells[0][0] = 100_000_000;
        change(&mut board);
        Item::Board(board)
    };
    let comparison = compared(&[
        changed(|_| {}),
        changed(|board| board.cells[0][0] += 1),
        changed(|board| (board.clock, board.lines[2].count) = (2_000, 33)),
        Item::Table,
        Item::State,
        changed(|board| board.job_count = 17),
        Item::Board(Board::from_words(&[u32::MAX; BOARD_WORDS])),
        Item::Table,
    ]);
    assert_eq!(comparison.differences, 0);
    for (sight, times) in [
        (Sight::CellOff, 1),
        (Sight::CellOffOfMany, 0),
        (Sight::SeveralFlaws, 1),
        (Sight::RandomWords, 1),
        (Sight::UnsoundTable, 2),
        (Sight::UnsoundState, 1),
        (Sight::OverfullState, 1),
    ] {
        assert_eq!(comparison.seen(sight), times, "{sight:?}");
    }
}

#[test]
fn what_an_accepted_plan_uses_and_the_room_of_a_report_are_seen() {
    let [mut first, mut second] = [proving_offer(), proving_offer()];
    (first.batch, second.batch) = (1, 0x101);
    second.steps[0].places[0] = 1;
    let comparison = compared(&[
        Item::Plant(plant_file(&proving_plant())),
        Item::Fresh(1_000, 5),
        Item::Plan(first.bytes()),
        Item::Report(3),
        Item::Report(2),
        Item::Report(0),
        Item::Report(64),
        Item::Plan(second.bytes()),
        Item::Plan(second.bytes()[1..].to_vec()),
    ]);
    assert_eq!(comparison.differences, 0);
    for (sight, times) in [
        (Sight::JustRoom, 1),
        (Sight::OneShort, 1),
        (Sight::NoRoom, 1),
        (Sight::MoreRoom, 1),
        (Sight::HighBits, 1),
        (Sight::EveryResource, 0),
        (Sight::FourResources, 0),
        (Sight::LargestPlant, 0),
    ] {
        assert_eq!(comparison.seen(sight), times, "{sight:?}");
    }
}
