use super::*;
use crate::facts::Facts;
use crate::write::Fields;

/// An action with this n and as many allocations as are listed, all of its numbers large.
fn action(n: u32) -> Fields {
    let large = Fields {
        needs: Facts::new(u32::MAX, 0),
        makes: Facts::new(0, u32::MAX),
        shortest: u32::MAX,
        longest: 1,
        n,
        slots: [[u32::MAX, 7, 0]; 4],
    };
    large.as_listed()
}

#[test]
fn an_item_reads_back_as_written() {
    let items = [
        Item::List("a-1".to_string()),
        Item::Plant(vec![]),
        Item::Plant((0..=255).collect()),
        Item::Check,
        Item::Part(u32::MAX),
        Item::Write(0, vec![]),
        Item::Write(16_384, [0, 1, 4, 5, 256, u32::MAX].map(action).to_vec()),
        Item::Write(1, vec![action(4); 200]),
        Item::Fact(vec![0x0f, 0xf0]),
        Item::Fresh(1, u32::MAX),
        Item::Plan(vec![]),
        Item::Send(16),
        Item::Clock(100_000_001),
        Item::Retire,
        Item::Report(0),
        Item::Report(64),
        Item::Board(Board::default()),
        Item::Board(Board::from_words(&[0x0102_0304; BOARD_WORDS])),
        Item::Table,
        Item::State,
    ];
    for item in items {
        assert_eq!(parse(&item.to_string()), Ok(Some(item)));
    }
}

#[test]
fn a_write_lists_four_allocations_at_most() {
    let line = "write 120 2 1 0 2 1 10 20 1 0 0 10 8 0 0 0 1 1 0";
    let parsed = parse(line).unwrap().unwrap();
    assert_eq!(parsed.to_string(), line);
    let numbers = |n| {
        Item::Write(0, vec![action(n)])
            .to_string()
            .split(' ')
            .count()
            - 3
    };
    assert_eq!([0, 1, 4, 5, 256].map(numbers), [7, 10, 19, 19, 19]);
    // The longest line there is, which a log still takes.
    assert!(
        Item::Write(16_384, vec![action(u32::MAX); 200])
            .to_string()
            .len()
            < 65_535
    );
}

#[test]
fn comments_and_empty_lines_are_passed_over() {
    assert_eq!(parse(""), Ok(None));
    assert_eq!(parse("# check"), Ok(None));
}

#[test]
fn other_lines_end_the_replay() {
    let too_long =
        [Item::Plant, Item::Fact, Item::Plan].map(|line| line(vec![0; MOST_BYTES + 1]).to_string());
    let too_many = Item::Write(0, vec![action(0); 201]).to_string();
    let board = Item::Board(Board::default()).to_string();
    let bad = [
        "fresh 1",
        "fresh 1 4294967296",
        "send",
        "clock -1",
        "retire 0",
        "report",
        "report 65",
        "board -",
        &board[..board.len() - 2],
        &board[..board.len() - 8],
        &(board.clone() + "00"),
        &(board.clone() + "00000000"),
        "write",
        "write 0",
        "write 16385 0",
        "write 0 0 ",
        "write 0 0 1",
        "write 0 1",
        "write 0 1 1 0 2 1 10 20",
        "write 0 1 1 0 2 1 10 20 1 0 0",
        "write 0 1 1 0 2 1 10 20 0 0",
        "write 0 2 1 0 2 1 10 20 0",
        "write 0 1 1 0 2 1 10 20 4294967296",
        "write 0 1 1 0 2 1 10 -20 0",
        "write 0 1  1 0 2 1 10 20 0",
        &too_many,
        "table 1",
        "state ",
        "check ",
        " check",
        "Check",
        "check 1",
        "list",
        "list ",
        "list a b",
        "part",
        "part ",
        "part +1",
        "part -1",
        "part 4294967296",
        "plant",
        "plant ",
        "plant 0",
        "plant 0A",
        "plant 00 00",
        "plant --",
        "fact zz",
        &too_long[0],
        &too_long[1],
        &too_long[2],
    ];
    for line in bad {
        assert!(parse(line).is_err(), "{line}");
    }
}
