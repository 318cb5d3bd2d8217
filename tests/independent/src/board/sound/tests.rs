use super::*;
use crate::board::{BoardCalls, Definition, Use};
use crate::facts::Facts;
use crate::generate::draft::{plant_file, proving_offer, proving_plant};

/// Two jobs J of the proving table, the older one sent: points 1 to 3 at 5, 15 and 20, points
/// 4 to 6 after them.
fn sound_board() -> Board {
    let mut board = Definition::default();
    let plant = plant_file(&proving_plant());
    let mut second = proving_offer();
    second.steps[0].places[0] = 1;
    board.fresh(1_000, 5).unwrap();
    board.plan(&plant, &proving_offer().bytes()).unwrap();
    board.plan(&plant, &second.bytes()).unwrap();
    board.send(0).unwrap();
    board.board()
}

fn with(change: impl Fn(&mut Board)) -> bool {
    let mut board = sound_board();
    change(&mut board);
    is_sound(&board)
}

#[test]
fn numbers_have_limits() {
    assert!(with(|_| {}));
    for (horizon, sound) in [
        (0, false),
        (999, false),
        (1_001, true),
        (100_000_001, false),
    ] {
        assert_eq!(with(|board| board.horizon = horizon), sound, "{horizon}");
    }
    assert!(with(|board| board.lead = 1_000_000));
    assert!(!with(|board| board.lead = 1_000_001));
    assert!(with(|board| board.clock = 1_000));
    assert!(!with(|board| board.clock = 1_001));
    for sent in [0, 2, u32::MAX] {
        assert_eq!(with(|board| board.jobs[0].sent = sent), sent == 0);
    }
    assert!(with(|board| board.jobs[0].batch = u32::MAX));
    for count in [0, 1, 3, 16, 17, u32::MAX] {
        assert!(!with(|board| board.job_count = count), "{count}");
    }
}

#[test]
fn due_times_are_within_the_horizon() {
    for job in [0, 1] {
        for (due, sound) in [(0, true), (1_000, true), (1_001, false), (u32::MAX, false)] {
            assert_eq!(with(|board| board.jobs[job].due = due), sound, "{due}");
        }
    }
    // The horizon decides, not the largest one.
    let with_horizon = |horizon| {
        with(|board| {
            board.horizon = horizon;
            board.jobs[1].due = 1_001;
        })
    };
    assert!(with_horizon(1_001) && !with_horizon(1_000));
}

#[test]
fn a_due_time_need_not_be_kept_by_the_table() {
    // The older job ends at 20, the newer one up to 1,000.
    assert!(with(|board| board.jobs[0].due = 19));
    assert!(with(|board| board.jobs[1].due = 1));
}

#[test]
fn jobs_have_2_to_9_points_and_all_of_the_live_ones() {
    for points in [[1, 5], [2, 3], [3, 2], [3, 4], [0, 6]] {
        let given = |board: &mut Board| {
            (board.jobs[0].points, board.jobs[1].points) = (points[0], points[1]);
        };
        assert!(!with(given), "{points:?}");
    }
    // The same points in other jobs.
    assert!(with(
        |board| (board.jobs[0].points, board.jobs[1].points) = (2, 4)
    ));
    assert!(!with(|board| (
        board.jobs[0].points,
        board.jobs[1].points
    ) = (4, 2)));
}

#[test]
fn lines_name_live_points() {
    let of_use = |one: Use| {
        with(|board| {
            board.lines[15].count = 32;
            board.lines[15].uses = [one; MOST_USES];
        })
    };
    let one = |point, offset, length| Use {
        point,
        offset,
        length,
    };
    assert!(of_use(one(1, 0, 1)));
    assert!(of_use(one(6, 1_000_000, 1_000_000)));
    assert!(!of_use(one(0, 0, 1)));
    assert!(!of_use(one(7, 0, 1)));
    assert!(!of_use(one(1, 1_000_001, 1)));
    assert!(!of_use(one(1, 0, 0)));
    assert!(!of_use(one(1, 0, 1_000_001)));
    assert!(!with(|board| board.lines[15].count = 33));
    assert!(!with(|board| board.lines[15].count = 1));
}

#[test]
fn sent_jobs_come_first_and_are_settled() {
    assert!(!with(|board| board.jobs[1].sent = 1));
    assert!(!with(
        |board| (board.jobs[0].sent, board.jobs[1].sent) = (0, 1)
    ));
}

#[test]
fn cells_are_a_closed_table() {
    for change in [1, u32::MAX] {
        for (row, column) in [
            (0, 0),
            (6, 6),
            (1, 0),
            (0, 1),
            (4, 5),
            (5, 4),
            (1, 4),
            (4, 1),
        ] {
            let changed = with(|board| {
                let cell = &mut board.cells[row][column];
                *cell = cell.wrapping_add(change);
            });
            assert!(!changed, "{row} {column}");
        }
    }
    for (row, column) in [(0, 7), (7, 0), (7, 7), (64, 64), (6, 64), (64, 6)] {
        for stored in [1, ZERO_GAP] {
            assert!(!with(|board| board.cells[row][column] = stored));
        }
    }
}

#[test]
fn a_closed_table_can_be_tighter_than_any_rule_made() {
    let mut board = Definition::default();
    let mut offer = proving_offer();
    offer.steps.truncate(1);
    offer.goal = Facts::NONE;
    board.fresh(1_000, 5).unwrap();
    board
        .plan(&plant_file(&proving_plant()), &offer.bytes())
        .unwrap();
    let mut board = board.board();
    for (longest, sound) in [(20, true), (19, true), (10, true), (9, false), (21, true)] {
        board.cells[1][2] = ZERO_GAP + longest;
        assert_eq!(is_sound(&board), sound, "{longest}");
    }
    // From 5 at the earliest to 1,000 at the latest.
    board.cells[1][2] = ZERO_GAP + 995;
    assert!(is_sound(&board));
    board.cells[1][2] = ZERO_GAP + 996;
    assert!(!is_sound(&board));
}

#[test]
fn places_not_in_use_are_not_looked_at() {
    assert!(with(|board| {
        board.jobs[2].points = 1;
        board.jobs[15].sent = 2;
        (board.jobs[2].due, board.jobs[15].due) = (1_001, u32::MAX);
        board.lines[0].uses[2].point = 77;
        board.lines[1].uses[0].length = u32::MAX;
    }));
}
