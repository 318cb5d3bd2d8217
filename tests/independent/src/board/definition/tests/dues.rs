//! Note 2: due times.

use super::*;
use crate::fact_check;
use std::collections::BTreeSet;

const PAST: u32 = 1_001;

impl Case {
    /// Job J with its place in the line and its due time.
    fn due_job(&mut self, place: u32, due: u32) -> Result<(), Refusal> {
        let mut offer = proving_offer().due(due);
        offer.steps[0].places[0] = place;
        self.plan(&offer)
    }

    fn windows(&self) -> [(i64, i64); 3] {
        [1, 2, 3].map(|point| self.window(point))
    }
}

/// A fresh board with job J, due then, on it.
fn with_job(due: u32) -> Case {
    let mut case = Case::fresh(1_000, 5);
    assert_eq!(case.due_job(0, due), Ok(()));
    case
}

#[test]
fn the_last_point_is_no_later_than_the_due_time() {
    assert_eq!(with_job(20).windows(), [(5, 5), (15, 15), (20, 20)]);
    assert_eq!(with_job(21).windows(), [(5, 6), (15, 16), (20, 21)]);
    let mut soon = Case::fresh(1_000, 5);
    for due in [1, 19] {
        assert_eq!(soon.due_job(0, due), Err(Refusal::NoTimetable));
    }
    assert_eq!(soon.0.board().job_count, 0);
}

#[test]
fn past_the_horizon_it_is_23() {
    let mut case = Case::fresh(1_000, 5);
    for due in [PAST, 100_000_001, u32::MAX] {
        assert_eq!(case.due_job(0, due), Err(Refusal::DuePastHorizon), "{due}");
    }
    assert_eq!(case.due_job(0, 1_000), Ok(()));
    let mut short = Case::fresh(20, 5);
    assert_eq!(short.due_job(0, 21), Err(Refusal::DuePastHorizon));
    assert_eq!(short.due_job(0, 20), Ok(()));
}

#[test]
fn it_comes_straight_after_10() {
    let plant = proving_plant();
    let mut case = Case::fresh(1_000, 5);
    let mut ruling = |offer: &OfferDraft| case.plan(&offer.clone().due(PAST));
    let past = Err(Refusal::DuePastHorizon);
    let mut both_ways = proving_offer();
    both_ways.goal.negative = 4;
    assert_eq!(ruling(&both_ways), Err(Refusal::Contradiction));
    let offer = |goal, chain: &[usize]| OfferDraft::new(Facts::new(1, 0), goal, &plant, chain);
    // 13, 11 and 12 but for the due time.
    assert_eq!(ruling(&offer(Facts::new(4, 0), &[1, 0])), past);
    assert_eq!(ruling(&offer(Facts::new(5, 0), &[0, 1])), past);
    assert_eq!(ruling(&offer(Facts::new(0, 8), &[2])), past);
    // 15 but for the due time.
    let mut far = proving_offer();
    far.steps[0].places[0] = 1;
    assert_eq!(ruling(&far), past);
    let mut left_over = proving_offer();
    left_over.left_over = vec![0];
    assert_eq!(ruling(&left_over), Err(Refusal::LeftOver));
    let mut unsound = Case(Definition::default());
    assert_eq!(unsound.due_job(0, PAST), Err(Refusal::Unsound));
}

#[test]
fn the_fact_check_does_not_test_it() {
    let plant = proving_plant();
    let file = plant_file(&plant);
    let job = proving_offer();
    let offer = |goal, chain: &[usize]| OfferDraft::new(job.known, goal, &plant, chain);
    for (offer, number) in [
        (job.clone(), 0),
        (offer(job.goal, &[1, 0]), 13),
        (offer(Facts::new(5, 0), &[0, 1]), 11),
        (offer(Facts::new(0, 8), &[2]), 12),
    ] {
        for due in [PAST, u32::MAX] {
            let ruling = fact_check(&file, &offer.clone().due(due).bytes());
            assert_eq!(ruling.number(), number);
        }
    }
}

#[test]
fn it_comes_before_14() {
    let mut full = Case::fresh(1_000, 5);
    for place in 0..16 {
        assert_eq!(full.job(place), Ok(()));
    }
    assert_eq!(full.due_job(16, PAST), Err(Refusal::DuePastHorizon));
    assert_eq!(full.due_job(16, 20), Err(Refusal::NoRoom));
}

#[test]
fn the_job_keeps_it() {
    let mut case = with_job(40);
    assert_eq!(case.due_job(1, 0), Ok(()));
    assert_eq!(case.due_job(2, 990), Ok(()));
    let dues = |case: &Case| case.0.board().jobs.map(|job| job.due)[..4].to_vec();
    assert_eq!(dues(&case), [40, 0, 990, 0]);
    assert_eq!((case.0.clock(15), case.0.send(0)), (Ok(()), Ok(())));
    assert_eq!(dues(&case), [40, 0, 990, 0]);
    assert_eq!((case.0.clock(40), case.0.retire()), (Ok(()), Ok(())));
    assert_eq!(dues(&case), [0, 990, 0, 0]);
}

#[test]
fn the_clock_keeps_to_it_until_the_job_is_sent() {
    let mut case = with_job(30);
    assert_eq!(case.0.clock(11), Err(Refusal::NoneAfterClock));
    assert_eq!((case.0.clock(10), case.window(1)), (Ok(()), (15, 15)));
    assert_eq!((case.0.send(0), case.0.clock(11)), (Ok(()), Ok(())));
}

/// The job that is due soon goes first, whichever of the two is older.
#[test]
fn it_decides_the_order_of_two_jobs() {
    let mut newer = with_job(0);
    assert_eq!(newer.due_job(1, 29), Err(Refusal::NoTimetable));
    assert_eq!(newer.due_job(0, 29), Ok(()));
    let mut older = with_job(29);
    assert_eq!(older.due_job(0, 0), Err(Refusal::NoTimetable));
    assert_eq!(older.due_job(1, 0), Ok(()));
    // A millisecond more does for both orders.
    for place in [0, 1] {
        assert_eq!(with_job(0).due_job(place, 30), Ok(()));
        assert_eq!(with_job(30).due_job(place, 0), Ok(()));
    }
}

/// On a board made by hand it is a number alone: the table says what is possible.
#[test]
fn a_board_made_by_hand_need_not_keep_it() {
    let mut board = with_job(0).0.board();
    board.jobs[0].due = 1;
    let mut case = Case(Definition::default());
    case.0.take(&board);
    assert_eq!(case.0.board(), board);
    assert_eq!(
        (case.0.clock(980), case.window(3)),
        (Ok(()), (1_000, 1_000))
    );
    assert_eq!(case.0.board().jobs[0].due, 1);
    board.jobs[0].due = PAST;
    case.0.take(&board);
    assert_eq!(case.0.clock(980), Err(Refusal::Unsound));
}

/// Every timetable of job J with this due time, by the rules themselves: lead 5, horizon 30.
fn timetables(due: i64) -> BTreeSet<[i64; 3]> {
    let times = || 0..=30;
    let starts = times().flat_map(|p0| times().map(move |p1| (p0, p1)));
    let all = starts.flat_map(|(p0, p1)| times().map(move |p2| [p0, p1, p2]));
    let kept = |[p0, p1, p2]: &[i64; 3]| {
        *p0 >= 5 && (10..=20).contains(&(p1 - p0)) && p2 - p1 == 5 && (due == 0 || *p2 <= due)
    };
    all.filter(kept).collect()
}

/// Two boards that differ in a due time alone have equal tables exactly when the same timetables are
/// possible on both.
#[test]
fn tables_are_equal_exactly_when_the_same_timetables_are_possible() {
    let dues = [0, 20, 21, 25, 29, 30];
    let boards = dues.map(|due| {
        let mut case = Case::fresh(30, 5);
        assert_eq!(case.due_job(0, due), Ok(()));
        (timetables(i64::from(due)), case.0.board().cells)
    });
    let mut equal = 0;
    for (timetables, cells) in &boards {
        for (other_timetables, other_cells) in &boards {
            assert_eq!(timetables == other_timetables, cells == other_cells);
            equal += usize::from(cells == other_cells);
        }
    }
    // Each with itself, and none with the horizon both ways.
    assert_eq!(equal, dues.len() + 2);
}

/// Sent at its earliest times, a job has one timetable: a due time that did bind no longer does.
#[test]
fn tables_become_equal_where_a_due_time_no_longer_binds() {
    let mut pair = [with_job(0), with_job(500)];
    let cells = |pair: &[Case; 2]| pair.each_ref().map(|case| case.0.board().cells);
    let [free, bound] = cells(&pair);
    assert!(free != bound);
    for case in &mut pair {
        assert_eq!(case.0.send(0), Ok(()));
    }
    let [free, bound] = cells(&pair);
    assert!(free == bound);
}
