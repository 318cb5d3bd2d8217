mod dues;

use super::*;
use crate::facts::Facts;
use crate::generate::draft::{plant_file, proving_offer, proving_plant, OfferDraft};

/// A board of the proving table.
struct Case(Definition);

impl Case {
    fn fresh(horizon: u32, lead: u32) -> Self {
        let mut board = Definition::default();
        assert_eq!(board.fresh(horizon, lead), Ok(()));
        Case(board)
    }

    fn plan(&mut self, offer: &OfferDraft) -> Result<(), Refusal> {
        self.0.plan(&plant_file(&proving_plant()), &offer.bytes())
    }

    /// Job J with its place in the line.
    fn job(&mut self, place: u32) -> Result<(), Refusal> {
        let mut offer = proving_offer();
        offer.steps[0].places[0] = place;
        self.plan(&offer)
    }

    fn window(&self, point: usize) -> (i64, i64) {
        let board = self.0.board();
        (-board.gap(point, 0), board.gap(0, point))
    }
}

#[test]
fn the_proving_table_a_to_e() {
    let yes = |facts| Facts::new(facts, 0);
    let no = |facts| Facts::new(0, facts);
    let offer =
        |known, goal, chain: &[usize]| OfferDraft::new(known, goal, &proving_plant(), chain);
    let mut a = Case::fresh(1_000, 5);
    assert_eq!(a.job(0), Ok(()));
    assert_eq!(
        [1, 2, 3].map(|point| a.window(point)),
        [(5, 985), (15, 995), (20, 1_000)]
    );
    let mut other = Case::fresh(1_000, 5);
    let b = other.plan(&offer(yes(1), yes(4), &[1, 0]));
    assert_eq!(b, Err(Refusal::Lacking { fact: 1 }));
    let c = other.plan(&offer(yes(1), yes(5), &[0, 1]));
    assert_eq!(c, Err(Refusal::Undoes { step: 0 }));
    let d = other.plan(&offer(Facts::NONE, no(8), &[2]));
    assert_eq!(d, Err(Refusal::Clashes { step: 0 }));
    assert_eq!(other.plan(&offer(yes(1), no(1), &[0])), Ok(()));
}

#[test]
fn the_proving_table_f_to_i() {
    assert_eq!(Case::fresh(20, 5).job(0), Ok(()));
    assert_eq!(Case::fresh(19, 5).job(0), Err(Refusal::NoTimetable));
    let mut h = Case::fresh(1_000, 5);
    assert_eq!((h.job(0), h.job(1)), (Ok(()), Ok(())));
    assert_eq!((h.window(1), h.window(4).0), ((5, 975), 15));
    let mut i = Case::fresh(1_000, 5);
    assert_eq!((i.job(0), i.0.send(0)), (Ok(()), Ok(())));
    assert_eq!(i.job(0), Err(Refusal::NoTimetable));
}

#[test]
fn the_proving_table_k_and_l() {
    let mut k = Case::fresh(1_000, 5);
    assert_eq!(k.job(0), Ok(()));
    assert_eq!(k.0.clock(981), Err(Refusal::NoneAfterClock));
    assert_eq!(k.0.clock(980), Ok(()));
    assert_eq!(k.window(1), (985, 985));
    let mut l = Case::fresh(1_000, 5);
    assert_eq!((l.job(0), l.0.send(0)), (Ok(()), Ok(())));
    assert_eq!(
        (l.0.clock(19), l.0.retire()),
        (Ok(()), Err(Refusal::NotRetired))
    );
    assert_eq!((l.0.clock(20), l.0.retire()), (Ok(()), Ok(())));
    assert_eq!(l.0.board().live(), 1);
}

#[test]
fn the_proving_table_m_and_n() {
    let mut m = Case::fresh(1_000, 5);
    let mut first = proving_offer();
    let fact = Facts::new(8, 0);
    let mut second = OfferDraft::new(fact, fact, &proving_plant(), &[2]);
    (first.batch, second.batch) = (7, 7);
    assert_eq!((m.plan(&first), m.plan(&second)), (Ok(()), Ok(())));
    assert_eq!((m.window(4).0, m.window(5).0), (19, 20));
    let mut n = [Case::fresh(1_000, 5), Case::fresh(1_000, 0)];
    assert_eq!((n[0].0.clock(0), n[1].0.clock(5)), (Ok(()), Ok(())));
    assert_eq!(n.each_mut().map(|case| case.job(0)), [Ok(()), Ok(())]);
    assert_eq!(n[0].0.board().cells, n[1].0.board().cells);
}

#[test]
fn a_refused_fresh_leaves_a_board_on_which_every_call_is_6() {
    for (horizon, lead) in [
        (0, 0),
        (100_000_001, 0),
        (1, 1_000_001),
        (u32::MAX, u32::MAX),
    ] {
        let mut case = Case::fresh(1_000, 5);
        assert_eq!(case.0.fresh(horizon, lead), Err(Refusal::HorizonOrLead));
        assert_eq!(case.0.board(), Board::default());
        assert_eq!(case.job(0), Err(Refusal::Unsound));
        assert_eq!(case.0.plan(&[], &[]), Err(Refusal::PlantMark));
        assert_eq!(case.0.send(0), Err(Refusal::Unsound));
        assert_eq!(case.0.clock(0), Err(Refusal::Unsound));
        assert_eq!(case.0.retire(), Err(Refusal::Unsound));
    }
}

#[test]
fn a_board_made_by_hand_goes_on_like_the_one_it_copies() {
    let mut own = Case::fresh(1_000, 5);
    assert_eq!(
        (own.job(0), own.job(1), own.0.send(0)),
        (Ok(()), Ok(()), Ok(()))
    );
    let mut copy = Case(Definition::default());
    copy.0.take(&own.0.board());
    assert_eq!(copy.0.board(), own.0.board());
    for case in [&mut own, &mut copy] {
        assert_eq!(case.job(1), Ok(()));
        assert_eq!((case.0.clock(25), case.0.retire()), (Ok(()), Ok(())));
        assert_eq!(case.0.send(0), Ok(()));
    }
    assert_eq!(copy.0.board(), own.0.board());
}
