//! The lists of all kinds in turns, with how each is lent.

use crate::case::{Case, Lending, Step};
use independent::generate::{self, rng::Rng, NamedItems};
use independent::kind::Kind;
use independent::log::Item;

const KINDS: [Kind; 3] = [Kind::Read, Kind::Board, Kind::Retire];

/// The rule book is asked in one list of so many. It finds out everything anew at each call: asked in
/// every list, it would leave time for about half as many calls in all.
const LISTS_A_DEFINITION: usize = 4;

pub struct Turns {
    lists: [(Kind, Box<dyn Iterator<Item = NamedItems>>); 3],
    next: usize,
    rng: Rng,
    guard: usize,
}

impl Turns {
    /// With so many guard words on each side of a lent list.
    pub fn new(seed: u64, guard: usize) -> Self {
        Turns {
            lists: KINDS.map(|kind| (kind, generate::lists(seed, kind))),
            next: 0,
            rng: Rng::new(!seed),
            guard,
        }
    }

    fn steps(&mut self, items: Vec<Item>) -> Vec<Step> {
        let step = |item| Step {
            item,
            lending: Lending::any(&mut self.rng),
        };
        items.into_iter().map(step).collect()
    }
}

/// Without end.
impl Iterator for Turns {
    type Item = Case;

    fn next(&mut self) -> Option<Case> {
        let (kind, lists) = &mut self.lists[self.next];
        let (name, items) = lists.next()?;
        let name = format!("{kind}-{name}");
        self.next = (self.next + 1) % KINDS.len();
        Some(Case {
            name,
            steps: self.steps(items),
            guard: self.guard,
            by_definition: self.rng.one_in(LISTS_A_DEFINITION),
        })
    }
}

#[cfg(test)]
mod tests {
    use super::*;

    #[test]
    fn a_seed_always_gives_the_same_lists_lent_the_same_way() {
        for (once, again) in Turns::new(5, 8).zip(Turns::new(5, 8)).take(60) {
            assert_eq!(once.name, again.name);
            assert!(once.steps == again.steps);
            assert_eq!(once.by_definition, again.by_definition);
        }
    }

    #[test]
    fn the_kinds_take_turns() {
        let cases = Turns::new(5, 8).take(4);
        let names: Vec<String> = cases.map(|case| case.name).collect();
        let wanted = [
            "read-lengths-0",
            "board-proving-0",
            "retire-proving-0",
            "read-counts-1",
        ];
        assert_eq!(names, wanted);
    }
}
