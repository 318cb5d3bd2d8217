//! Call logs for the comparison: first lists that go through every limit, then random ones. Here
//! are the logs of what reads; those of board calls are in `boards`.

pub mod draft;

mod boards;
pub(crate) mod damage;
mod invent;
mod offers;
mod plants;
mod random;
pub mod rng;
mod sweeps;
pub(crate) mod world;
mod writes;

use crate::kind::Kind;
use crate::log::Item;
use rng::Rng;
use std::io::{self, Write};

/// The items of one list of calls.
#[derive(Default)]
struct List(Vec<Item>);

type Scenario = fn(&mut Rng, &mut List);

/// The lists that come first in every log.
const SYSTEMATIC: [(&str, Scenario); 20] = [
    ("lengths", plants::lengths),
    ("counts", plants::counts),
    ("wraps", plants::wraps),
    ("durations", plants::durations),
    ("allocations", plants::allocations),
    ("masks", plants::masks),
    ("headers", plants::headers),
    ("layouts", plants::layouts),
    ("orders", plants::orders),
    ("formats", offers::formats),
    ("clashes", offers::clashes),
    ("chains", offers::chains),
    ("sweeps", sweeps::sweeps),
    ("write-counts", writes::counts),
    ("write-rooms", writes::rooms),
    ("write-ns", writes::allocation_counts),
    ("write-durations", writes::durations),
    ("write-allocations", writes::allocations),
    ("write-masks", writes::masks),
    ("write-orders", writes::orders),
];

/// A list's name and its items.
pub type NamedItems = (String, Vec<Item>);

/// The lists of a kind, without end: those that go through every limit, then random ones.
pub fn lists(seed: u64, kind: Kind) -> Box<dyn Iterator<Item = NamedItems>> {
    let rng = Rng::new(seed);
    match kind {
        Kind::Read => Box::new(reads(rng)),
        Kind::Board | Kind::Retire => Box::new(boards::lists(rng, kind)),
    }
}

fn reads(mut rng: Rng) -> impl Iterator<Item = NamedItems> {
    let random: (&str, Scenario) = ("random", random::random);
    let scenarios = SYSTEMATIC.into_iter().chain(std::iter::repeat(random));
    (0..).zip(scenarios).map(move |(number, (name, scenario))| {
        let mut list = List::default();
        scenario(&mut rng, &mut list);
        (format!("{name}-{number}"), list.0)
    })
}

/// Writes a log of so many calls; one of board calls ends with the list that reaches them.
pub fn generate(seed: u64, calls: u64, kind: Kind, out: &mut impl Write) -> io::Result<()> {
    writeln!(out, "# generate {seed} {calls} {kind}")?;
    let whole_lists = kind != Kind::Read;
    let mut written = 0;
    for (name, items) in lists(seed, kind) {
        if whole_lists && written >= calls {
            break;
        }
        writeln!(out, "\n{}", Item::List(name))?;
        for item in items {
            if item.is_call() {
                if !whole_lists && written == calls {
                    return Ok(());
                }
                written += 1;
            }
            writeln!(out, "{item}")?;
        }
    }
    Ok(())
}

impl List {
    /// The plant from now on. A good file is written from its actions first.
    fn plant(&mut self, file: Vec<u8>) {
        self.0.extend(writes::written_back(&file));
        self.0.push(Item::Plant(file));
    }

    fn check(&mut self) {
        self.0.push(Item::Check);
    }

    fn part(&mut self, action: u32) {
        self.0.push(Item::Part(action));
    }

    fn fact(&mut self, offer: &[u8]) {
        self.0.push(Item::Fact(offer.to_vec()));
    }

    /// Puts a plant to every call that reads it.
    fn try_plant(&mut self, file: Vec<u8>, offer: &[u8]) {
        self.plant(file);
        self.check();
        self.part(0);
        self.fact(offer);
    }
}

#[cfg(test)]
mod tests;
