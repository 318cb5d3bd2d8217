//! Lists of board calls: first lists that go through every limit, then random ones. A list knows
//! the board it has reached, so that it can ask for what is just possible and what just isn't.

mod dues;
mod fields;
mod hand;
mod limits;
mod near;
mod orders;
mod press;
mod proving;
mod random;
mod script;
mod wide;

use super::rng::Rng;
use super::{offers, plants, List, NamedItems};
use crate::kind::Kind;
use crate::log::Item;
use script::Script;

type Scenario = fn(&mut Rng, &mut Script);

/// The lists that come first in every log.
const SYSTEMATIC: [(&str, Scenario); 25] = [
    ("proving", proving::proving),
    ("due-cases", dues::cases),
    ("due-sides", dues::sides),
    ("due-turns", dues::turns),
    ("due-pairs", dues::pairs),
    ("due-words", dues::words),
    ("freshes", limits::freshes),
    ("rooms", limits::rooms),
    ("queues", limits::queues),
    ("horizons", limits::horizons),
    ("extremes", limits::extremes),
    ("clocks", limits::clocks),
    ("orders", orders::orders),
    ("wide", wide::wide),
    ("lengths", |rng, script| {
        replan(rng, script, plants::lengths)
    }),
    ("formats", |rng, script| {
        replan(rng, script, offers::formats)
    }),
    ("clashes", |rng, script| {
        replan(rng, script, offers::clashes)
    }),
    ("chains", |rng, script| replan(rng, script, offers::chains)),
    ("fields", hand::fields),
    ("invented", hand::invented),
    ("flawed", hand::flawed),
    ("noise", hand::noise),
    ("near", near::near),
    ("cells", near::cells),
    ("large-cells", near::large_cells),
];

/// The lists that come next in a log that retires.
const RETIRING: [(&str, Scenario); 4] = [("season", random::season); 4];

/// The random lists that take turns after them.
const RANDOM: [(&str, Scenario); 8] = [
    ("random", random::random),
    ("shift", random::shift),
    ("random", random::random),
    ("random", random::random),
    ("by-hand", hand::by_hand),
    ("random", random::random),
    ("shift", random::shift),
    ("random", random::random),
];

/// Plans the offers that a list of fact checks has, on a fresh board once one was accepted.
fn replan(rng: &mut Rng, script: &mut Script, facts: fn(&mut Rng, &mut List)) {
    let mut list = List::default();
    facts(rng, &mut list);
    script.fresh(10_000_000, 0);
    for item in list.0 {
        match item {
            Item::Plant(file) => script.plant(file),
            Item::Fact(offer) => plan_or_begin_anew(script, offer),
            _ => {}
        }
    }
}

fn plan_or_begin_anew(script: &mut Script, offer: Vec<u8>) {
    if script.plan_bytes(offer) == 0 {
        script.fresh(10_000_000, 0);
    }
}

/// All lists, those that retire only where the kind does.
pub fn lists(mut rng: Rng, kind: Kind) -> impl Iterator<Item = NamedItems> {
    let retires = kind == Kind::Retire;
    let retiring = RETIRING.into_iter().filter(move |_| retires);
    let random = RANDOM.into_iter().cycle();
    let scenarios = SYSTEMATIC.into_iter().chain(retiring).chain(random);
    (0..).zip(scenarios).map(move |(number, (name, scenario))| {
        let mut script = Script::new(retires);
        scenario(&mut rng, &mut script);
        script.show();
        (format!("{name}-{number}"), script.into_items())
    })
}
