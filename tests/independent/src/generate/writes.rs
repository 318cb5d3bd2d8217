//! Plant files written from fields: at and beside every limit, into buffers of every length.

use super::draft::{proving_plant, ActionDraft, OfferDraft};
use super::plants::{base, many, TIMES};
use super::rng::Rng;
use super::world::World;
use super::List;
use crate::facts::Facts;
use crate::log::{Item, MOST_BYTES, MOST_LISTED};
use crate::plant::Plant;
use crate::write::{actions_in, file_of, Fields, MOST_FILE};

/// Numbers of allocations that are too large, most of them with a low byte or half that would pass.
const LARGE_NS: [u32; 12] = [
    5,
    6,
    255,
    256,
    257,
    260,
    261,
    65_536,
    65_540,
    1 << 24,
    1 << 31,
    u32::MAX,
];

/// The actions of a good file written into just as many bytes as it has; of a bad one none.
pub fn written_back(file: &[u8]) -> Option<Item> {
    let plant = Plant::read(file).ok()?;
    Some(Item::Write(file.len() as u32, actions_in(&plant)))
}

impl List {
    /// Writes the actions. What is written is the plant from then on, so that it is read too.
    fn write(&mut self, actions: &[Fields], room: usize) {
        let written = file_of(actions, room);
        self.0.push(Item::Write(room as u32, actions.to_vec()));
        if let Ok(file) = written {
            let last = actions.len() as u32 - 1;
            self.0.push(Item::Plant(file));
            self.check();
            self.part(last);
            self.fact(&OfferDraft::alone(last, &actions[last as usize]).bytes());
        }
    }

    /// Into buffers with no room, one byte too short, just long enough and longer. What is refused
    /// for the actions themselves must be so with any room.
    fn write_everywhere(&mut self, actions: &[Fields]) {
        let file = file_of(actions, MOST_BYTES);
        let rooms = file.map_or(vec![0, 1, 120, MOST_FILE, MOST_BYTES], |file| {
            let length = file.len();
            vec![0, length - 1, length, length + 1, MOST_BYTES]
        });
        for room in rooms {
            self.write(actions, room);
        }
    }

    /// Into buffers just long enough and one byte too short. What is refused for the actions
    /// themselves, with no room and with much.
    fn write_closely(&mut self, actions: &[Fields]) {
        let file = file_of(actions, MOST_BYTES);
        for room in file.map_or([0, MOST_BYTES], |file| [file.len(), file.len() - 1]) {
            self.write(actions, room);
        }
    }
}

fn fields(drafts: &[ActionDraft]) -> Vec<Fields> {
    drafts.iter().map(Fields::from).collect()
}

/// Each action of the base in turn, changed by a function.
fn change_each(list: &mut List, change: impl Fn(&mut Fields)) {
    for action in 0..base().len() {
        let mut actions = fields(&base());
        change(&mut actions[action]);
        actions[action] = actions[action].clone().as_listed();
        list.write_closely(&actions);
    }
}

/// Every number of actions near a limit, of the shortest and of the longest records.
pub fn counts(_: &mut Rng, list: &mut List) {
    for count in [0, 1, 2, 127, 128, 129, 130, MOST_LISTED] {
        let longest = fields(&many(count));
        let mut shortest = longest.clone();
        for action in &mut shortest {
            action.n = 0;
            *action = action.clone().as_listed();
        }
        list.write_everywhere(&shortest);
        list.write_everywhere(&longest);
        // A count out of range comes before what an action says.
        let mut bad = longest;
        if let Some(last) = bad.last_mut() {
            last.n = 256;
            list.write_everywhere(&bad);
        }
    }
}

/// The proving table's plant into buffers of every length up to some more than it takes, whole and
/// with a fact twice in its second action.
pub fn rooms(_: &mut Rng, list: &mut List) {
    let good = fields(&proving_plant());
    let mut bad = good.clone();
    bad[1].needs = Facts::new(2, 2);
    for room in 0..=140 {
        list.write(&good, room);
        list.write(&bad, room);
    }
    for room in [4_095, 4_096, 10_251, 10_252, 10_253, 16_383, MOST_BYTES] {
        list.write(&good, room);
    }
}

pub fn allocation_counts(_: &mut Rng, list: &mut List) {
    for n in (0..=4).chain(LARGE_NS) {
        change_each(list, |action| {
            action.n = n;
            // Those that are listed now and were not before.
            for slot in &mut action.slots {
                slot[2] = slot[2].max(1);
            }
        });
    }
    // Behind a good action, with no room.
    for n in LARGE_NS {
        let mut actions = fields(&proving_plant()[..2]);
        actions[1].n = n;
        list.write(&actions, 0);
    }
}

pub fn durations(_: &mut Rng, list: &mut List) {
    for shortest in TIMES {
        for longest in TIMES {
            change_each(list, |action| {
                (action.shortest, action.longest) = (shortest, longest)
            });
        }
    }
}

pub fn allocations(_: &mut Rng, list: &mut List) {
    for value in TIMES.into_iter().chain([14, 15, 16, 17, 255, 256, 65_536]) {
        for field in 0..3 {
            for slot in 0..4 {
                change_each(list, |action| {
                    let last = action.listed() - 1;
                    action.slots[slot.min(last)][field] = value;
                });
            }
        }
    }
}

/// Facts at both ends of the masks, once and twice, in needs and in makes.
pub fn masks(_: &mut Rng, list: &mut List) {
    for mask in [1, 2, 0x8000, 0x8000_0000, u32::MAX] {
        let [yes, no, twice] = [(mask, 0), (0, mask), (mask, mask)].map(|(t, f)| Facts::new(t, f));
        let others = Facts::new(mask, !mask);
        for needs in [Facts::NONE, yes, no, twice, others] {
            for makes in [Facts::NONE, yes, no, twice, others] {
                change_each(list, |action| (action.needs, action.makes) = (needs, makes));
            }
        }
    }
}

/// Two faults in one plant, a 3 and a 4, in the same action and in different ones, in a small plant
/// and in the largest.
pub fn orders(_: &mut Rng, list: &mut List) {
    let range_faults: [fn(&mut Fields); 5] = [
        |action| action.shortest = 0,
        |action| action.longest = 1_000_001,
        |action| action.needs = Facts::new(1, 1),
        |action| action.makes = Facts::new(8, 8),
        |action| action.slots[0] = [16, 0, 0],
    ];
    for actions in [base(), many(128)] {
        let actions = fields(&actions);
        let last = actions.len() - 1;
        // The large plant costs long lines, so it takes one fault of each kind.
        let kinds = if last > 2 { 1 } else { range_faults.len() };
        for range_fault in &range_faults[..kinds] {
            for n in [5, 256] {
                for range_action in [0, 1, last] {
                    for record_action in [0, 1, last] {
                        let mut actions = actions.clone();
                        range_fault(&mut actions[range_action]);
                        list.write_closely(&actions);
                        actions[record_action].n = n;
                        list.write_closely(&actions);
                    }
                }
            }
        }
    }
}

/// The actions of a plant, most often with a fault or more, into a buffer of any length.
pub fn any(rng: &mut Rng, list: &mut List, world: &World) {
    let mut actions = fields(&world.actions);
    for _ in 0..rng.pick(&[0, 0, 0, 1, 1, 2]) {
        let action = rng.below(actions.len());
        damage(rng, &mut actions[action]);
        actions[action] = actions[action].clone().as_listed();
    }
    if rng.one_in(16) {
        let count = rng.pick(&[0, 129, MOST_LISTED]);
        actions = actions.into_iter().cycle().take(count).collect();
    }
    let length = file_of(&actions, MOST_BYTES).map_or(0, |file| file.len());
    let shorter = rng.below(length + 1);
    let longer = length + rng.below(MOST_BYTES - length + 1);
    let near = [length, length.saturating_sub(1), length + 1];
    let room = rng.pick(&[near[0], near[0], near[1], near[2], shorter, longer, 0]);
    list.write(&actions, room);
}

/// Changes an action's fields so that it may be refused.
fn damage(rng: &mut Rng, action: &mut Fields) {
    let fact = rng.bit(u32::MAX);
    match rng.below(7) {
        0 => action.n = rng.pick(&LARGE_NS),
        1 => action.n = rng.edge(),
        2 => action.shortest = rng.pick(&[0, action.longest.saturating_add(1), 1]),
        3 => action.longest = rng.edge(),
        4 => action.needs = Facts::new(action.needs.positive | fact, action.needs.negative | fact),
        5 => action.makes = Facts::new(action.makes.positive | fact, action.makes.negative | fact),
        _ => action.slots[rng.below(4)][rng.below(3)] = rng.edge(),
    }
}
