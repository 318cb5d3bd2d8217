//! Plants at and beside every limit of the format.

use super::draft::{plant_file, ActionDraft, OfferDraft, PlantDraft};
use super::rng::Rng;
use super::List;
use crate::facts::Facts;
use crate::log::MOST_BYTES;

const NONE: Facts = Facts::NONE;
pub const TIMES: [u32; 8] = [0, 1, 2, 999_999, 1_000_000, 1_000_001, 1 << 31, u32::MAX];

/// Three actions without facts, so that any offer of them passes as long as the file is good.
pub fn base() -> Vec<ActionDraft> {
    vec![
        ActionDraft::new(NONE, NONE, &[[0, 0, 1], [15, 1_000_000, 1_000_000]]),
        ActionDraft::new(NONE, NONE, &[[1, 2, 3]; 4]).lasting(1, 1_000_000),
        ActionDraft::new(NONE, NONE, &[[7, 5, 9]]).lasting(1_000_000, 1_000_000),
    ]
}

/// So many actions, each with four allocations.
pub fn many(count: usize) -> Vec<ActionDraft> {
    vec![ActionDraft::new(NONE, NONE, &[[3, 4, 5]; 4]); count]
}

fn base_offer() -> Vec<u8> {
    OfferDraft::new(NONE, NONE, &base(), &[2, 0, 1]).bytes()
}

/// Each action of the base in turn, changed by a function.
fn change_each(list: &mut List, change: impl Fn(&mut ActionDraft)) {
    for action in 0..base().len() {
        let mut actions = base();
        change(&mut actions[action]);
        list.try_plant(plant_file(&actions), &base_offer());
        list.part(action as u32);
    }
}

/// The base's layout, changed by a function.
fn change_layout(list: &mut List, change: impl FnOnce(&mut PlantDraft)) {
    let mut draft = PlantDraft::new(&base());
    change(&mut draft);
    list.try_plant(draft.bytes(), &base_offer());
}

fn add(number: &mut u32, change: u32) {
    *number = number.wrapping_add(change);
}

fn subtract(number: &mut u32, change: u32) {
    *number = number.wrapping_sub(change);
}

fn shift(entries: &mut [u32], change: u32) {
    entries.iter_mut().for_each(|entry| add(entry, change));
}

/// Short files with and without the mark, and the longest that a log takes.
pub fn lengths(_: &mut Rng, list: &mut List) {
    for length in (0..=44).chain([MOST_BYTES - 1, MOST_BYTES]) {
        let zeros = vec![0; length];
        let mut marked = zeros.clone();
        let mark_start = length.saturating_sub(4);
        marked[mark_start..].copy_from_slice(&b"PLNT"[..length - mark_start]);
        list.try_plant(zeros, &base_offer());
        list.try_plant(marked, &base_offer());
    }
    for byte in 0..4 {
        for damage in [1, 0x20, 0xFF] {
            change_layout(list, |draft| draft.mark[byte] ^= damage);
        }
    }
    // A long file that is good but for the bytes before its index.
    let mut draft = PlantDraft::new(&many(128));
    let index_and_trailer = draft.bytes().len() - draft.records.len();
    let mut records = draft.records.clone();
    records.resize(MOST_BYTES - index_and_trailer, 0);
    draft.set_records(records);
    list.try_plant(draft.bytes(), &base_offer());
}

/// Plants of every action count near a limit, and counts that aren't the true one.
pub fn counts(_: &mut Rng, list: &mut List) {
    for count in [0, 1, 2, 127, 128, 129] {
        let actions = many(count);
        let last = count.saturating_sub(1);
        list.plant(plant_file(&actions));
        list.check();
        for action in [0, last, count, count + 1, 0x4000_0000, u32::MAX as usize] {
            list.part(action as u32);
        }
        if count > 0 {
            list.fact(&OfferDraft::new(NONE, NONE, &actions, &[0, last]).bytes());
        }
    }
    for claimed in [0, 1, 2, 4, 128, 129, 0x4000_0003, 0x8000_0003, u32::MAX] {
        change_layout(list, |draft| draft.count = claimed);
        // Here the sizes add up unless the count is huge, so that its own range decides.
        change_layout(list, |draft| {
            let entries = claimed.min(200) as usize;
            draft.count = claimed;
            draft.index.resize(entries, draft.index_start);
        });
    }
}

/// Index starts that are wrong by a little or that would make a 32-bit sum wrap.
pub fn wraps(_: &mut Rng, list: &mut List) {
    for change in [1, 4, 12, 0x4000_0000, 0x8000_0000] {
        change_layout(list, |draft| add(&mut draft.index_start, change));
        change_layout(list, |draft| subtract(&mut draft.index_start, change));
    }
    for below_the_top in [0, 3, 7, 11, 15] {
        change_layout(list, |draft| draft.index_start = u32::MAX - below_the_top);
    }
    for count in [1, 2, 3, 4, 127, 128, 0x4000_0000, 0x4000_0001, u32::MAX] {
        for length in [12, 13, 15, 16, 20, 23, 24, 27, 28, 40, 120, 500] {
            let mut draft = PlantDraft::new(&[]);
            draft.records = vec![0; length as usize - 12];
            draft.count = count;
            // In 32 bits, index start + 4 x count + 12 is now the length.
            draft.index_start = length - 12;
            subtract(&mut draft.index_start, count.wrapping_mul(4));
            list.try_plant(draft.bytes(), &base_offer());
        }
    }
}

pub fn durations(_: &mut Rng, list: &mut List) {
    for shortest in TIMES {
        for longest in TIMES {
            change_each(list, |action| {
                action.shortest = shortest;
                action.longest = longest;
            });
        }
    }
}

pub fn allocations(_: &mut Rng, list: &mut List) {
    for value in TIMES.into_iter().chain([14, 15, 16, 17, 255, 256, 65_536]) {
        for field in 0..3 {
            for allocation in 0..4 {
                change_each(list, |action| {
                    let last = action.allocations.len() - 1;
                    action.allocations[allocation.min(last)][field] = value;
                });
            }
        }
    }
}

/// Facts at both ends of the masks, once and twice, in needs and in makes.
pub fn masks(_: &mut Rng, list: &mut List) {
    for mask in [1, 2, 0x8000, 0x8000_0000, u32::MAX] {
        let [yes, no, twice] = [(mask, 0), (0, mask), (mask, mask)].map(|(t, f)| Facts::new(t, f));
        let others = Facts::new(mask, !mask);
        for needs in [NONE, yes, no, twice, others] {
            for makes in [NONE, yes, no, twice, others] {
                change_each(list, |action| (action.needs, action.makes) = (needs, makes));
            }
        }
    }
}

/// The byte n and the spare bytes.
pub fn headers(_: &mut Rng, list: &mut List) {
    for n in (0..=8).chain([16, 127, 128, 255]) {
        change_each(list, |action| action.n = n);
        change_each(list, |action| {
            action.n = n;
            action.allocations.resize(usize::from(n), [0, 0, 1]);
        });
    }
    for byte in 0..3 {
        for value in [1, 4, 0x80, 0xFF] {
            change_each(list, |action| action.spare[byte] = value);
        }
    }
}

/// Index entries, gaps between records, and records that don't end at the index.
pub fn layouts(_: &mut Rng, list: &mut List) {
    let count = base().len();
    for entry in 0..count {
        for change in [1, 2, 4, 12, 28, 0x8000_0000] {
            change_layout(list, |draft| add(&mut draft.index[entry], change));
            change_layout(list, |draft| subtract(&mut draft.index[entry], change));
            change_layout(list, |draft| shift(&mut draft.index[entry..], change));
        }
        for other in 0..count {
            change_layout(list, |draft| draft.index[entry] = draft.index[other]);
        }
        change_layout(list, |draft| draft.index[entry] = draft.index_start);
        change_layout(list, |draft| draft.index[entry] = u32::MAX);
    }
    for gap in [1, 2, 3, 4, 8, 12, 24, 28, 40] {
        for entry in 0..count {
            for entries_follow in [false, true] {
                change_layout(list, |draft| insert_gap(draft, entry, gap, entries_follow));
            }
        }
    }
    let whole = PlantDraft::new(&base()).records;
    for length in 0..=whole.len() + 44 {
        let mut records = whole.clone();
        records.resize(length, 0);
        change_layout(list, |draft| draft.set_records(records));
    }
    // One index entry more or less than there are records.
    change_layout(list, |draft| {
        draft.index.push(draft.index_start);
        draft.count += 1;
    });
    change_layout(list, |draft| {
        draft.index.pop();
        draft.count -= 1;
    });
}

/// Zero bytes before a record.
fn insert_gap(draft: &mut PlantDraft, entry: usize, gap: usize, entries_follow: bool) {
    let at = draft.index[entry] as usize;
    let mut records = draft.records.clone();
    records.splice(at..at, vec![0; gap]);
    draft.set_records(records);
    if entries_follow {
        shift(&mut draft.index[entry..], gap as u32);
    }
}

/// Two faults in one plant, a 3 and a 4, in the same action and in different ones.
pub fn orders(_: &mut Rng, list: &mut List) {
    let range_faults: [fn(&mut ActionDraft); 5] = [
        |action| action.shortest = 0,
        |action| action.longest = 1_000_001,
        |action| action.needs = Facts::new(1, 1),
        |action| action.makes = Facts::new(8, 8),
        |action| action.allocations[0] = [16, 0, 0],
    ];
    let record_faults: [fn(&mut PlantDraft, usize); 5] = [
        |draft, action| draft.index[action] += 1,
        |draft, action| draft.records[draft.index[action] as usize + 24] = 5,
        |draft, action| draft.records[draft.index[action] as usize + 27] = 1,
        |draft, _| draft.set_records([&draft.records[..], &[0; 4]].concat()),
        |draft, _| draft.set_records(draft.records[..draft.records.len() - 1].to_vec()),
    ];
    for actions in [base(), many(128)] {
        let last = actions.len() - 1;
        // The large plant costs long lines, so it takes one fault of each kind.
        let kinds = if last > 2 { 1 } else { range_faults.len() };
        for range_fault in &range_faults[..kinds] {
            for record_fault in &record_faults[..kinds] {
                for range_action in [0, 1, last] {
                    for record_action in [0, 1, last] {
                        let mut actions = actions.clone();
                        range_fault(&mut actions[range_action]);
                        let mut draft = PlantDraft::new(&actions);
                        list.try_plant(draft.bytes(), &base_offer());
                        record_fault(&mut draft, record_action);
                        list.try_plant(draft.bytes(), &base_offer());
                    }
                }
            }
        }
        let mut draft = PlantDraft::new(&actions);
        record_faults[0](&mut draft, last);
        list.try_plant(draft.bytes(), &base_offer());
    }
}
