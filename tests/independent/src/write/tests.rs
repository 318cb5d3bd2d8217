use super::*;
use crate::generate::draft::{plant_file, proving_plant, PlantDraft};
use crate::generate::rng::Rng;
use crate::generate::world::World;
use crate::{check_plant, Ruling};

const PATTERN: u8 = 0xC3;
/// Numbers at both sides of the limits of durations, offsets and lengths.
const TIMES: [u32; 8] = [0, 1, 2, 999_999, 1_000_000, 1_000_001, 1 << 31, u32::MAX];

/// The proving table's plant, as fields.
fn proving() -> Vec<Fields> {
    proving_plant().iter().map(Fields::from).collect()
}

/// What is written into a buffer of so many bytes, or the refusal's number and value. Bytes that the
/// writer should leave must hold the pattern.
fn write_words(words: &[u32], room: usize) -> Result<Vec<u8>, (u32, Option<u32>)> {
    let mut buffer = vec![PATTERN; room];
    let written = write_plant(words, &mut buffer);
    let length = written.unwrap_or(0);
    assert!(buffer[length..].iter().all(|&byte| byte == PATTERN));
    buffer.truncate(length);
    written
        .map(|_| buffer)
        .map_err(|refusal| refusal.number_and_value())
}

fn write(actions: &[Fields], room: usize) -> Result<Vec<u8>, (u32, Option<u32>)> {
    write_words(&words_of(actions), room)
}

/// The ruling's number and value, with all the room that a file can take.
fn ruling_on(actions: &[Fields]) -> (u32, Option<u32>) {
    write(actions, MOST_FILE).map_or_else(|refused| refused, |_| (0, None))
}

/// The ruling on the proving plant with one action changed.
fn with_change(action: usize, change: impl Fn(&mut Fields)) -> (u32, Option<u32>) {
    let mut actions = proving();
    change(&mut actions[action]);
    ruling_on(&actions)
}

/// An action with so many allocations.
fn with_allocations(n: usize) -> Fields {
    let mut action = proving()[1].clone();
    action.n = n as u32;
    action.slots[..n].fill([15, 1_000_000, 1_000_000]);
    action
}

#[test]
fn the_proving_plant_comes_out_byte_for_byte() {
    let file = plant_file(&proving_plant());
    assert_eq!(file.len(), 120);
    assert_eq!(write(&proving(), 120), Ok(file.clone()));
    for room in [121, 128, 240, 16_384] {
        assert_eq!(write(&proving(), room), Ok(file.clone()), "{room}");
    }
    for room in [0, 1, 11, 12, 40, 96, 108, 116, 119] {
        assert_eq!(write(&proving(), room), Err((22, None)), "{room}");
    }
}

#[test]
fn counts_keep_their_range() {
    for count in [0, 1, 2, 127, 128, 129, 200, 256, 257, 384, 65_537] {
        let actions = vec![with_allocations(4); count];
        let number = if (1..=128).contains(&count) { 0 } else { 2 };
        assert_eq!(ruling_on(&actions), (number, None), "{count}");
    }
    let largest = write(&vec![with_allocations(4); 128], MOST_FILE).unwrap();
    assert_eq!((largest.len(), MOST_FILE), (10_252, 10_252));
    let short = write(&vec![with_allocations(4); 128], MOST_FILE - 1);
    assert_eq!(short, Err((22, None)));
    assert_eq!(write(&[with_allocations(0)], 44).unwrap().len(), 44);
    assert_eq!(write(&[with_allocations(0)], 43), Err((22, None)));
}

#[test]
fn words_that_are_no_whole_number_of_actions_are_2() {
    let words = words_of(&proving());
    let further = words_of(&vec![with_allocations(4); 128]);
    for odd in 1..ACTION_WORDS {
        for whole in [0, 1, 2, 3] {
            let length = ACTION_WORDS * whole;
            let some = [&words[..length], &further[..odd]].concat();
            assert_eq!(write_words(&some, 16_384), Err((2, None)), "{whole} {odd}");
        }
        let many = [&further[..], &words[..odd]].concat();
        assert_eq!(write_words(&many, 16_384), Err((2, None)), "128 {odd}");
    }
}

#[test]
fn n_is_a_whole_word() {
    for n in 0..=4 {
        assert_eq!(
            ruling_on(&[with_allocations(n), with_allocations(0)]),
            (0, None)
        );
    }
    // The low byte, or the low half, of most of these would pass.
    let too_large = [
        5,
        6,
        128,
        255,
        256,
        257,
        260,
        261,
        65_536,
        65_540,
        1 << 24,
        1 << 31,
        u32::MAX,
    ];
    for n in too_large {
        for action in 0..3 {
            let refused = Some(action as u32);
            assert_eq!(with_change(action, |fields| fields.n = n), (3, refused));
        }
    }
    let mut actions = proving();
    actions.truncate(2);
    actions[1].n = 256;
    assert_eq!(write(&actions, 0), Err((3, Some(1))));
}

#[test]
fn durations_keep_their_ranges() {
    for shortest in TIMES {
        for longest in TIMES {
            let good = 1 <= shortest && shortest <= longest && longest <= 1_000_000;
            let wanted = if good { (0, None) } else { (4, Some(1)) };
            let ruling = with_change(1, |action| {
                (action.shortest, action.longest) = (shortest, longest)
            });
            assert_eq!(ruling, wanted, "{shortest} {longest}");
        }
    }
}

#[test]
fn allocations_keep_their_ranges() {
    let ranges = [0..=15, 0..=1_000_000, 1..=1_000_000];
    for (field, range) in ranges.iter().enumerate() {
        for value in TIMES.into_iter().chain([14, 15, 16, 17, 256, 271]) {
            for slot in 0..4 {
                let mut actions = vec![with_allocations(4); 3];
                actions[2].slots[slot][field] = value;
                let wanted = if range.contains(&value) {
                    (0, None)
                } else {
                    (4, Some(2))
                };
                assert_eq!(ruling_on(&actions), wanted, "{field} {value} {slot}");
            }
        }
    }
}

#[test]
fn no_fact_stands_twice_in_needs_or_in_makes() {
    for fact in 0..32 {
        let twice = Facts::new(1 << fact, 1 << fact);
        assert_eq!(with_change(2, |action| action.needs = twice), (4, Some(2)));
        assert_eq!(with_change(2, |action| action.makes = twice), (4, Some(2)));
        // A fact may be needed one way and made the other, and needed and made.
        let [yes, no] = [Facts::new(1 << fact, 0), Facts::new(0, 1 << fact)];
        for (needs, makes) in [(yes, no), (no, yes), (yes, yes), (no, no)] {
            let ruling = with_change(2, |action| (action.needs, action.makes) = (needs, makes));
            assert_eq!(ruling, (0, None));
        }
    }
    let all = Facts::new(0xAAAA_AAAA, 0x5555_5555);
    let ruling = with_change(0, |action| (action.needs, action.makes) = (all, all));
    assert_eq!(ruling, (0, None));
}

#[test]
fn refusals_have_an_order() {
    // A count out of range comes before all that the actions say.
    let mut bad = with_allocations(4);
    bad.n = 5;
    assert_eq!(write(&vec![bad.clone(); 129], 0), Err((2, None)));
    let odd = &words_of(&[bad.clone(), bad])[1..];
    assert_eq!(write_words(odd, 0), Err((2, None)));
    // 3 comes before 4 within an action only.
    let mut actions = proving();
    (actions[0].shortest, actions[1].n) = (0, 5);
    assert_eq!(ruling_on(&actions), (4, Some(0)));
    actions[0].n = 5;
    assert_eq!(ruling_on(&actions), (3, Some(0)));
    // 22 comes last, whatever the room.
    let mut actions = proving();
    actions[1].needs = Facts::new(2, 2);
    for room in [0, 40, 119, 120, 16_384] {
        assert_eq!(write(&actions, room), Err((4, Some(1))));
    }
    let mut actions = vec![with_allocations(4); 128];
    actions[127].slots[3] = [0, 0, 0];
    assert_eq!(write(&actions, 0), Err((4, Some(127))));
    actions[127].n = 256;
    assert_eq!(write(&actions, 0), Err((3, Some(127))));
}

#[test]
fn allocations_past_n_are_neither_tested_nor_written() {
    let mut rng = Rng::new(11);
    for n in 0..=4 {
        let plain = [with_allocations(n), with_allocations(n)];
        let file = write(&plain, MOST_FILE).unwrap();
        for fill in [0, 16, 1_000_001, u32::MAX, rng.word()] {
            let mut filled = plain.clone();
            for action in &mut filled {
                action.slots[n..].fill([fill; 3]);
            }
            assert_eq!(write(&filled, MOST_FILE), Ok(file.clone()));
            assert_eq!(write(&filled, file.len() - 1), Err((22, None)));
            assert_eq!(filled.map(Fields::as_listed), plain);
        }
    }
}

/// Of random plants, and of their files as the drafts lay them out: a second writer of its own.
#[test]
fn a_written_file_is_read_as_the_same_actions() {
    let mut rng = Rng::new(4);
    for count in [1, 2, 3, 5, 17, 64, 127, 128] {
        for _ in 0..20 {
            let world = World::grow(&mut rng, count, u32::MAX);
            let drafted = plant_file(&world.actions);
            let plant = Plant::read(&drafted).unwrap();
            let actions = actions_in(&plant);
            let fields: Vec<Fields> = world.actions.iter().map(Fields::from).collect();
            assert_eq!(actions, fields);
            let file = write(&actions, drafted.len()).unwrap();
            assert_eq!(file, drafted);
            assert_eq!(check_plant(&file), Ruling::Accepted);
        }
    }
}

/// The writer and the reader refuse the same actions, as far as the reader can be shown them.
#[test]
fn what_the_reader_refuses_is_refused_alike() {
    let mut rng = Rng::new(5);
    let mut seen = [0; 5];
    for _ in 0..3_000 {
        let mut world = World::grow(&mut rng, 3, u32::MAX);
        for _ in 0..rng.below(3) {
            let action = rng.below(3);
            crate::generate::damage::damage_action(&mut rng, &mut world.actions[action]);
        }
        // What fields can say: no spare bytes, and n allocations where n is at most 4.
        for action in &mut world.actions {
            action.spare = [0; 3];
            if action.n <= 4 {
                action.allocations.resize(usize::from(action.n), [3, 2, 1]);
            }
        }
        let ruling = check_plant(&PlantDraft::new(&world.actions).bytes());
        let fields: Vec<Fields> = world.actions.iter().map(Fields::from).collect();
        assert_eq!(ruling_on(&fields), (ruling.number(), ruling.value()));
        seen[ruling.number() as usize] += 1;
    }
    assert!(seen[0] > 300 && seen[3] > 300 && seen[4] > 300, "{seen:?}");
}

#[test]
fn numbers_of_a_log_are_taken_action_by_action() {
    let mut five = with_allocations(4);
    five.n = 5;
    let actions = [with_allocations(0), with_allocations(2), five];
    let numbers: Vec<u32> = actions.iter().flat_map(Fields::numbers).collect();
    assert_eq!(numbers.len(), 7 + 13 + 19);
    let mut rest = &numbers[..];
    for action in &actions {
        let (taken, after) = Fields::split(rest).unwrap();
        assert_eq!(taken, *action);
        rest = after;
    }
    assert!(rest.is_empty());
    assert_eq!(Fields::split(&numbers[..6]), None);
    assert_eq!(Fields::split(&numbers[7..19]), None);
}
