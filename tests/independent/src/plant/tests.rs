use super::*;
use crate::generate::draft::{plant_file, proving_plant, ActionDraft, PlantDraft};

/// The proving table's plant, written out by hand.
const PROVING_PLANT: &str = "\
    010000000000000002000000010000000a00000014000000\
    0100000000000000000000000a000000\
    020000000000000004000000020000000500000005000000\
    00000000\
    080000000000000000000000000000000100000001000000\
    00000000\
    000000002800000044000000\
    6000000003000000504c4e54";

fn ruling_on(draft: &PlantDraft) -> (u32, Option<u32>) {
    let ruling = check_plant(&draft.bytes());
    (ruling.number(), ruling.value())
}

/// The ruling on the proving plant with one action changed.
fn with_change(action: usize, change: impl Fn(&mut ActionDraft)) -> (u32, Option<u32>) {
    let mut actions = proving_plant();
    change(&mut actions[action]);
    ruling_on(&PlantDraft::new(&actions))
}

#[test]
fn the_proving_plant_is_good() {
    let file = plant_file(&proving_plant());
    assert_eq!(crate::log::hex(&file), PROVING_PLANT);
    assert_eq!(file.len(), 120);
    assert_eq!(check_plant(&file), Ruling::Accepted);
}

#[test]
fn parts_are_the_allocations() {
    let file = plant_file(&proving_plant());
    assert_eq!(allocations(&file, 0), &file[28..40]);
    for action in [1, 2, 3, 4, 0x4000_0000, u32::MAX] {
        assert_eq!(allocations(&file, action), []);
    }
    assert_eq!(allocations(&file[1..], 0), []);
}

#[test]
fn the_trailer_is_checked() {
    let file = plant_file(&proving_plant());
    assert_eq!(check_plant(&[]).number(), 1);
    assert_eq!(check_plant(&file[109..]).number(), 1);
    assert_eq!(check_plant(&file[108..]).number(), 2);
    for count in [0, 1, 128, 129] {
        let actions = vec![proving_plant()[0].clone(); count];
        let number = if (1..=128).contains(&count) { 0 } else { 2 };
        assert_eq!(
            check_plant(&plant_file(&actions)).number(),
            number,
            "{count}"
        );
    }
    // 2^32 - 4 + 4 + 12 is 12 in 32 bits.
    let mut wraps = PlantDraft::new(&[]);
    (wraps.index_start, wraps.count) = (u32::MAX - 3, 1);
    assert_eq!(ruling_on(&wraps), (2, None));
}

#[test]
fn records_follow_one_another_up_to_the_index() {
    for action in 0..3 {
        let mut draft = PlantDraft::new(&proving_plant());
        draft.index[action] += 1;
        assert_eq!(ruling_on(&draft), (3, Some(action as u32)));
    }
    let good = PlantDraft::new(&proving_plant());
    for (length, action) in [
        (0, 0),
        (39, 0),
        (40, 1),
        (67, 1),
        (95, 2),
        (97, 2),
        (124, 2),
    ] {
        let mut draft = good.clone();
        let mut records = good.records.clone();
        records.resize(length, 0);
        draft.set_records(records);
        assert_eq!(ruling_on(&draft), (3, Some(action)), "{length}");
    }
}

#[test]
fn the_header_has_n_up_to_4_and_no_spare_bits() {
    let four_or_five = |n: usize| {
        with_change(1, |action| {
            action.n = n as u8;
            action.allocations = vec![[15, 0, 1]; n];
        })
    };
    assert_eq!(four_or_five(4), (0, None));
    assert_eq!(four_or_five(5), (3, Some(1)));
    for byte in 0..3 {
        assert_eq!(
            with_change(2, |action| action.spare[byte] = 1),
            (3, Some(2))
        );
    }
}

#[test]
fn numbers_keep_their_ranges() {
    let lasting = |shortest, longest| {
        with_change(1, |action| {
            (action.shortest, action.longest) = (shortest, longest)
        })
        .0
    };
    assert_eq!(lasting(1, 1_000_000), 0);
    assert_eq!(lasting(1_000_000, 1_000_000), 0);
    assert_eq!(lasting(0, 1), 4);
    assert_eq!(lasting(2, 1), 4);
    assert_eq!(lasting(1, 1_000_001), 4);

    let using = |allocation| with_change(0, |action| action.allocations[0] = allocation).0;
    assert_eq!(using([15, 1_000_000, 1_000_000]), 0);
    assert_eq!(using([0, 0, 1]), 0);
    assert_eq!(using([16, 0, 1]), 4);
    assert_eq!(using([0, 1_000_001, 1]), 4);
    assert_eq!(using([0, 0, 0]), 4);
    assert_eq!(using([0, 0, 1_000_001]), 4);

    let twice = Facts::new(1 << 31, 1 << 31);
    assert_eq!(with_change(2, |action| action.needs = twice), (4, Some(2)));
    assert_eq!(with_change(2, |action| action.makes = twice), (4, Some(2)));
}

#[test]
fn refusal_3_comes_before_4_within_an_action_only() {
    let mut actions = proving_plant();
    actions[1].shortest = 0;
    let mut draft = PlantDraft::new(&actions);
    draft.index[2] += 1;
    assert_eq!(ruling_on(&draft), (4, Some(1)));
    draft.index[1] += 1;
    assert_eq!(ruling_on(&draft), (3, Some(1)));
}

#[test]
fn a_last_action_that_ends_short_is_3_even_if_out_of_range() {
    let mut actions = proving_plant();
    actions[2].shortest = 0;
    let mut draft = PlantDraft::new(&actions);
    draft.set_records([&draft.records[..], &[0]].concat());
    assert_eq!(ruling_on(&draft), (3, Some(2)));
}
