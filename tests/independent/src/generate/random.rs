//! Random lists: a good plant with offers that pass and offers that don't, then bad plants.

use super::damage::{damage_action, damage_bytes, damage_facts, damage_format, damage_layout};
use super::draft::{plant_file, PlantDraft};
use super::rng::Rng;
use super::world::World;
use super::{writes, List};

pub fn random(rng: &mut Rng, list: &mut List) {
    let world = any_world(rng);
    let count = world.actions.len() as u32;
    list.plant(plant_file(&world.actions));
    list.check();
    for action in [rng.below(world.actions.len()) as u32, count, rng.edge()] {
        list.part(action);
    }
    for _ in 0..24 {
        list.fact(&any_offer(rng, &world));
    }
    for _ in 0..rng.below(4) {
        writes::any(rng, list, &world);
        list.fact(&any_offer(rng, &world));
    }
    for _ in 0..rng.below(6) {
        list.plant(bad_plant(rng, &world));
        list.check();
        list.part(rng.below(world.actions.len()) as u32);
        list.fact(&any_offer(rng, &world));
    }
    if rng.one_in(4) {
        list.plant(noise(rng, *b"PLNT"));
        list.check();
        list.part(rng.edge());
        list.fact(&noise(rng, [0; 4]));
    }
}

/// Few facts make clashes and passes frequent; all 32 show that no bit is left out.
fn any_world(rng: &mut Rng) -> World {
    let width = rng.pick(&[1, 2, 3, 4, 6, 10]);
    let few = rng.bits(u32::MAX, width);
    let facts = rng.pick(&[few, few, few | 0x8000_0001, u32::MAX]);
    let small = rng.pick(&[1, 2, 3, 4, 6, 8, 12, 16]);
    let count = match rng.below(80) {
        0 => 128,
        1 => 127,
        2 => 64,
        _ => small,
    };
    World::grow(rng, count, facts)
}

/// An offer that passes, most often damaged in one or more ways.
fn any_offer(rng: &mut Rng, world: &World) -> Vec<u8> {
    let mut offer = world.passing_offer(rng);
    for _ in 0..rng.pick(&[0, 0, 1, 1, 1, 2, 2, 4]) {
        damage_facts(rng, world, &mut offer);
    }
    if rng.one_in(6) {
        damage_format(rng, world, &mut offer);
    }
    let mut bytes = offer.bytes();
    if rng.one_in(12) {
        damage_bytes(rng, &mut bytes);
    }
    bytes
}

/// The plant with up to four faults, at one or more levels.
pub fn bad_plant(rng: &mut Rng, world: &World) -> Vec<u8> {
    let mut actions = world.actions.clone();
    let faults = [rng.below(3), rng.below(2), rng.below(2)];
    for _ in 0..faults[0] {
        let last = actions.len() - 1;
        let anywhere = rng.below(actions.len());
        let action = rng.pick(&[0, last, anywhere]);
        damage_action(rng, &mut actions[action]);
    }
    let mut draft = PlantDraft::new(&actions);
    for _ in 0..faults[1] {
        damage_layout(rng, &mut draft);
    }
    let mut bytes = draft.bytes();
    for _ in 0..faults[2] {
        damage_bytes(rng, &mut bytes);
    }
    bytes
}

/// Any bytes with a given end.
fn noise(rng: &mut Rng, end: [u8; 4]) -> Vec<u8> {
    let length = rng.below(80);
    let mut bytes: Vec<u8> = (0..length).map(|_| rng.edge() as u8).collect();
    bytes.extend(end);
    bytes
}
