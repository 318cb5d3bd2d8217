//! Small plants and offers cut at every byte and damaged at every bit.

use super::draft::{plant_file, proving_offer, proving_plant};
use super::rng::Rng;
use super::world::World;
use super::List;

pub fn sweeps(rng: &mut Rng, list: &mut List) {
    sweep(
        list,
        &plant_file(&proving_plant()),
        &proving_offer().bytes(),
    );
    let world = World::grow(rng, 2, 0x8000_0003);
    let offer = world.passing_offer(rng).bytes();
    sweep(list, &plant_file(&world.actions), &offer);
}

fn sweep(list: &mut List, file: &[u8], offer: &[u8]) {
    for cut in 0..=file.len() {
        list.try_plant(file[..cut].to_vec(), offer);
        list.try_plant(file[cut..].to_vec(), offer);
    }
    for damaged in one_bit_damages(file) {
        list.try_plant(damaged, offer);
    }
    list.plant(file.to_vec());
    for cut in 0..=offer.len() {
        list.fact(&offer[..cut]);
    }
    for damaged in one_bit_damages(offer) {
        list.fact(&damaged);
    }
}

fn one_bit_damages(bytes: &[u8]) -> impl Iterator<Item = Vec<u8>> + '_ {
    (0..8 * bytes.len()).map(|bit| {
        let mut damaged = bytes.to_vec();
        damaged[bit / 8] ^= 1 << (bit % 8);
        damaged
    })
}
