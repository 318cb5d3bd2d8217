//! Plant and offer as they are lent, beside what should stand there after the call.

use crate::case::Beside;
use std::ops::Range;

/// What stands around plant and offer in a block that holds both.
const AROUND: u8 = 0xA5;

/// One block of the heap for each, just as long as it is, so that a tool that watches the heap sees
/// what reads past its ends; or both in the middle of one block, so that they may begin anywhere and
/// each has bytes around it.
pub struct Bytes {
    lent: Vec<Vec<u8>>,
    wanted: Vec<Vec<u8>>,
    plant: Part,
    offer: Part,
}

/// A part of a block.
struct Part {
    block: usize,
    range: Range<usize>,
}

impl Bytes {
    pub fn apart(plant: &[u8], offer: &[u8]) -> Self {
        let part = |block, bytes: &[u8]| Part {
            block,
            range: 0..bytes.len(),
        };
        let blocks = vec![plant.to_vec(), offer.to_vec()];
        Bytes::new(blocks, part(0, plant), part(1, offer))
    }

    pub fn beside(plant: &[u8], offer: &[u8], beside: &Beside) -> Self {
        let mut block = vec![AROUND; beside.before];
        let mut put = |bytes: &[u8], around: usize| {
            let start = block.len();
            block.extend(bytes);
            let range = start..block.len();
            block.extend(vec![AROUND; around]);
            Part { block: 0, range }
        };
        let (plant, offer) = if beside.offer_first {
            let offer = put(offer, beside.between);
            (put(plant, beside.before), offer)
        } else {
            (put(plant, beside.between), put(offer, beside.before))
        };
        Bytes::new(vec![block], plant, offer)
    }

    fn new(blocks: Vec<Vec<u8>>, plant: Part, offer: Part) -> Self {
        Bytes {
            lent: blocks.clone(),
            wanted: blocks,
            plant,
            offer,
        }
    }

    /// The plant as the product gets it; an empty one is NULL where it may be.
    pub fn plant(&self, may_be_null: bool) -> Option<&[u8]> {
        self.lend(&self.plant, may_be_null)
    }

    pub fn offer(&self, may_be_null: bool) -> Option<&[u8]> {
        self.lend(&self.offer, may_be_null)
    }

    fn lend(&self, part: &Part, may_be_null: bool) -> Option<&[u8]> {
        let bytes = &self.lent[part.block][part.range.clone()];
        Some(bytes).filter(|bytes| !(may_be_null && bytes.is_empty()))
    }

    /// The first byte that is not as it should be.
    pub fn difference(&self) -> Option<String> {
        let blocks = self.lent.iter().zip(&self.wanted);
        let mut bytes = blocks.flat_map(|(lent, wanted)| lent.iter().zip(wanted));
        let at = bytes.position(|(lent, wanted)| lent != wanted)?;
        let [plant, offer] = [&self.plant.range, &self.offer.range];
        Some(format!(
            "byte {at} of the blocks with the plant ({plant:?}) and the offer ({offer:?}) was written"
        ))
    }
}

#[cfg(test)]
mod tests {
    use super::*;

    #[test]
    fn plant_and_offer_are_lent_whole_in_every_place() {
        for before in 0..4 {
            for between in 0..3 {
                for offer_first in [false, true] {
                    let beside = Beside {
                        before,
                        between,
                        offer_first,
                    };
                    let bytes = Bytes::beside(&[1, 2, 3], &[4, 5], &beside);
                    assert_eq!(bytes.plant(true), Some(&[1, 2, 3][..]));
                    assert_eq!(bytes.offer(true), Some(&[4, 5][..]));
                    assert_eq!(bytes.lent[0].len(), 2 * before + between + 5);
                }
            }
        }
    }

    #[test]
    fn a_change_is_seen_in_both_and_around_them() {
        let beside = Beside {
            before: 2,
            between: 1,
            offer_first: true,
        };
        let bytes = || Bytes::beside(&[1, 2, 3], &[4, 5], &beside);
        assert_eq!(bytes().difference(), None);
        for at in 0..bytes().lent[0].len() {
            let mut changed = bytes();
            changed.lent[0][at] ^= 1;
            let told = changed.difference().unwrap();
            assert!(told.starts_with(&format!("byte {at} ")), "{told}");
        }
        let mut apart = Bytes::apart(&[1], &[2]);
        apart.lent[1][0] = 3;
        assert!(apart.difference().is_some());
    }
}
