//! A range of memory lent to the product, beside what should stand there after the call.

use std::fmt::Display;

/// What guards and the words that a call should leave alone hold before it.
pub const PATTERN: u32 = 0xA5C3_5A3C;
/// The same of bytes.
pub const BYTE_PATTERN: u8 = 0xC3;

/// Guards before and after the range are part of both. A range without guards is a block of the heap
/// just as long as it is, so that a tool that watches the heap sees what reads past its ends.
pub struct Range<T> {
    lent: Vec<T>,
    wanted: Vec<T>,
    guard: usize,
}

impl<T: Copy + Display + PartialEq> Range<T> {
    /// The range as the product gets it; an empty one is NULL where it may be.
    pub fn lend(&mut self, may_be_null: bool) -> Option<&mut [T]> {
        let end = self.lent.len() - self.guard;
        let range = &mut self.lent[self.guard..end];
        Some(range).filter(|range| !(may_be_null && range.is_empty()))
    }

    /// What should stand in the range after the call.
    pub fn wanted(&mut self) -> &mut [T] {
        let end = self.wanted.len() - self.guard;
        &mut self.wanted[self.guard..end]
    }

    /// The first word or byte, guards included, that is not as it should be.
    pub fn difference(&self, name: &str) -> Option<String> {
        if self.lent == self.wanted {
            return None;
        }
        let mut pairs = self.lent.iter().zip(&self.wanted);
        let at = pairs.position(|(lent, wanted)| lent != wanted)?;
        let place = at as i64 - self.guard as i64;
        let (lent, wanted) = (self.lent[at], self.wanted[at]);
        let length = self.lent.len() - 2 * self.guard;
        Some(format!(
            "{name} of {length}, place {place}: product {lent}, second implementation {wanted}"
        ))
    }

    fn between(content: &[T], guards: &[T]) -> Self {
        let all = [guards, content, guards].concat();
        Range {
            lent: all.clone(),
            wanted: all,
            guard: guards.len(),
        }
    }
}

impl Range<u8> {
    /// A range between so many guard bytes on each side. Without them it begins where a block does;
    /// with them, so many bytes further.
    pub fn guarded_bytes(content: &[u8], guard: usize) -> Self {
        Range::between(content, &vec![BYTE_PATTERN; guard])
    }
}

impl Range<u32> {
    /// A range between so many guard words on each side.
    pub fn guarded(content: &[u32], guard: usize) -> Self {
        Range::between(content, &vec![PATTERN; guard])
    }

    /// Both sides go on with these words.
    pub fn set(&mut self, content: &[u32]) {
        let end = self.lent.len() - self.guard;
        self.lent[self.guard..end].copy_from_slice(content);
        self.wanted().copy_from_slice(content);
    }
}

#[cfg(test)]
mod tests {
    use super::*;

    #[test]
    fn a_change_is_seen_in_the_range_and_in_its_guards() {
        for guard in [0, 1, 4] {
            let range = Range::guarded(&[1, 2, 3], guard);
            assert_eq!(range.difference("words"), None);
            for at in 0..3 + 2 * guard {
                let mut changed = Range::guarded(&[1, 2, 3], guard);
                changed.lent[at] ^= 1 << 31;
                let place = format!("place {}:", at as i64 - guard as i64);
                let told = changed.difference("words").unwrap();
                assert!(told.contains(&place), "{told}");
            }
        }
    }

    #[test]
    fn a_changed_byte_is_seen_too() {
        for guard in [0, 1, 5] {
            for at in 0..3 + 2 * guard {
                let mut changed = Range::guarded_bytes(&[1, 2, 3], guard);
                assert_eq!(changed.difference("bytes"), None);
                changed.lent[at] ^= 1;
                let place = format!("place {}:", at as i64 - guard as i64);
                let told = changed.difference("bytes").unwrap();
                assert!(told.contains(&place), "{told}");
            }
        }
    }

    #[test]
    fn only_an_empty_range_is_null() {
        let lent = |content: &[u32], null| Range::guarded(content, 2).lend(null).is_some();
        assert!(lent(&[], false) && !lent(&[], true));
        assert!(lent(&[1], false) && lent(&[1], true));
    }
}
