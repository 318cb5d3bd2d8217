//! The line of a resource: its uses in their order.

use super::Rule;
use independent::board::MOST_USES;
use independent::offer::Allocation;
use independent::plant::MOST_TIME;

/// How many uses a line has room for.
pub const ROOM: usize = MOST_USES;

#[derive(Clone, Copy, Default)]
pub struct Use {
    point: u32,
    offset: i32,
    length: i32,
}

impl Use {
    /// The use of an allocation, where its job's points begin with `first`.
    pub fn of(wanted: &Allocation, first: usize) -> Self {
        Use {
            point: (first + wanted.step) as u32,
            offset: wanted.offset as i32,
            length: wanted.length as i32,
        }
    }

    /// This use ends no later than the other starts.
    fn before(self, other: Use) -> Rule {
        let least = self.offset + self.length - other.offset;
        Rule::new(self.point as usize, other.point as usize, least)
    }
}

#[derive(Clone, Copy, Default)]
pub struct Line {
    count: usize,
    uses: [Use; ROOM],
}

impl Line {
    pub fn count(&self) -> usize {
        self.count
    }

    fn uses(&self) -> &[Use] {
        &self.uses[..self.count]
    }

    pub fn is_sound(&self, live: usize) -> bool {
        let most = MOST_TIME as i32;
        self.count <= ROOM
            && self.uses().iter().all(|one| {
                (1..live as u32).contains(&one.point)
                    && (0..=most).contains(&one.offset)
                    && (1..=most).contains(&one.length)
            })
    }

    /// Puts a use after so many others and tells the rules with its neighbours.
    pub fn insert(&mut self, place: usize, new: Use, tell: &mut impl FnMut(Rule)) {
        self.uses.copy_within(place..self.count, place + 1);
        self.uses[place] = new;
        self.count += 1;
        if place > 0 {
            tell(self.uses[place - 1].before(new));
        }
        if place + 1 < self.count {
            tell(new.before(self.uses[place + 1]));
        }
    }

    pub fn remove(&mut self, place: usize) {
        self.uses.copy_within(place + 1..self.count, place);
        self.count -= 1;
    }

    /// Whether each use of the points 1 to `last` has ended by the clock.
    pub fn is_over(&self, last: usize, clock: i32, time: impl Fn(usize) -> i32) -> bool {
        let mut leaving = self.uses().iter().filter(|one| one.point as usize <= last);
        leaving.all(|one| time(one.point as usize) + one.offset + one.length <= clock)
    }

    /// Takes out the uses of the points 1 to `last`; those of later points are renumbered.
    pub fn retire(&mut self, last: usize) {
        let mut kept = 0;
        for place in 0..self.count {
            let mut one = self.uses[place];
            if one.point as usize > last {
                one.point -= last as u32;
                self.uses[kept] = one;
                kept += 1;
            }
        }
        self.count = kept;
    }
}
