//! The rules among live points, each in a chain of the rules that leave its first point and in one
//! of those that reach its second.

use crate::plain::Rule;
use independent::board::{MOST_JOBS, MOST_POINTS, MOST_USES, RESOURCES, SIDE};

/// Two for each step, two for each use, one for each job's batch.
const ROOM: usize = 2 * MOST_POINTS + 2 * RESOURCES * MOST_USES + MOST_JOBS;

/// The end of a chain.
const END: u16 = u16::MAX;

#[derive(Clone, Copy)]
struct Link {
    from: u8,
    to: u8,
    next_from: u16,
    next_to: u16,
    least: i32,
}

impl Link {
    const NONE: Link = Link {
        from: 0,
        to: 0,
        next_from: END,
        next_to: END,
        least: 0,
    };

    fn rule(self) -> Rule {
        Rule::new(usize::from(self.from), usize::from(self.to), self.least)
    }
}

#[derive(Clone)]
pub struct Rules {
    count: usize,
    links: [Link; ROOM],
    /// The newest rule that leaves each point.
    leaving: [u16; SIDE],
    /// The newest rule that reaches each point.
    reaching: [u16; SIDE],
}

impl Rules {
    pub const NONE: Rules = Rules {
        count: 0,
        links: [Link::NONE; ROOM],
        leaving: [END; SIDE],
        reaching: [END; SIDE],
    };

    pub fn count(&self) -> usize {
        self.count
    }

    pub fn push(&mut self, rule: Rule) {
        let (leaving, reaching) = (&mut self.leaving[rule.from], &mut self.reaching[rule.to]);
        self.links[self.count] = Link {
            from: rule.from as u8,
            to: rule.to as u8,
            next_from: *leaving,
            next_to: *reaching,
            least: rule.least,
        };
        (*leaving, *reaching) = (self.count as u16, self.count as u16);
        self.count += 1;
    }

    /// Takes the newest rules off until so many are left.
    pub fn truncate(&mut self, count: usize) {
        for link in self.links[count..self.count].iter().rev() {
            self.leaving[usize::from(link.from)] = link.next_from;
            self.reaching[usize::from(link.to)] = link.next_to;
        }
        self.count = count;
    }

    pub fn iter(&self) -> impl Iterator<Item = Rule> + use<'_> {
        self.links[..self.count].iter().map(|link| link.rule())
    }

    pub fn leaving(&self, point: usize) -> impl Iterator<Item = Rule> + use<'_> {
        self.chain(self.leaving[point], |link| link.next_from)
    }

    pub fn reaching(&self, point: usize) -> impl Iterator<Item = Rule> + use<'_> {
        self.chain(self.reaching[point], |link| link.next_to)
    }

    fn chain(&self, newest: u16, next: fn(Link) -> u16) -> impl Iterator<Item = Rule> + use<'_> {
        let link = |number: u16| self.links.get(usize::from(number)).copied();
        let links = std::iter::successors(link(newest), move |&one| link(next(one)));
        links.map(Link::rule)
    }

    /// Drops the rules of the points 1 to `last` and renumbers the others.
    pub fn retire(&mut self, last: usize) {
        let count = self.count;
        self.count = 0;
        self.leaving = [END; SIDE];
        self.reaching = [END; SIDE];
        for number in 0..count {
            let Rule { from, to, least } = self.links[number].rule();
            if from > last && to > last {
                self.push(Rule::new(from - last, to - last, least));
            }
        }
    }
}
