//! Holds another implementation's answers to a call log against this one's, and the fact check
//! against its forward definition; also counts what was seen, so that a poor log is told.

mod answers;
mod dues;
mod floors;
mod reach;
mod sights;
mod tally;

use crate::facts::{fact_check, fact_check_forward};
use crate::kind::Kind;
use crate::log::{self, Item};
use crate::plant::Plant;
use crate::replay::{Answer, Session};
use crate::ruling::Ruling;
use crate::write::actions_in;
use answers::{first_difference, Answers};
use dues::Dues;
use reach::Reach;
use sights::Sight;
use std::collections::BTreeMap;
use std::fmt;
use std::io::{self, BufRead};
use tally::Tally;

/// How many jobs must have retired from one board for it to count.
const HUNDREDS: usize = 200;

/// How many differences are told in full.
const MOST_TOLD: usize = 5;

/// What a comparison saw and found.
#[derive(Default)]
pub struct Comparison {
    lists: usize,
    calls: BTreeMap<&'static str, Tally>,
    sights: BTreeMap<Sight, usize>,
    reach: Reach,
    dues: Dues,
    differences: usize,
    told: Vec<String>,
    /// How many jobs have retired from the board that is current.
    retired: usize,
}

/// Replays the log and compares answer by answer, both streaming.
pub fn compare(log: impl BufRead, answers: impl BufRead) -> io::Result<Comparison> {
    let mut comparison = Comparison::default();
    let mut session: Session = Session::default();
    let mut answers = Answers::new(answers);
    let mut list_line = 0;
    for (number, line) in (1..).zip(log.lines()) {
        let line = line?;
        let item = match log::parse(&line) {
            Ok(None) => continue,
            Ok(Some(item)) => item,
            Err(why) => {
                comparison.differ(format!("line {number} is no line of a log: {why}"));
                return Ok(comparison);
            }
        };
        comparison.dues.look_ahead(&item, &session);
        let Some(answer) = session.answer(&item) else {
            comparison.count_by_hand(&item, &session);
            comparison.count_reached(&item, None, &session);
            continue;
        };
        comparison.count(&item, &answer);
        comparison.compare_read_back(number, &item, &answer);
        let ruling = match answer {
            Answer::Ruling(ruling) => Some(ruling),
            _ => None,
        };
        if let Answer::List(_) = answer {
            list_line = number;
        }
        let expected = answer.to_string();
        let Some(got) = answers.next()? else {
            comparison.differ(format!("line {number}: {line}\n  the answer is missing"));
            return Ok(comparison);
        };
        if let Some((expected, got)) = first_difference(&expected, &got) {
            comparison.differ(format!(
                "line {number}: {line}\n  expected {expected}\n  got      {got}\n  \
                 its list begins in line {list_line}"
            ));
        }
        comparison.count_reached(&item, ruling, &session);
        if let Item::Fact(offer) = &item {
            comparison.compare_forward(number, session.plant(), offer);
        }
    }
    if let Some(surplus) = answers.next()? {
        comparison.differ(format!("a surplus answer after the last: {surplus}"));
    }
    Ok(comparison)
}

impl Comparison {
    fn differ(&mut self, text: String) {
        self.differences += 1;
        if self.told.len() < MOST_TOLD {
            self.told.push(text);
        }
    }

    fn count(&mut self, item: &Item, answer: &Answer) {
        if let Answer::Ruling(ruling) = answer {
            self.calls.entry(item.word()).or_default().count(*ruling);
            self.count_retired(item, *ruling);
        }
        if let Answer::Rows(_) | Answer::Written(_) = answer {
            let tally = self.calls.entry(item.word()).or_default();
            tally.count(Ruling::Accepted);
        }
        for sight in Sight::all_of(answer) {
            self.see(sight);
        }
        if let Answer::Table(board) = answer {
            let sight = self.dues.table(board);
            sight
                .into_iter()
                .for_each(|sight| self.see(Sight::Due(sight)));
        }
        if let Answer::List(_) = answer {
            self.lists += 1;
        }
    }

    /// Counts the jobs that retire from one board, however many others are planned meanwhile.
    fn count_retired(&mut self, item: &Item, ruling: Ruling) {
        match item {
            Item::Fresh(..) => self.retired = 0,
            Item::Retire if ruling == Ruling::Accepted => {
                self.retired += 1;
                if self.retired == HUNDREDS {
                    self.see(Sight::HundredsRetired);
                }
            }
            _ => {}
        }
    }

    fn count_by_hand(&mut self, item: &Item, session: &Session) {
        if let Item::Board(_) = item {
            self.retired = 0;
            match session.board().book() {
                Ok(_) => self.see(Sight::SoundByHand),
                Err(_) => self.see(Sight::UnsoundByHand),
            }
        }
    }

    /// What an item shows by its ruling, where it has one, and the board that stands after it.
    fn count_reached(&mut self, item: &Item, ruling: Option<Ruling>, session: &Session) {
        let accepted = ruling == Some(Ruling::Accepted);
        for sight in self.reach.sights(item, accepted, session) {
            self.see(sight);
        }
        let number = ruling.map(Ruling::number);
        for sight in self.dues.sights(item, number, session) {
            self.see(Sight::Due(sight));
        }
        self.sights
            .insert(Sight::EveryResource, self.reach.least_used());
    }

    fn see(&mut self, sight: Sight) {
        *self.sights.entry(sight).or_default() += 1;
    }

    fn seen(&self, sight: Sight) -> usize {
        self.sights.get(&sight).copied().unwrap_or(0)
    }

    /// Holds what was written against the reader: it must read the same actions.
    fn compare_read_back(&mut self, number: usize, item: &Item, answer: &Answer) {
        let (Item::Write(_, actions), Answer::Written(file)) = (item, answer) else {
            return;
        };
        let read = Plant::read(file).map(|plant| actions_in(&plant));
        if read.as_ref() != Ok(actions) {
            self.differ(format!(
                "line {number}: what was written is read as {read:?}"
            ));
        }
    }

    fn compare_forward(&mut self, number: usize, plant: &[u8], offer: &[u8]) {
        let Some(passed) = fact_check_forward(plant, offer) else {
            return;
        };
        let ruling = fact_check(plant, offer);
        if passed != (ruling == Ruling::Accepted) {
            let text = format!("line {number}: worked back {ruling}, but run forward {passed}");
            self.differ(text);
        }
        if passed {
            self.see(Sight::ForwardPassed);
        } else {
            self.see(Sight::ForwardFailed);
        }
        // Only the goal can have clashed: no offer with a known fact both ways is run forward.
        if ruling.number() == 10 {
            self.see(Sight::ForwardGoalClash);
        }
    }

    /// How many calls were compared; showing the board is none.
    fn calls(&self) -> usize {
        let parts = self.seen(Sight::EmptyPart) + self.seen(Sight::FilledPart);
        parts + self.calls.values().map(Tally::total).sum::<usize>()
    }

    /// All that speaks against the answers or the log; empty if the comparison succeeded.
    pub fn faults(&self, kind: Kind) -> Vec<String> {
        let mut faults = self.told.clone();
        if self.differences > self.told.len() {
            faults.push(format!("{} differences in all", self.differences));
        }
        let none = Tally::default();
        let least = floors::least_seen(kind);
        for floor in floors::floors(kind) {
            let call = floor.call;
            let tally = self.calls.get(call).unwrap_or(&none);
            let numbers = floor
                .numbers
                .iter()
                .map(|&number| (number, tally.times(number)));
            for (number, times) in numbers.filter(|&(_, times)| times < least) {
                faults.push(format!(
                    "{call} {number}: seen {times} times, wanted {least}"
                ));
            }
            let ends = floor
                .ends
                .iter()
                .flat_map(|&(number, last)| [(number, 0), (number, last)]);
            for (number, value) in ends.filter(|&(number, value)| !tally.has(number, value)) {
                faults.push(format!("{call} {number} {value}: not seen"));
            }
        }
        for (sight, least) in floors::sights(kind) {
            let seen = self.seen(sight);
            if seen < least {
                let what = sight.name();
                faults.push(format!("{what}: seen {seen} times, wanted {least}"));
            }
        }
        faults
    }
}

/// The summary.
impl fmt::Display for Comparison {
    fn fmt(&self, f: &mut fmt::Formatter) -> fmt::Result {
        write!(f, "compared {} calls in {} lists", self.calls(), self.lists)?;
        for (call, tally) in &self.calls {
            write!(f, "\n{call:6}{tally}")?;
        }
        for (sight, times) in &self.sights {
            write!(f, "\n{}: {times}", sight.name())?;
        }
        Ok(())
    }
}

#[cfg(test)]
mod tests;
