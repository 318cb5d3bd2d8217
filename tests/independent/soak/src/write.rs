//! Lets the product write a plant file, compares all that can be seen of it, and has both readers read
//! what was written.

use crate::case::Step;
use crate::lender::{Lender, Wanted};
use crate::product::{LentToWrite, Product};
use crate::range::Range;
use crate::second::answer;
use crate::tally::Way;
use crate::writing::Written;
use independent::board::{fast, BOARD_WORDS, MOST_HORIZON};
use independent::generate::draft::OfferDraft;
use independent::log::Item;
use independent::plant::Plant;
use independent::write::{actions_in, Fields, ACTION_WORDS, MOST_FILE};
use std::time::Instant;

impl<P: Product> Lender<'_, P> {
    /// The call of a step that writes these actions into a buffer of so many bytes.
    pub fn write(&mut self, step: &Step, room: u32, actions: &[Fields]) -> Result<(), String> {
        let writing = &step.lending.writing;
        let room = room as usize + writing.more_room;
        let words = writing.words(actions);
        self.write_odd_words(step, &words, room)?;
        self.write_other_count(step, &words, room)?;
        let written = self.write_once(step, &words, room)?;
        self.tally.numbers[written.number as usize] += 1;
        self.count_ways(step, &words, room);
        match written.file {
            Some(file) => self.read_back(step, actions, file),
            None => Ok(()),
        }
    }

    /// Asks the product once and compares. An error tells both sides' answers.
    fn write_once(&mut self, step: &Step, words: &[u32], room: usize) -> Result<Written, String> {
        let null = step.lending.null;
        let mut ranges = Written::wanted(words, room, &step.lending.writing, self.guard);
        let lent = LentToWrite {
            actions: ranges.actions.lend(null).map(|words| &*words),
            plant: ranges.plant.lend(null),
            written: ranges.written.lend(null),
        };
        let start = Instant::now();
        let number = self.product.write(lent);
        self.tally.in_product += start.elapsed();
        let wanted = ranges.number;
        if number != wanted {
            return Err(format!("product {number}, second implementation {wanted}"));
        }
        match ranges.difference() {
            Some(told) => Err(format!("both {number}, but {told}")),
            None => Ok(ranges),
        }
    }

    /// Words that are no whole number of actions: those of the step and some of one more.
    fn write_odd_words(&mut self, step: &Step, words: &[u32], room: usize) -> Result<(), String> {
        let Some(odd) = step.lending.writing.odd_words else {
            return Ok(());
        };
        let one_more = words.iter().copied().chain([1; ACTION_WORDS]).take(odd);
        let words: Vec<u32> = words.iter().copied().chain(one_more).collect();
        let compared = self.write_once(step, &words, room);
        compared.map_err(|told| format!("with {} words: {told}", words.len()))?;
        self.tally.see(Way::OddWords);
        Ok(())
    }

    /// More actions than a log has a line for: those of the step again and again.
    fn write_other_count(&mut self, step: &Step, words: &[u32], room: usize) -> Result<(), String> {
        let count = step.lending.writing.other_count;
        let Some(count) = count.filter(|_| !words.is_empty()) else {
            return Ok(());
        };
        let words = words.iter().copied().cycle();
        let words: Vec<u32> = words.take(ACTION_WORDS * count).collect();
        let compared = self.write_once(step, &words, room);
        compared.map_err(|told| format!("with {count} actions: {told}"))?;
        self.tally.see(Way::OtherCount(count));
        Ok(())
    }

    fn count_ways(&mut self, step: &Step, words: &[u32], room: usize) {
        let writing = &step.lending.writing;
        let file = Written::wanted(words, MOST_FILE, writing, 0).file;
        let length = file.as_ref().map_or(0, Vec::len);
        let good = file.is_some();
        let unaligned = self.guard > 0 && !writing.shift.is_multiple_of(4) && room >= length;
        let ways = [
            (Way::FileMoreRoom, good && room > length),
            (Way::FileJustRoom, good && room == length),
            (Way::FileOneShort, good && room + 1 == length),
            (Way::FileNoRoom, good && room == 0),
            (Way::RefusedWithoutRoom, !good && room == 0),
            (Way::Unaligned, good && unaligned),
            (Way::WrittenRoom(writing.written_room), true),
        ];
        for (way, _) in ways.into_iter().filter(|(_, seen)| *seen) {
            self.tally.see(way);
        }
    }

    /// The second reader must read the actions that were written. The product must rule on an offer
    /// of one of them, and plan it, as the second implementation does.
    fn read_back(&mut self, step: &Step, actions: &[Fields], file: Vec<u8>) -> Result<(), String> {
        let read = Plant::read(&file).map(|plant| actions_in(&plant));
        if read.as_deref() != Ok(actions) {
            return Err("the second reader reads other actions than were written".to_string());
        }
        let action = step.lending.writing.action_to_read(actions.len());
        let offer = OfferDraft::alone(action as u32, &actions[action]).bytes();
        let plant = std::mem::replace(&mut self.plant, file);
        let asked = [Item::Fact(offer.clone()), Item::Plan(offer)];
        let compared = asked.into_iter().try_for_each(|item| self.ask(step, item));
        self.plant = plant;
        compared.map_err(|told| format!("the written file read back: {told}"))
    }

    /// Asks on a fresh board.
    fn ask(&mut self, step: &Step, item: Item) -> Result<(), String> {
        let mut words = [0; BOARD_WORDS];
        fast::fresh(&mut words, MOST_HORIZON, 0).map_err(|_| "no fresh board".to_string())?;
        let mut board = Range::guarded(&words, self.guard);
        let answer = answer(&item, &self.plant, board.wanted());
        let wanted = Wanted::of(&item, answer);
        let lending = step.lending.clone();
        self.compare(&Step { item, lending }, &mut board, &wanted)?;
        self.tally.see(Way::ReadBack);
        Ok(())
    }
}

#[cfg(test)]
mod tests {
    use super::*;
    use crate::case::{Case, Lending};
    use crate::shortest::shortest;
    use crate::stand_in::{Right, WrongWriter};
    use crate::tally::Tally;
    use crate::trial::Trial;
    use crate::writing::{OTHER_COUNTS, WRITTEN_ROOMS};
    use independent::generate::{self, rng::Rng};
    use independent::kind::Kind;

    /// The lists that write at every limit, and some random ones.
    fn cases() -> impl Iterator<Item = Case> {
        let mut rng = Rng::new(7);
        let lists = generate::lists(7, Kind::Read);
        let writing =
            lists.filter(|(name, _)| name.starts_with("write-") || name.starts_with("random-"));
        writing.take(12).map(move |(name, items)| {
            let steps = items.into_iter().map(|item| Step {
                item,
                lending: Lending::any(&mut rng),
            });
            Case {
                name,
                steps: steps.collect(),
                guard: 8,
                by_definition: false,
            }
        })
    }

    /// Some list must show the fault, and a list that does must be left with one call.
    fn assert_seen(spoil: fn(u32, LentToWrite) -> u32) {
        let case = cases().find(|case| shortest(&WrongWriter(spoil), case).is_some());
        let case = case.expect("a list that shows it");
        let log = shortest(&WrongWriter(spoil), &case).unwrap();
        let left: Vec<&str> = log.steps.iter().map(|step| step.item.word()).collect();
        assert_eq!(left, ["write"], "{log}");
        let text = log.to_string();
        assert!(
            text.contains("# lent: ") && text.contains("past n"),
            "{text}"
        );
    }

    #[test]
    fn a_right_writer_shows_no_difference_and_every_way_is_tried() {
        let mut tally = Tally::default();
        for case in cases() {
            let trial = Trial::new(&Right, &case, &mut tally);
            assert!(trial.run(&case.steps).is_none());
        }
        for way in [Way::OddWords, Way::ReadBack, Way::Unaligned] {
            assert!(tally.ways[&way] > 20, "{way}");
        }
        assert!(tally.ways.contains_key(&Way::FileNoRoom));
        for count in OTHER_COUNTS {
            assert!(tally.ways.contains_key(&Way::OtherCount(count)), "{count}");
        }
        for way in [Way::FileMoreRoom, Way::FileJustRoom, Way::FileOneShort] {
            assert!(tally.ways[&way] > 200, "{way}");
        }
        assert!(tally.ways[&Way::RefusedWithoutRoom] > 200);
        for room in WRITTEN_ROOMS {
            assert!(tally.ways[&Way::WrittenRoom(room)] > 200, "{room}");
        }
        for number in [0, 2, 3, 4, 22] {
            assert!(tally.numbers[number] > 20, "{number}");
        }
    }

    #[test]
    fn a_byte_past_the_file_is_seen() {
        assert_seen(|number, lent| {
            if let (0, Some(plant), Some([_, length, ..])) = (number, lent.plant, lent.written) {
                if let Some(past) = plant.get_mut(*length as usize) {
                    *past = 0;
                }
            }
            number
        });
    }

    #[test]
    fn a_byte_written_by_a_refusal_is_seen() {
        assert_seen(|number, lent| {
            if let (3 | 22, Some([first, ..])) = (number, lent.plant) {
                *first = 1;
            }
            number
        });
    }

    #[test]
    fn a_length_told_by_a_refusal_and_a_lost_value_are_seen() {
        assert_seen(|number, lent| {
            if let (22, Some([_, length, ..])) = (number, lent.written) {
                *length = 120;
            }
            number
        });
        assert_seen(|number, lent| {
            if let (4, Some([value, ..])) = (number, lent.written) {
                *value = 0;
            }
            number
        });
    }

    #[test]
    fn a_third_word_is_seen() {
        assert_seen(|number, lent| {
            if let Some([_, _, third, ..]) = lent.written {
                *third = 0;
            }
            number
        });
    }

    #[test]
    fn wrong_orders_and_limits_are_seen() {
        // 22 before 4
        assert_seen(|number, lent| match (number, lent.plant) {
            (4, None | Some([])) => 22,
            _ => number,
        });
        // words that are left over
        assert_seen(|number, lent| {
            let words = lent.actions.map_or(0, <[u32]>::len);
            if words > ACTION_WORDS && words % ACTION_WORDS > 0 {
                0
            } else {
                number
            }
        });
        // the low half of the count
        assert_seen(|number, lent| {
            let count = lent.actions.map_or(0, <[u32]>::len) / ACTION_WORDS;
            if count == 65_537 {
                0
            } else {
                number
            }
        });
        // the low byte of n
        assert_seen(|number, lent| match lent.actions {
            Some([_, _, _, _, _, _, 256, ..]) if number == 3 => 22,
            _ => number,
        });
        // an allocation past n
        assert_seen(|number, lent| match lent.actions {
            Some([_, _, _, _, _, _, 0, past, ..]) if number == 0 && *past > 15 => 4,
            _ => number,
        });
    }
}
