//! The shortest log that still shows a difference.

use crate::case::{Case, Step};
use crate::product::Product;
use crate::tally::Tally;
use crate::trial::{Difference, Trial};
use independent::log::Item;
use std::fmt;

pub struct Shortest<'a> {
    name: &'a str,
    pub steps: Vec<&'a Step>,
    pub difference: Difference,
}

/// Drops steps, first many at once, then fewer, and runs what is left from the start of the list,
/// until no step can go. `None` where the list shows no difference.
pub fn shortest<'a, P: Product>(product: &P, case: &'a Case) -> Option<Shortest<'a>> {
    let steps: Vec<&Step> = case.steps.iter().collect();
    // The rule book takes the most time, and most differences show without it.
    let by_definition = differs(product, case, &steps, false).is_none();
    let differs = |steps: &[&Step]| differs(product, case, steps, by_definition);
    let difference = differs(&steps)?;
    let mut size = steps.len();
    let mut log = Shortest {
        name: &case.name,
        steps,
        difference,
    };
    log.end_at_difference();
    loop {
        let dropped = log.drop_steps(size, differs);
        if size == 1 && !dropped {
            return Some(log);
        }
        size = size.div_ceil(2);
    }
}

fn differs<P: Product>(
    product: &P,
    case: &Case,
    steps: &[&Step],
    by_definition: bool,
) -> Option<Difference> {
    let mut uncounted = Tally::default();
    let mut trial = Trial::new(product, case, &mut uncounted);
    if !by_definition {
        trial.leave_out_definition();
    }
    trial.run(steps.iter().copied())
}

impl Shortest<'_> {
    fn end_at_difference(&mut self) {
        self.steps.truncate(self.difference.at + 1);
    }

    /// Tries to drop so many steps at each place, and says whether any could go.
    fn drop_steps(
        &mut self,
        size: usize,
        differs: impl Fn(&[&Step]) -> Option<Difference>,
    ) -> bool {
        let before = self.steps.len();
        let mut start = 0;
        while start < self.steps.len() {
            let end = self.steps.len().min(start + size);
            let fewer = [&self.steps[..start], &self.steps[end..]].concat();
            match differs(&fewer) {
                Some(difference) => {
                    (self.steps, self.difference) = (fewer, difference);
                    self.end_at_difference();
                }
                None => start = end,
            }
        }
        self.steps.len() < before
    }
}

/// A log that can be replayed, with the answers as a remark.
impl fmt::Display for Shortest<'_> {
    fn fmt(&self, f: &mut fmt::Formatter) -> fmt::Result {
        writeln!(f, "{}", Item::List(self.name.to_string()))?;
        for step in &self.steps {
            writeln!(f, "{}", step.item)?;
        }
        if let Some(last) = self.steps.last() {
            writeln!(f, "# lent: {}", last.lent())?;
        }
        write!(f, "# {}", self.difference.told)
    }
}

#[cfg(test)]
mod tests {
    use super::*;
    use crate::product::Lent;
    use crate::stand_in::{Right, Wrong};
    use crate::turns::Turns;
    use independent::board::BOARD_WORDS;

    /// Lists with one plant that reach their boards by calls alone, so that it is known how many
    /// items a board takes at least. What writes a plant has a board of its own, so that is left out.
    fn cases() -> impl Iterator<Item = Case> {
        let cases = Turns::new(7, 8).filter(|case| case.name.starts_with("retire-"));
        let one_plant = |mut case: Case| {
            let mut plants = 0;
            case.steps.retain(|step| {
                let word = step.item.word();
                plants += usize::from(word == "plant");
                word != "write" && (word != "plant" || plants == 1)
            });
            case
        };
        let by_calls = |case: &Case| case.steps.iter().all(|step| step.item.word() != "board");
        cases.map(one_plant).filter(by_calls).take(25)
    }

    /// In every list that shows the fault, these items must be left; some lists must show it.
    fn assert_left(items: &[&str], spoil: fn(&Item, u32, Lent) -> u32) {
        let mut seen = 0;
        for case in cases() {
            if let Some(log) = shortest(&Wrong(spoil), &case) {
                let left: Vec<&str> = log.steps.iter().map(|step| step.item.word()).collect();
                assert_eq!(left, items, "{}", case.name);
                assert_eq!(log.difference.at + 1, items.len());
                seen += 1;
            }
        }
        assert!(seen > 5, "seen in {seen} lists");
    }

    #[test]
    fn a_list_without_a_difference_has_no_shortest_log() {
        assert!(cases().all(|case| shortest(&Right, &case).is_none()));
    }

    #[test]
    fn a_wrong_number_at_the_third_job_takes_three_plans() {
        assert_left(
            &["plant", "fresh", "plan", "plan", "plan"],
            |_, number, lent| match lent.board {
                Some([_, _, _, 3, ..]) if number == 0 => 17,
                _ => number,
            },
        );
    }

    #[test]
    fn a_wrong_cell_after_a_clock_takes_a_board() {
        let fault = |item: &Item, number, lent: Lent| {
            if let (Item::Clock(_), 0, Some([.., last_cell])) = (item, number, lent.board) {
                *last_cell += 1;
            }
            number
        };
        assert_left(&["fresh", "clock"], fault);
    }

    #[test]
    fn a_word_written_by_a_refused_send_takes_a_board() {
        let fault = |_: &Item, number, lent: Lent| {
            if let (18, Some([_, _, clock, ..])) = (number, lent.board) {
                *clock += 1;
            }
            number
        };
        assert_left(&["fresh", "send"], fault);
    }

    #[test]
    fn a_word_written_past_the_value_takes_one_plan() {
        let fault = |item: &Item, number, lent: Lent| {
            if let (Item::Plan(_), Some([_, past])) = (item, lent.cause) {
                *past = 0;
            }
            number
        };
        assert_left(&["plan"], fault);
    }

    #[test]
    fn a_word_written_past_the_rows_takes_a_board() {
        let fault = |item: &Item, number, lent: Lent| {
            if let (Item::Report(_), 0, Some([.., last])) = (item, number, lent.rows) {
                *last = 0;
            }
            number
        };
        assert_left(&["fresh", "report"], fault);
    }

    #[test]
    fn a_board_of_another_length_taken_takes_one_call() {
        let fault = |item: &Item, number, lent: Lent| match (item, lent.board) {
            (Item::Retire, Some(board)) if board.len() == BOARD_WORDS + 1 => 21,
            _ => number,
        };
        assert_left(&["retire"], fault);
    }

    #[test]
    fn the_shortest_log_can_be_replayed() {
        let fault = |_: &Item, number, _: Lent| if number == 17 { 0 } else { number };
        let case = cases().find(|case| shortest(&Wrong(fault), case).is_some());
        let case = case.expect("a list with 17");
        let log = shortest(&Wrong(fault), &case).unwrap().to_string();
        let items = log
            .lines()
            .map(|line| independent::log::parse(line).unwrap());
        let words: Vec<&str> = items.flatten().map(|item| item.word()).collect();
        assert_eq!(words, ["list", "plant", "fresh", "plan"]);
        assert!(
            log.ends_with("# product 0, second implementation 17"),
            "{log}"
        );
    }
}
