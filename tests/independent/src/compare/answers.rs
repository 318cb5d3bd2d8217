//! Answers as another implementation wrote them, some of more lines than one.

use std::io::{self, BufRead, Lines};

/// How the later lines of an answer begin.
const LATER_LINES: [&str; 4] = ["t ", "j ", "l ", "r "];

pub struct Answers<R> {
    lines: Lines<R>,
    /// The first line of the next answer, once read.
    first: Option<String>,
}

impl<R: BufRead> Answers<R> {
    pub fn new(answers: R) -> Self {
        Answers {
            lines: answers.lines(),
            first: None,
        }
    }

    /// All lines of the next answer.
    pub fn next(&mut self) -> io::Result<Option<String>> {
        let first = match self.first.take() {
            Some(first) => Some(first),
            None => self.lines.next().transpose()?,
        };
        let Some(mut answer) = first else {
            return Ok(None);
        };
        while let Some(line) = self.lines.next().transpose()? {
            if !LATER_LINES.iter().any(|begin| line.starts_with(begin)) {
                self.first = Some(line);
                break;
            }
            answer.push('\n');
            answer.push_str(&line);
        }
        Ok(Some(answer))
    }
}

/// The first line in which two answers differ.
pub fn first_difference<'a>(expected: &'a str, got: &'a str) -> Option<(&'a str, &'a str)> {
    if expected == got {
        return None;
    }
    let end = std::iter::repeat("(nothing)");
    let got = got.split('\n').chain(end.clone());
    let expected_lines = expected.split('\n').chain(end);
    expected_lines
        .zip(got)
        .find(|(expected, got)| expected != got)
}
