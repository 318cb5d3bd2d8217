//! `compare LOG ANSWERS [KIND]` holds the answers that a replay of the log printed against this
//! implementation's, and fails on a difference or if the log left something unseen that a log of
//! this kind must show.

use independent::compare::{compare, Comparison};
use independent::kind::Kind;
use std::fs::File;
use std::io::{self, BufReader};
use std::process::ExitCode;

fn main() -> ExitCode {
    let arguments: Vec<String> = std::env::args().skip(1).collect();
    let Some((log, answers, kind)) = parse(&arguments) else {
        eprintln!("usage: compare LOG ANSWERS [read | board | retire]");
        return ExitCode::FAILURE;
    };
    let comparison = match compare_files(log, answers) {
        Ok(comparison) => comparison,
        Err(error) => {
            eprintln!("compare: {error}");
            return ExitCode::FAILURE;
        }
    };
    println!("{comparison}");
    let faults = comparison.faults(kind);
    if faults.is_empty() {
        println!("no difference");
        return ExitCode::SUCCESS;
    }
    for fault in faults {
        println!("FAILED: {fault}");
    }
    ExitCode::FAILURE
}

fn parse(arguments: &[String]) -> Option<(&str, &str, Kind)> {
    match arguments {
        [log, answers] => Some((log, answers, Kind::Read)),
        [log, answers, kind] => Some((log, answers, kind.parse().ok()?)),
        _ => None,
    }
}

fn compare_files(log: &str, answers: &str) -> io::Result<Comparison> {
    compare(
        BufReader::new(File::open(log)?),
        BufReader::new(File::open(answers)?),
    )
}
