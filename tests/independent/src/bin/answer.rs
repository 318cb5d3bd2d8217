//! `answer LOG` writes the answers of this implementation's fast form to a call log. Soak takes that
//! form for what is right, so it is held against the definition by `compare` too.

use independent::board::Fast;
use independent::log;
use independent::replay::Session;
use std::fs::File;
use std::io::{self, BufRead, BufReader, BufWriter, Write};
use std::process::ExitCode;

fn main() -> ExitCode {
    let arguments: Vec<String> = std::env::args().skip(1).collect();
    let [log] = &arguments[..] else {
        eprintln!("usage: answer LOG");
        return ExitCode::FAILURE;
    };
    match answer(log) {
        Ok(()) => ExitCode::SUCCESS,
        Err(error) => {
            eprintln!("answer: {error}");
            ExitCode::FAILURE
        }
    }
}

fn answer(path: &str) -> io::Result<()> {
    let mut out = BufWriter::new(io::stdout().lock());
    let mut session = Session::<Fast>::default();
    for line in BufReader::new(File::open(path)?).lines() {
        let item = log::parse(&line?).map_err(io::Error::other)?;
        if let Some(answer) = item.as_ref().and_then(|item| session.answer(item)) {
            writeln!(out, "{answer}")?;
        }
    }
    out.flush()
}
