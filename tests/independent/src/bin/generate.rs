//! `generate SEED CALLS [KIND]` writes a call log of that many calls to standard output. The kind
//! is `read` (the default), `board`, or `retire` for boards with retire.

use independent::generate::generate;
use independent::kind::Kind;
use std::io::{self, BufWriter, Write};
use std::process::ExitCode;

fn main() -> ExitCode {
    let arguments: Vec<String> = std::env::args().skip(1).collect();
    let Some((seed, calls, kind)) = parse(&arguments) else {
        eprintln!("usage: generate SEED CALLS [read | board | retire]");
        return ExitCode::FAILURE;
    };
    let mut out = BufWriter::new(io::stdout().lock());
    match generate(seed, calls, kind, &mut out).and_then(|()| out.flush()) {
        Ok(()) => ExitCode::SUCCESS,
        Err(error) => {
            eprintln!("generate: {error}");
            ExitCode::FAILURE
        }
    }
}

fn parse(arguments: &[String]) -> Option<(u64, u64, Kind)> {
    let (numbers, kind) = match arguments {
        [numbers @ .., kind] if numbers.len() == 2 => (numbers, kind.parse().ok()?),
        numbers => (numbers, Kind::Read),
    };
    match numbers {
        [seed, calls] => Some((seed.parse().ok()?, calls.parse().ok()?, kind)),
        _ => None,
    }
}
