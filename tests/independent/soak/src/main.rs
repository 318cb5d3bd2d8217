//! `soak SECONDS [SEED [bare]]` runs lists through the C interface and the second implementation for
//! so long and says what was seen. It fails on a difference, or if a run of some length left a number
//! unseen or a way to lend untried. `bare` leaves out the guard words around lent lists, for a tool that watches the heap.

mod c_interface;

use c_interface::CInterface;
use soak::shortest::shortest;
use soak::tally::Tally;
use soak::trial::Trial;
use soak::turns::Turns;
use std::process::ExitCode;
use std::time::{Duration, Instant, SystemTime, UNIX_EPOCH};

const MOST_SECONDS: u64 = 999_999;

/// How many guard words stand on each side of a lent list.
const GUARD_WORDS: usize = 8;

/// A run of so many seconds must see every number and try every way to lend.
const SECONDS_TO_SEE_ALL: u64 = 10;

fn main() -> ExitCode {
    let arguments: Vec<String> = std::env::args().skip(1).collect();
    let Some((seconds, seed, guard)) = parse(&arguments) else {
        eprintln!("usage: soak SECONDS [SEED [bare]], SECONDS from 1 to {MOST_SECONDS}");
        return ExitCode::FAILURE;
    };
    let seed = seed.unwrap_or_else(seed_of_this_moment);
    println!("seed {seed}: './soak {seconds} {seed}' runs the same lists again");
    let start = Instant::now();
    let Some(tally) = soak(seed, guard, start + Duration::from_secs(seconds)) else {
        return ExitCode::FAILURE;
    };
    let whole = start.elapsed().as_secs_f64();
    report(&tally, whole);
    let unseen = tally.unseen();
    // A run without guards may be one under a tool that makes it slow, and has no blocks for two.
    if guard > 0 && seconds >= SECONDS_TO_SEE_ALL && !unseen.is_empty() {
        println!("FAILED: never seen: {}", unseen.join(", "));
        return ExitCode::FAILURE;
    }
    println!("no difference");
    ExitCode::SUCCESS
}

fn parse(arguments: &[String]) -> Option<(u64, Option<u64>, usize)> {
    let (numbers, guard) = match arguments {
        [numbers @ .., last] if last == "bare" && numbers.len() == 2 => (numbers, 0),
        numbers => (numbers, GUARD_WORDS),
    };
    let (seconds, seed) = match numbers {
        [seconds] => (seconds, None),
        [seconds, seed] => (seconds, Some(seed.parse().ok()?)),
        _ => return None,
    };
    let seconds = seconds.parse().ok()?;
    let in_range = (1..=MOST_SECONDS).contains(&seconds);
    in_range.then_some((seconds, seed, guard))
}

fn seed_of_this_moment() -> u64 {
    let since = SystemTime::now().duration_since(UNIX_EPOCH);
    since.map_or(0, |since| since.as_micros() as u64)
}

/// Runs whole lists until the end of the time; `None` once a difference is told.
fn soak(seed: u64, guard: usize, end: Instant) -> Option<Tally> {
    let mut tally = Tally::default();
    for case in Turns::new(seed, guard) {
        tally.lists += 1;
        let trial = Trial::new(&CInterface, &case, &mut tally);
        if let Some(difference) = trial.run(&case.steps) {
            println!(
                "FAILED: list {}, seed {seed}: {}",
                case.name, difference.told
            );
            println!("the shortest log that shows it:\n");
            match shortest(&CInterface, &case) {
                Some(log) => println!("{log}"),
                None => println!("# none: the list run again shows no difference"),
            }
            return None;
        }
        if Instant::now() >= end {
            break;
        }
    }
    Some(tally)
}

fn report(tally: &Tally, seconds: f64) {
    let [lists, calls] = [tally.lists, tally.calls()];
    let rate = calls as f64 / seconds;
    let in_product = tally.in_product.as_secs_f64();
    let own_rate = calls as f64 / in_product;
    println!("{seconds:.1} s, {lists} lists, {calls} calls: {rate:.0} a second with both sides and the making of the lists");
    println!("in the product {in_product:.1} s of these: {own_rate:.0} calls a second");
    println!("{tally}");
}
