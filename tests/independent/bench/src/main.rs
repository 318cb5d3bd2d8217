//! Times the product's calls through its C interface beside three forms in Rust, on the same inputs
//! in one run: with the incremental table, with windows alone and with shortest paths from scratch;
//! and beside another commit's library, where ./bench was told of one.

mod checks;
mod columns;
mod forms;
mod libraries;
mod ours;
mod plain;
mod scratch;
mod show;
mod timing;
mod windows;
mod work;
mod writes;

#[cfg(test)]
mod tests;

use forms::Call;
use show::TableRow;
use timing::{Case, Times};
use work::{Work, JOB_POINTS};

/// Blocks of ten rounds each (timing.rs).
const BLOCKS: usize = 100;
const CHART_BLOCKS: usize = 40;

const CALLS: [&str; 8] = [
    "soundness",
    "plan",
    "plan, due",
    "plan, 128",
    "send",
    "clock",
    "retire",
    "report",
];
const JOBS: [usize; 3] = [1, 8, 16];
/// Jobs on the board before the plans of the chart.
const CHART_JOBS: [usize; 9] = [1, 2, 4, 6, 8, 10, 12, 14, 15];

/// A call on a board of so many jobs; a plan makes the last of them.
fn case(work: &Work, name: &'static str, jobs: usize) -> Case {
    let board = work.planned(jobs);
    let last = jobs as u32 - 1;
    let new = |before: &[Call], call, number| Case::new(name, jobs, before, call, number);
    match name {
        // A send that is refused with 18 does nothing but test the board.
        "soundness" => new(&board, Call::Send { place: u32::MAX }, 18),
        "plan" => new(&work.planned(jobs - 1), work.plan(jobs - 1), 0),
        "plan, due" => new(&work.planned(jobs - 1), work.plan_in_time(jobs - 1), 0),
        "plan, 128" => new(
            &work.planned(jobs - 1),
            work.plan_in_full_plant(jobs - 1),
            0,
        ),
        "send" => new(&board, Call::Send { place: last }, 0),
        "clock" => new(&board, Call::Clock { to: 1_000 }, 0),
        "retire" => new(&work.ended(jobs), Call::Retire, 0),
        _ => new(&board, Call::Report, 0),
    }
}

/// A row of a call that has no board: ours, the one in Rust, and the other commit's.
fn plain_row(call: &'static str, size: String, times: Vec<f64>) -> TableRow {
    TableRow {
        call,
        size,
        ours: times[0],
        incremental: times[1],
        others: None,
        earlier: times.get(2).copied(),
    }
}

fn plain_rows() -> Vec<TableRow> {
    let mut checks = checks::time();
    let mut writes = writes::time();
    let checks = checks
        .iter_mut()
        .map(|check| plain_row(check.call, check.size.clone(), check.microseconds()));
    let writes = writes.iter_mut().map(|write| {
        let size = format!("{} actions", write.actions);
        plain_row("write", size, write.microseconds())
    });
    checks.chain(writes).collect()
}

/// Every call on boards of every size, timed.
fn board_cases(work: &Work) -> Vec<Case> {
    let of_all_sizes = |name| JOBS.map(|jobs| case(work, name, jobs));
    let mut cases: Vec<Case> = CALLS.into_iter().flat_map(of_all_sizes).collect();
    timing::run(&mut cases, BLOCKS);
    cases
}

fn board_row(case: &Case, times: Times) -> TableRow {
    let ending = if case.jobs == 1 { "" } else { "s" };
    TableRow {
        call: case.name,
        size: format!("{} job{ending}", case.jobs),
        ours: times.ours,
        incremental: times.incremental,
        others: Some([times.windows, times.scratch]),
        earlier: times.earlier,
    }
}

fn chart_rows(work: &Work) -> Vec<(usize, f64, f64)> {
    let mut cases = CHART_JOBS.map(|jobs| case(work, "plan", jobs + 1));
    timing::run(&mut cases, CHART_BLOCKS);
    let rows = CHART_JOBS.iter().zip(&cases).map(|(jobs, case)| {
        let times = case.later_call();
        (jobs * JOB_POINTS, times.ours, times.scratch)
    });
    rows.collect()
}

fn main() {
    let work = Work::new();
    let mut rows = plain_rows();
    let cases = board_cases(&work);
    rows.extend(cases.iter().map(|case| board_row(case, case.later_call())));
    show::table("microseconds a call, in a row", &rows);
    let firsts = cases.iter().map(|case| board_row(case, case.first_call()));
    let firsts: Vec<TableRow> = firsts.collect();
    show::table("the first call after other work", &firsts);
    show::legend();
    show::chart(&chart_rows(&work));
}
