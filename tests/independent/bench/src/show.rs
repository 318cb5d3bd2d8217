//! What is printed: the tables of times, and the chart of how plan grows.

use crate::libraries::HAS_OTHER;

/// Above this, ours is marked.
const GOAL: f64 = 1.20;
/// The longest bar of the chart, in characters.
const BAR: f64 = 64.0;

/// A row of the table: microseconds of ours, and of the other forms where there is one.
pub struct TableRow {
    pub call: &'static str,
    pub size: String,
    pub ours: f64,
    pub incremental: f64,
    /// Of windows and of scratch.
    pub others: Option<[f64; 2]>,
    /// Of another commit's library.
    pub earlier: Option<f64>,
}

impl TableRow {
    /// Ours to the fastest of those that give the whole answer; windows don't.
    fn ratio(&self) -> f64 {
        let scratch = self.others.map_or(f64::MAX, |[_, scratch]| scratch);
        self.ours / self.incremental.min(scratch)
    }

    fn text(&self) -> String {
        let [ours, incremental] = [self.ours, self.incremental].map(three_digits);
        let others = self.others.map(|times| times.map(three_digits));
        let [windows, scratch] = others.unwrap_or_default();
        let ratio = self.ratio();
        format!(
            "{:10}  {:18} {ours:>9} {incremental:>12} {windows:>9} {scratch:>9} {ratio:>8.2}",
            self.call, self.size
        )
    }

    /// The other commit's time, and ours to it; nothing where it can't make the call.
    fn beside(&self) -> String {
        let [time, ratio] = self.earlier.map_or_else(Default::default, |earlier| {
            [three_digits(earlier), format!("{:.2}", self.ours / earlier)]
        });
        beside(&time, &ratio)
    }
}

/// The last two columns, where there is another commit's library.
fn beside(time: &str, ratio: &str) -> String {
    if HAS_OTHER {
        format!("   {time:>9} {ratio:>13}")
    } else {
        String::new()
    }
}

fn three_digits(time: f64) -> String {
    let places = match time {
        ..1.0 => 3,
        ..10.0 => 2,
        _ => 1,
    };
    format!("{time:.places$}")
}

/// A table under its title, a call's rows together.
pub fn table(title: &str, rows: &[TableRow]) {
    let heads = format!(
        "{title:32} {:>7} {:>12} {:>9} {:>9} {:>8}",
        "ours", "incremental", "windows", "scratch", "ratio"
    );
    let beside = beside("earlier", "ours/earlier");
    println!("{}", format!("{heads}  {beside}").trim_end());
    let mut call = "";
    for row in rows {
        if row.call != call {
            println!();
        }
        call = row.call;
        let mark = if row.ratio() > GOAL { " <" } else { "" };
        let line = format!("{}{mark:2}{}", row.text(), row.beside());
        println!("{}", line.trim_end());
    }
    println!();
}

pub fn legend() {
    println!(
        "ratio: ours to the faster of incremental and scratch; < where it is above {GOAL:.2}\n"
    );
    if HAS_OTHER {
        println!("earlier: the other commit's library, where it takes the call\n");
    }
}

/// Live points before the call, microseconds of ours and of scratch.
pub fn chart(rows: &[(usize, f64, f64)]) {
    println!("plan, beside the live points before it: ours # and scratch . (microseconds)\n");
    let times = rows.iter().map(|&(_, ours, scratch)| ours.max(scratch));
    let scale = BAR / times.fold(0.0, f64::max);
    let bar = |time: f64, mark: &str| mark.repeat((time * scale).round() as usize);
    for &(live, ours, scratch) in rows {
        println!("{live:4}  ours    {ours:7.1} {}", bar(ours, "#"));
        println!("      scratch {scratch:7.1} {}", bar(scratch, "."));
    }
}
