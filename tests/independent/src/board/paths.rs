//! What the rules allow, found from scratch out of all of them by shortest paths (Bellman-Ford).

/// The first point's time minus the second's is at most this.
#[derive(Clone, Copy, Debug)]
pub struct Rule {
    pub plus: usize,
    pub minus: usize,
    pub most: i64,
}

/// Further off than any gap: no sum of rules along a path gets near it.
const FAR: i64 = 1 << 50;

/// Whether some timetable keeps all rules.
pub fn exists(points: usize, rules: &[Rule]) -> bool {
    // All begin at 0 and are lowered as far as the rules ask. Where that can be done, each time is
    // the sum of fewer rules than there are points, so the last of so many rounds changes nothing.
    let mut times = vec![0; points];
    (0..points).any(|_| !lower(&mut times, rules))
}

/// How late each point can follow this one, where timetables exist.
pub fn latest_after(point: usize, points: usize, rules: &[Rule]) -> Vec<i64> {
    let mut times = vec![FAR; points];
    times[point] = 0;
    while lower(&mut times, rules) {}
    times
}

/// The least time of each point, where timetables exist.
pub fn least(points: usize, rules: &[Rule]) -> Vec<i64> {
    let mut times = vec![-FAR; points];
    times[0] = 0;
    while raise(&mut times, rules) {}
    times
}

/// Lowers each time that a rule finds too late; false if there was none.
fn lower(times: &mut [i64], rules: &[Rule]) -> bool {
    let mut changed = false;
    for rule in rules {
        let most = times[rule.minus] + rule.most;
        if times[rule.plus] > most {
            times[rule.plus] = most;
            changed = true;
        }
    }
    changed
}

/// Raises each time that a rule finds too early; false if there was none.
fn raise(times: &mut [i64], rules: &[Rule]) -> bool {
    let mut changed = false;
    for rule in rules {
        let least = times[rule.plus] - rule.most;
        if times[rule.minus] < least {
            times[rule.minus] = least;
            changed = true;
        }
    }
    changed
}

#[cfg(test)]
mod tests {
    use super::*;
    use crate::generate::rng::Rng;

    const POINTS: usize = 4;
    const HORIZON: i64 = 4;

    /// Every timetable of the three points beside the origin that keeps the rules.
    fn timetables(rules: &[Rule]) -> Vec<[i64; POINTS]> {
        let times = (0..=HORIZON).flat_map(|a| (0..=HORIZON).map(move |b| (a, b)));
        let all = times.flat_map(|(a, b)| (0..=HORIZON).map(move |c| [0, a, b, c]));
        all.filter(|times| {
            rules
                .iter()
                .all(|rule| times[rule.plus] - times[rule.minus] <= rule.most)
        })
        .collect()
    }

    #[test]
    fn paths_find_what_trying_all_timetables_finds() {
        let mut rng = Rng::new(1);
        let mut found = 0;
        for _ in 0..20_000 {
            let mut rules = Vec::new();
            for point in 1..POINTS {
                rules.push(Rule {
                    plus: point,
                    minus: 0,
                    most: HORIZON,
                });
                rules.push(Rule {
                    plus: 0,
                    minus: point,
                    most: 0,
                });
            }
            for _ in 0..rng.below(6) {
                let (plus, minus) = (rng.below(POINTS), rng.below(POINTS));
                let most = rng.below(8) as i64 - 4;
                rules.push(Rule { plus, minus, most });
            }
            let timetables = timetables(&rules);
            assert_eq!(exists(POINTS, &rules), !timetables.is_empty(), "{rules:?}");
            if timetables.is_empty() {
                continue;
            }
            found += 1;
            let least = least(POINTS, &rules);
            for from in 0..POINTS {
                let earliest = timetables.iter().map(|times| times[from]).min();
                assert_eq!(Some(least[from]), earliest, "{rules:?}");
                let latest = latest_after(from, POINTS, &rules);
                for to in 0..POINTS {
                    let gap = timetables.iter().map(|times| times[to] - times[from]).max();
                    assert_eq!(Some(latest[to]), gap, "{rules:?}");
                }
            }
        }
        assert!((5_000..15_000).contains(&found), "{found}");
    }
}
