//! What a call log shows of a board: its gap table, and all else.

use super::Board;
use std::fmt;

/// The answer to `table`.
pub struct Table<'a>(pub &'a Board);

/// The answer to `state`.
pub struct State<'a>(pub &'a Board);

impl fmt::Display for Table<'_> {
    fn fmt(&self, f: &mut fmt::Formatter) -> fmt::Result {
        let live = self.0.live();
        write!(f, "table {live}")?;
        for from in 0..live {
            write!(f, "\nt")?;
            for to in 0..live {
                write!(f, " {}", self.0.gap(from, to))?;
            }
        }
        Ok(())
    }
}

impl fmt::Display for State<'_> {
    fn fmt(&self, f: &mut fmt::Formatter) -> fmt::Result {
        let jobs = self.0.jobs_in_use();
        write!(f, "state {} {}", self.0.clock, jobs.len())?;
        for job in jobs {
            // A mark that is neither 1 nor 0 shows as 0.
            let sent = u32::from(job.sent == 1);
            write!(f, "\nj {} {} {sent} {}", job.points, job.batch, job.due)?;
        }
        for (resource, line) in self.0.lines.iter().enumerate() {
            let uses = line.in_use();
            if uses.is_empty() {
                continue;
            }
            write!(f, "\nl {resource} {}", uses.len())?;
            for one in uses {
                write!(f, " {} {} {}", one.point, one.offset, one.length)?;
            }
        }
        Ok(())
    }
}
