//! The parts of a board's words, and whether they are sound.

use crate::board::{
    BOARD_WORDS, JOB_WORDS, MOST_HORIZON, MOST_JOBS, MOST_JOB_POINTS, MOST_LEAD, MOST_POINTS,
    MOST_USES, RESOURCES, SIDE, ZERO_GAP,
};
use crate::plant::MOST_TIME;
use crate::ruling::Refusal;

/// A line's count, then point, offset and length of each use.
type Line = [u32; 1 + 3 * MOST_USES];

pub struct Parts<'a> {
    /// Horizon, lead, clock and job count.
    pub header: &'a mut [u32; 4],
    /// Points, batch, sent and due time of each job.
    pub jobs: &'a mut [[u32; JOB_WORDS]; MOST_JOBS],
    pub lines: &'a mut [Line; RESOURCES],
    pub cells: &'a mut [[u32; SIDE]; SIDE],
    /// The number of live points, the origin included.
    pub live: usize,
}

/// The uses of a line up to its count.
pub fn uses(line: &Line) -> &[[u32; 3]] {
    let (uses, _) = line[1..].as_chunks();
    &uses[..line[0] as usize]
}

impl<'a> Parts<'a> {
    /// Refusal 6.
    pub fn of_sound(words: &'a mut [u32]) -> Result<Self, Refusal> {
        let parts = Self::split(words).filter(Self::is_sound);
        parts.ok_or(Refusal::Unsound)
    }

    /// `None` where there are too many jobs or points, a due time is past the horizon, or the words
    /// are not as many as a board has.
    fn split(words: &'a mut [u32]) -> Option<Self> {
        if words.len() != BOARD_WORDS {
            return None;
        }
        let (header, rest) = words.split_first_chunk_mut()?;
        let (jobs, rest) = rest.split_at_mut(JOB_WORDS * MOST_JOBS);
        let (lines, cells) = rest.split_at_mut(RESOURCES * size_of::<Line>() / 4);
        let jobs: &mut [[u32; JOB_WORDS]; MOST_JOBS] = jobs.as_chunks_mut().0.try_into().ok()?;
        let [horizon, _, _, job_count] = *header;
        let mut live = 1;
        for [points, _, _, due] in jobs.get(..job_count as usize)? {
            if *points < 2 || *points > MOST_JOB_POINTS as u32 || *due > horizon {
                return None;
            }
            live += *points as usize;
        }
        let parts = Parts {
            header,
            jobs,
            lines: lines.as_chunks_mut().0.try_into().ok()?,
            cells: cells.as_chunks_mut().0.try_into().ok()?,
            live,
        };
        (live <= MOST_POINTS + 1).then_some(parts)
    }

    fn is_sound(&self) -> bool {
        let [horizon, lead, clock, _] = *self.header;
        (1..=MOST_HORIZON).contains(&horizon)
            && lead <= MOST_LEAD
            && clock <= horizon
            && self.lines.iter().all(|line| self.line_is_sound(line))
            && self.cells_are_sound(horizon)
            && self.sent_jobs_are_sound()
    }

    fn line_is_sound(&self, line: &Line) -> bool {
        line[0] <= MOST_USES as u32
            && uses(line).iter().all(|&[point, offset, length]| {
                (1..self.live as u32).contains(&point)
                    && offset <= MOST_TIME
                    && (1..=MOST_TIME).contains(&length)
            })
    }

    fn sent_jobs_are_sound(&self) -> bool {
        let mut first = 1;
        let mut unsent_before = false;
        for &[points, _, sent, _] in &self.jobs[..self.header[3] as usize] {
            let after = first + points as usize;
            let mut points = first..after;
            let settled = match sent {
                0 => true,
                // Earliest and latest as stored are so far below and above the gap 0.
                1 => {
                    points.all(|point| self.cells[point][0] + self.cells[0][point] == 2 * ZERO_GAP)
                }
                _ => return false,
            };
            if !settled || (sent == 1 && unsent_before) {
                return false;
            }
            unsent_before |= sent == 0;
            first = after;
        }
        true
    }

    fn cells_are_sound(&self, horizon: u32) -> bool {
        let (rows, other_rows) = self.cells.split_at(self.live);
        let is_0 = |cells: &[u32]| cells.iter().fold(0, |all, cell| all | cell) == 0;
        let within = |cells: &[u32]| cells.iter().fold(0, |most, &cell| most.max(cell));
        rows.iter().all(|row| {
            let (own, others) = row.split_at(self.live);
            is_0(others) && within(own) <= 2 * ZERO_GAP
        }) && is_0(other_rows.as_flattened())
            && rows
                .iter()
                .enumerate()
                .all(|(point, row)| row[point] == ZERO_GAP)
            && rows.iter().all(|row| row[0] <= ZERO_GAP)
            && rows[0][..self.live]
                .iter()
                .all(|&cell| cell <= ZERO_GAP + horizon)
            && rows.iter().all(|row| self.no_way_is_shorter(row))
    }

    /// Whether no entry of the row exceeds the sum by way of a third point.
    fn no_way_is_shorter(&self, row: &[u32; SIDE]) -> bool {
        // Stored gaps are at most twice ZERO_GAP, so that nothing here passes 32 bits; what
        // goes below 0 shows in the highest bit.
        let mut below_0 = 0;
        for (by, &way) in self.cells[..self.live].iter().zip(row) {
            for (&rest, &cell) in by[..self.live].iter().zip(&row[..self.live]) {
                below_0 |= (way + rest).wrapping_sub(cell + ZERO_GAP);
            }
        }
        below_0 >> 31 == 0
    }

    /// The last point of the newest job of a batch.
    pub fn last_of_batch(&self, batch: u32) -> Option<usize> {
        let mut after = self.live;
        for [points, job_batch, ..] in self.jobs[..self.header[3] as usize].iter().rev() {
            if batch != 0 && *job_batch == batch {
                return Some(after - 1);
            }
            after -= *points as usize;
        }
        None
    }
}
