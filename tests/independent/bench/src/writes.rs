//! Writing a plant file from fields, timed on plants of 8 and of 128 actions: ours, the one in Rust,
//! and another commit's library where that has the call. All write into one buffer of just the
//! file's length.

use crate::checks::{actions, MOST};
use crate::columns::{columns, microseconds, Column, ROUNDS};
use crate::libraries::{Library, OtherCommit, ThisTree};
use crate::ours;
use independent::generate::draft::plant_file;
use independent::write::{words_of, Fields};
use independent::{write_plant, Ruling};
use std::hint::black_box;

type WritePlant = fn(&[u32], &mut [u8]) -> u32;

fn in_rust(actions: &[u32], plant: &mut [u8]) -> u32 {
    let written = write_plant(actions, plant);
    Ruling::from(written.map(|length| _ = black_box(length))).number()
}

pub struct Write {
    pub actions: usize,
    words: Vec<u32>,
    buffer: Vec<u8>,
    columns: Vec<Column<WritePlant>>,
}

impl Write {
    fn new(action_count: usize) -> Self {
        let drafts = actions(action_count, MOST);
        let file = plant_file(&drafts);
        let earlier = OtherCommit::CALLS.write_plant;
        let earlier = earlier.map(|_| ours::write_plant::<OtherCommit> as WritePlant);
        let fields: Vec<Fields> = drafts.iter().map(Fields::from).collect();
        let mut write = Write {
            actions: action_count,
            words: words_of(&fields),
            buffer: vec![0; file.len()],
            columns: columns(ours::write_plant::<ThisTree>, in_rust, earlier),
        };
        for column in &write.columns {
            write.buffer.fill(0xA5);
            let number = (column.form)(&write.words, &mut write.buffer);
            assert_eq!(number, 0, "actions that are written");
            assert!(write.buffer == file, "a file of {action_count} actions");
        }
        write
    }

    fn take_turns(&mut self) {
        let (words, buffer) = (&self.words, &mut self.buffer);
        for column in &mut self.columns {
            column.take_turn(|form| form(black_box(words), black_box(&mut buffer[..])));
        }
    }

    /// Microseconds of a call, by column.
    pub fn microseconds(&mut self) -> Vec<f64> {
        microseconds(&mut self.columns)
    }
}

pub fn time() -> Vec<Write> {
    let mut writes = Vec::from([8, 128].map(Write::new));
    for _ in 0..ROUNDS {
        writes.iter_mut().for_each(Write::take_turns);
    }
    writes
}
