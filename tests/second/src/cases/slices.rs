//! Slices in a case file: how many (2 bytes), then each: lengths of the associated data, the text and the output lent (2 each), budget
//! (4), number (1), rounds (2), what changes in the record: how many runs of bytes (1), each with its place and its length (1 each) and
//! the bytes; and likewise in the output, a run's place and length having 2 bytes each. What is in no run must stay as it was.

use super::room::Room;
use super::{Kind, Written};
use crate::calls::slice;
use crate::record::Record;

pub struct Cut {
    pub budget: u32,
    /// the lengths lent: associated data, text, output
    pub lent: [usize; 3],
}

/// The lengths that a record asks for.
pub fn own_lengths(record: &Record) -> [usize; 3] {
    [record.assoc as usize, record.text as usize, record.text as usize]
}

/// Equal bytes between two runs that cost less than a new run.
const SMALL_GAP: usize = 3;

/// The runs of places where two strings differ, as a start and an end.
fn runs(before: &[u8], after: &[u8]) -> Vec<(usize, usize)> {
    let mut all: Vec<(usize, usize)> = Vec::new();
    for i in (0..after.len()).filter(|i| before[*i] != after[*i]) {
        match all.last_mut() {
            Some((_, end)) if i <= *end + SMALL_GAP => *end = i + 1,
            _ => all.push((i, i + 1)),
        }
    }
    all
}

fn write_changes(file: &mut Written, before: &[u8], after: &[u8], number: fn(&mut Written, usize)) {
    let runs = runs(before, after);
    file.byte(runs.len() as u32);
    for (start, end) in runs {
        number(file, start);
        number(file, end - start);
        file.bytes.extend(&after[start..end]);
    }
}

/// A record that slices are made of, and the buffers lent to it.
pub struct Sliced {
    pub record: Record,
    pub room: Room,
}

impl Sliced {
    /// Makes one slice and writes it; the number that it gave.
    pub fn write(&mut self, file: &mut Written, cut: &Cut) -> u32 {
        let [assoc, text, out] = cut.lent;
        let (record, before) = (self.record.bytes(), self.room.out);
        let room = &mut self.room;
        let (number, rounds) = slice(&mut self.record, &room.assoc[..assoc], &room.text[..text], &mut room.out[..out], cut.budget);
        cut.lent.iter().for_each(|length| file.pair(*length));
        file.four(cut.budget);
        file.byte(number);
        file.pair(rounds as usize);
        write_changes(file, &record, &self.record.bytes(), |file, number| file.byte(number as u32));
        write_changes(file, &before, &self.room.out, |file, number| file.pair(number));
        file.count(Kind::Slice as u8, 1);
        number
    }
}
