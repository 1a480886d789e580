//! Whole calls and beginnings that are refused: each length wrong alone, each two of them, and any number at once.
//!
//! A whole call: direction (1 byte), instance (4), seed (8), lengths of key and nonce (1 each), associated data (2), text and output (4
//! each) and tag (1), the number (1). A beginning: direction (1), instance (4), seed (8), lengths of key, nonce and tag (1 each), the two
//! lengths as numbers (4 each), the tag (16), the number (1) and the record (212). The tag that is lent has zeros behind these 16.

use super::{one_of, up_to, Kind, Written};
use crate::calls::{refusal, Lengths, MOST_ASSOC, MOST_TEXT};
use crate::instances::ALL;
use crate::numbers::Numbers;
use crate::record::{Record, OPENING, SEALING};

const FIELDS: usize = 7;
const ANY_AT_ONCE: usize = 40;
/// Bytes that `compare` has of associated data, and of text and output for a refusal.
const ASSOC_ROOM: usize = 512;
const TEXT_ROOM: usize = MOST_TEXT + 128;

#[derive(Clone, Copy)]
struct Trial {
    instance: u32,
    lengths: Lengths,
}

fn right(numbers: &mut Numbers) -> Trial {
    let (assoc, text) = (up_to(numbers, 256), up_to(numbers, 64));
    let lengths = Lengths { key: 16, nonce: 16, assoc, text, out: Some(text), tag: Some(16) };
    Trial { instance: one_of(numbers, &ALL), lengths }
}

/// Makes wrong what refusal `field` + 1 is about. `far` are lengths that only a number can have.
fn spoil(numbers: &mut Numbers, trial: &mut Trial, field: usize, far: &[usize]) {
    let l = &mut trial.lengths;
    let not_sixteen = one_of(numbers, &[0, 1, 15, 17, 32]);
    let beyond = |limit: usize, most: usize| [&[limit, limit + 1, most][..], far].concat();
    match field {
        0 => trial.instance = one_of(numbers, &[0, 6, 255, 256, u32::MAX]),
        1 => l.key = not_sixteen,
        2 => l.nonce = not_sixteen,
        3 => l.assoc = one_of(numbers, &beyond(MOST_ASSOC + 1, ASSOC_ROOM)),
        4 => {
            l.text = one_of(numbers, &beyond(MOST_TEXT + 1, TEXT_ROOM));
            l.out = Some(l.text);
        }
        5 => l.out = Some(one_of(numbers, &[l.text.saturating_sub(1), (l.text + 1).min(TEXT_ROOM), TEXT_ROOM, 0])),
        _ => l.tag = Some(not_sixteen),
    }
}

/// The sets of fields that are wrong together.
fn wrong_sets(numbers: &mut Numbers) -> Vec<Vec<usize>> {
    let mut sets = Vec::new();
    for first in 0..FIELDS {
        sets.extend(vec![vec![first]; 5]);
        sets.extend((first + 1..FIELDS).map(|second| vec![first, second]));
    }
    let any = (0..ANY_AT_ONCE).map(|_| (0..FIELDS).filter(|_| numbers.next() % 2 == 0).collect());
    sets.extend(any.filter(|set: &Vec<usize>| !set.is_empty()));
    sets
}

fn trials(seed: u64, far: &[usize]) -> Vec<Trial> {
    let mut numbers = Numbers::new(seed);
    let mut all = Vec::new();
    for set in wrong_sets(&mut numbers) {
        let mut trial = right(&mut numbers);
        set.iter().for_each(|field| spoil(&mut numbers, &mut trial, *field, far));
        all.push(trial);
    }
    all
}

fn begin(file: &mut Written, kind: Kind, direction: u32, instance: u32, seed: u64) {
    file.begin(kind as u8);
    file.byte(direction);
    file.four(instance);
    file.eight(seed);
}

fn write_whole(file: &mut Written, direction: u32, seed: u64, trial: &Trial, number: u32) {
    let l = trial.lengths;
    begin(file, Kind::WholeRefused, direction, trial.instance, seed);
    file.byte(l.key as u32);
    file.byte(l.nonce as u32);
    file.pair(l.assoc);
    file.four(l.text as u32);
    file.four(l.out.expect("a whole call has an output") as u32);
    file.byte(l.tag.expect("a whole call has a tag") as u32);
    file.byte(number);
}

pub fn whole_calls() -> Written {
    let mut file = Written::default();
    let mut numbers = Numbers::new(200);
    for direction in [SEALING, OPENING] {
        for trial in trials(200 + direction as u64, &[]) {
            if let Some(number) = refusal(trial.instance, &trial.lengths) {
                write_whole(&mut file, direction, numbers.next(), &trial, number);
            }
        }
    }
    file
}

/// What a case of a beginning holds; the record is what it hands out.
pub struct Beginning<'a> {
    pub direction: u32,
    pub instance: u32,
    pub seed: u64,
    pub lengths: Lengths,
    pub tag: [u8; 16],
    pub number: u32,
    pub record: &'a Record,
}

pub fn write_beginning(file: &mut Written, kind: Kind, b: &Beginning) {
    begin(file, kind, b.direction, b.instance, b.seed);
    file.byte(b.lengths.key as u32);
    file.byte(b.lengths.nonce as u32);
    file.byte(b.lengths.tag.unwrap_or(0) as u32);
    file.four(b.lengths.assoc as u32);
    file.four(b.lengths.text as u32);
    file.bytes.extend(b.tag);
    file.byte(b.number);
    file.bytes.extend(b.record.bytes());
}

pub fn beginnings() -> Written {
    let mut file = Written::default();
    let mut numbers = Numbers::new(210);
    let record = Record::zeros();
    for direction in [SEALING, OPENING] {
        for trial in trials(210 + direction as u64, &[1 << 24, u32::MAX as usize]) {
            let tag = if direction == OPENING { trial.lengths.tag } else { None };
            let lengths = Lengths { out: None, tag, ..trial.lengths };
            if let Some(number) = refusal(trial.instance, &lengths) {
                let (instance, seed) = (trial.instance, numbers.next());
                let beginning = Beginning { direction, instance, seed, lengths, tag: [7; 16], number, record: &record };
                write_beginning(&mut file, Kind::BeginningRefused, &beginning);
            }
        }
    }
    file
}
