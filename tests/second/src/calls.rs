//! The library's calls with document 01's numbers: beginnings, slices, and the refusals of whole calls.

use crate::instances::ALL;
use crate::record::{Record, UNENDED, WELL};
use crate::steps::{places, standing, Stepped};

pub const ENDED_WELL: u32 = 0;
pub const TAG_DIFFERS: u32 = 8;
pub const CANNOT_STAND: u32 = 9;
pub const HAS_ENDED: u32 = 10;
pub const OTHER_LENGTH: u32 = 11;
pub const NOT_ENDED: u32 = 100;

/// The longest associated data (document 01), and the longest text of whole calls and jobs (document 02, request (vi)).
pub const MOST_ASSOC: usize = 256;
pub const MOST_TEXT: usize = 1_048_576;

/// The lengths of what is lent to a whole call or a beginning; `out` is none for a beginning, `tag` none where it takes no tag.
#[derive(Clone, Copy)]
pub struct Lengths {
    pub key: usize,
    pub nonce: usize,
    pub assoc: usize,
    pub text: usize,
    pub out: Option<usize>,
    pub tag: Option<usize>,
}

/// The first refusal of 1 to 7 that applies.
pub fn refusal(instance: u32, l: &Lengths) -> Option<u32> {
    let applies = [
        !ALL.contains(&instance),
        l.key != 16,
        l.nonce != 16,
        l.assoc > MOST_ASSOC,
        l.text > MOST_TEXT,
        l.out.unwrap_or(l.text) != l.text,
        l.tag.unwrap_or(16) != 16,
    ];
    (1..).zip(applies).find(|(_, applies)| *applies).map(|(number, _)| number)
}

/// What a beginning hands out that is not refused.
pub fn begun(instance: u32, direction: u32, key: [u8; 16], nonce: [u8; 16], tag: [u8; 16], assoc: u32, text: u32) -> Record {
    let place = places(instance, direction, assoc as usize, text as usize)[0];
    Record { instance, direction, assoc, text, key, nonce, tag, place, ..Record::zeros() }
}

/// The number that a slice answers by the record's ending.
pub fn number_of(record: &Record) -> u32 {
    match record.ending {
        UNENDED => NOT_ENDED,
        WELL => ENDED_WELL,
        _ => TAG_DIFFERS,
    }
}

/// A slice of a record: the number and the rounds. The record and the output become what they are after it.
pub fn slice(record: &mut Record, assoc: &[u8], text: &[u8], out: &mut [u8], budget: u32) -> (u32, u32) {
    let places = match standing(record) {
        Some(places) => places,
        None => return (CANNOT_STAND, 0),
    };
    if record.ending != UNENDED {
        return (HAS_ENDED, 0);
    }
    let lengths = [record.assoc, record.text, record.text].map(|length| length as usize);
    if [assoc.len(), text.len(), out.len()] != lengths {
        return (OTHER_LENGTH, 0);
    }
    let mut job = Stepped { record: record.clone(), out: out.to_vec(), assoc, text, places: &places };
    let rounds = job.run(budget);
    *record = job.record;
    out.copy_from_slice(&job.out);
    (number_of(record), rounds)
}
