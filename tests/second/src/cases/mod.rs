//! The case file for the program `compare`: what the library is to be called with, and what this program says it must answer.
//!
//! A case is its kind and what the kind's module says.

mod forged;
mod jobs;
mod messages;
mod refused;
mod room;
mod slices;

use crate::instances::ALL;
use crate::numbers::Numbers;
use crate::threads::by_instance;
use crate::written::Written;

#[derive(Clone, Copy)]
pub enum Kind {
    Message = 1,
    WholeRefused,
    Sealing,
    Opening,
    WrongTag,
    BeginningRefused,
    Standing,
    NotStanding,
    Ended,
    OtherLengths,
    /// no kind of case: the slices of all
    Slice,
}

const NAMES: [&str; 11] = [
    "messages sealed, opened, and opened damaged",
    "whole calls refused",
    "sealings in slices",
    "openings in slices",
    "openings in slices, with a wrong tag",
    "beginnings refused",
    "forged records that can stand",
    "forged records that cannot stand",
    "forged records that have ended",
    "forged records with other lengths lent",
    "slices",
];

/// A number from 0 to `most`.
fn up_to(numbers: &mut Numbers, most: usize) -> usize {
    (numbers.next() % (most as u64 + 1)) as usize
}

fn one_of<T: Copy>(numbers: &mut Numbers, all: &[T]) -> T {
    all[up_to(numbers, all.len() - 1)]
}

/// All cases but the messages, which take the longest.
fn besides_messages() -> Written {
    let mut all = refused::whole_calls();
    all.append(refused::beginnings());
    by_instance(jobs::of_instance).into_iter().for_each(|jobs| all.append(jobs));
    by_instance(forged::of_instance).into_iter().for_each(|forged| all.append(forged));
    all
}

pub fn file() -> Vec<u8> {
    let mut all = Written::default();
    by_instance(messages::of_instance).into_iter().for_each(|messages| all.append(messages));
    all.append(besides_messages());
    all.file()
}

/// What `compare` prints where nothing differs.
pub fn summary() -> String {
    let mut all = besides_messages();
    all.count(Kind::Message as u8, ALL.iter().map(|number| messages::planned(*number).len()).sum());
    all.summary(&NAMES)
}
