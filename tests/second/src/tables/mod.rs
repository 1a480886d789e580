//! Jobs of Spook for `crates/s1p_vectors`, whose theorems say that each record of a job is one step of the definitions from the record
//! before it: what the jobs are given, and their records. `antt` writes them.

mod antt;

use crate::paper::{ended, noted, Given, Noted};
use crate::record::{OPENING, SEALING};
use crate::spook::SPOOK;

struct Job {
    name: &'static str,
    /// what is of note in it, for the file's reader
    about: &'static str,
    given: Given,
    direction: u32,
    tag: [u8; 16],
    steps: usize,
}

impl Job {
    /// Its record at the beginning and after each step; a step of an ended job leaves it as it is.
    fn records(&self) -> Vec<Noted> {
        let stops: Vec<usize> = (0..=self.steps).collect();
        noted(&self.given, self.direction, self.tag, &before(self.given.text.len()), &stops)
    }
}

/// A first byte, and each further one by adding the same.
fn string(length: usize, first: u8, more: u8) -> Vec<u8> {
    (0..length).map(|i| first.wrapping_add(more.wrapping_mul(i as u8))).collect()
}

fn sixteen(first: u8, more: u8) -> [u8; 16] {
    string(16, first, more).try_into().expect("sixteen bytes")
}

/// What the output holds before a job: not zeros, so that it shows which blocks are written.
fn before(length: usize) -> Vec<u8> {
    string(length, 0xA0, 1)
}

fn message(assoc: usize, text: usize) -> Given {
    let (key, nonce) = (sixteen(3, 7), sixteen(200, 11));
    Given { instance: SPOOK, key, nonce, assoc: string(assoc, 1, 5), text: string(text, 90, 3) }
}

fn sealing(name: &'static str, about: &'static str, given: Given, steps: usize) -> Job {
    Job { name, about, given, direction: SEALING, tag: [0; 16], steps }
}

/// With the right tag.
fn opening(name: &'static str, about: &'static str, assoc: usize, text: usize, steps: usize) -> Job {
    let given = message(assoc, text);
    let sealed = ended(&given, SEALING, [0; 16], &given.text);
    Job { name, about, given: Given { text: sealed.out, ..given }, direction: OPENING, tag: sealed.record.tag, steps }
}

fn jobs() -> [Job; 6] {
    let counting = sixteen(0, 1);
    let empty = Given { key: counting, nonce: counting, ..message(0, 0) };
    let mut wrong = opening("wrong", "No data, a byte of text and a wrong tag: the last step leaves an ended job as it is", 0, 1, 49);
    wrong.tag[1] ^= 4;
    [
        sealing("none", "Neither data nor text, key and nonce 00, 01, .., 0F", empty, 36),
        sealing("both", "5 bytes of data and 33 of text", message(5, 33), 72),
        opening("short", "No data and 5 bytes of text: the second walk has no text call", 0, 5, 72),
        opening("full", "32 bytes of data and 33 of text", 32, 33, 120),
        opening("data", "33 bytes of data and no text: no second walk, so the last step leaves an ended job as it is", 33, 0, 61),
        wrong,
    ]
}

pub fn file() -> String {
    antt::file(&jobs())
}
