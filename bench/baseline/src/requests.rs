//! The benchmark's requests, as crates/measured has them: 14 bytes each (operation, instance, the two lengths in two bytes,
//! budget and repetitions in four), answered by a line with a checksum of what the last repetition left.
//!
//! Operations: 1 whole sealings, 2 whole openings, 3 sealings in slices and 4 by a host task, for which the baseline seals whole.

use crate::instances::{self, Lent};
use std::io::Read;

const LENGTH: usize = 14;
const FIRST_NONCE: [u8; 16] = [7; 16];
const KEY: [u8; 16] = [0, 1, 2, 3, 4, 5, 6, 7, 8, 9, 10, 11, 12, 13, 14, 15];

struct Request {
    operation: u32,
    instance: u32,
    assoc: u32,
    text: u32,
    budget: u32,
    repetitions: u32,
}

fn number(bytes: &[u8]) -> u32 {
    bytes.iter().fold(0, |n, &b| n << 8 | b as u32)
}

fn request_of(b: &[u8]) -> Request {
    Request {
        operation: number(&b[..1]),
        instance: number(&b[1..2]),
        assoc: number(&b[2..4]),
        text: number(&b[4..6]),
        budget: number(&b[6..10]),
        repetitions: number(&b[10..14]),
    }
}

/// 0, 1, 2 and so on, after 255 with 0 again.
fn counting(length: u32) -> Vec<u8> {
    (0..length).map(|i| i as u8).collect()
}

/// A checksum that goes on over more bytes.
fn summed(sum: u64, bytes: &[u8]) -> u64 {
    bytes.iter().fold(sum, |sum, &b| sum.rotate_left(9).wrapping_add(b as u64))
}

/// Seals again and again, each time with the last tag as the nonce; gives the last tag.
fn seal_all(r: &Request, assoc: &[u8], text: &[u8], out: &mut [u8]) -> [u8; 16] {
    let mut tag = FIRST_NONCE;
    for _ in 0..r.repetitions {
        let lent = Lent { key: &KEY, nonce: &tag, assoc };
        tag = instances::seal(r.instance, &lent, text, out);
    }
    tag
}

/// Opens the same ciphertext again and again; gives the sum of the numbers that the library returns for that.
fn open_all(r: &Request, lent: &Lent, cipher: &[u8], tag: &[u8; 16], out: &mut [u8]) -> u64 {
    let mut numbers = 0;
    for _ in 0..r.repetitions {
        if !instances::open(r.instance, lent, cipher, tag, out) {
            numbers += 8;
        }
    }
    numbers
}

fn sealed(r: &Request) -> u64 {
    let mut out = vec![0; r.text as usize];
    let tag = seal_all(r, &counting(r.assoc), &counting(r.text), &mut out);
    summed(summed(0, &out), &tag)
}

fn opened(r: &Request) -> u64 {
    let lent = Lent { key: &KEY, nonce: &FIRST_NONCE, assoc: &counting(r.assoc) };
    let mut cipher = vec![0; r.text as usize];
    let mut out = vec![0; r.text as usize];
    let tag = instances::seal(r.instance, &lent, &counting(r.text), &mut cipher);
    let numbers = open_all(r, &lent, &cipher, &tag, &mut out);
    summed(summed(numbers, &out), &tag)
}

pub fn answer_all() {
    let mut input = Vec::new();
    std::io::stdin().read_to_end(&mut input).expect("the requests");
    for r in input.chunks_exact(LENGTH).map(request_of) {
        let sum = if r.operation == 2 { opened(&r) } else { sealed(&r) };
        println!("{} {} {} {} {} {} {:016x}", r.operation, r.instance, r.assoc, r.text, r.budget, r.repetitions, sum);
    }
}
