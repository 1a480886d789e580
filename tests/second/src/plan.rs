//! The planning program's requests and lines. Rounds are counted call by call along the algorithms, not by the formulas.

use crate::calls::MOST_ASSOC;
use crate::instances::{instance, Instance, ALL};
use crate::numbers::Numbers;
use crate::record::SEALING;
use crate::spook::{clyde, shadow, BLOCK, SPOOK};

/// The rounds of a verification, of a sealing, and of an opening that accepts.
pub struct Rounds {
    pub verify: usize,
    pub sealing: usize,
    pub opening: usize,
}

impl Rounds {
    /// All that a job of this direction may do.
    pub fn of(&self, direction: u32) -> usize {
        if direction == SEALING {
            self.sealing
        } else {
            self.opening
        }
    }
}

const HEADING: &str = "instance assoc text verify total\n";

/// The rounds of the calls of a re-keying: pK, then pB after each bit but the last, pK after that.
fn rekeying(i: &Instance) -> usize {
    let mut rounds = i.s_k;
    for bit in 0..128 {
        rounds += if bit < 127 { i.s_b } else { i.s_k };
    }
    rounds
}

/// The blocks of a padded string, counted by filling them.
fn padded_blocks(i: &Instance, length: usize) -> usize {
    let mut bytes = length + 1;
    while bytes % i.block != 0 {
        bytes += 1;
    }
    bytes / i.block
}

fn verification(i: &Instance, assoc: usize, text: usize) -> usize {
    let start = i.s_h;
    let blocks = padded_blocks(i, assoc) + padded_blocks(i, text);
    let tag = i.s_h;
    start + blocks * i.s_h + rekeying(i) + tag
}

/// The blocks of a string that is not padded, counted by taking them off it.
fn blocks(block: usize, length: usize) -> usize {
    let (mut left, mut count) = (length, 0);
    while left > 0 {
        left -= left.min(block);
        count += 1;
    }
    count
}

/// Algorithm 3: the calls that make the session key, then one for each block that is left.
fn encryption(i: &Instance, text: usize) -> usize {
    rekeying(i) + blocks(i.block, text) * i.s_e
}

/// Document 004, Algorithm 3: the seed, the start, a call after each block, the tag. An opening that accepts makes the seed again, starts
/// again, and needs no call after the last block, where it has one.
fn spook(assoc: usize, text: usize) -> Rounds {
    let (data, texts) = (blocks(BLOCK, assoc), blocks(BLOCK, text));
    let start = clyde::ROUNDS + shadow::ROUNDS + data * shadow::ROUNDS;
    let verify = start + texts * shadow::ROUNDS + clyde::ROUNDS;
    let again = if texts == 0 { 0 } else { start + (texts - 1) * shadow::ROUNDS };
    Rounds { verify, sealing: verify, opening: verify + again }
}

pub fn rounds(number: u32, assoc: usize, text: usize) -> Rounds {
    if number == SPOOK {
        return spook(assoc, text);
    }
    let i = instance(number);
    let verify = verification(i, assoc, text);
    let all = verify + encryption(i, text);
    Rounds { verify, sealing: all, opening: all }
}

/// Instance, and the lengths of associated data and text. Two bytes say no text length above the limit: each is planned.
type Request = (u8, u16, u16);

fn line(request: Request) -> String {
    let (number, a, m) = (request.0 as usize, request.1 as usize, request.2 as usize);
    let answer = if !ALL.contains(&(number as u32)) {
        "refused 1".to_string()
    } else if a > MOST_ASSOC {
        "refused 4".to_string()
    } else {
        let rounds = rounds(number as u32, a, m);
        format!("{} {}", rounds.verify, rounds.opening)
    };
    format!("{number} {a} {m} {answer}\n")
}

/// The ten cases of document 01, each refusal, alone and both at once, some more, Spook around its blocks, and the longest texts that a
/// request can have.
const ROWS: [Request; 44] = [
    (1, 0, 0),
    (1, 0, 7),
    (1, 1, 8),
    (1, 0, 9),
    (2, 0, 0),
    (2, 256, 4096),
    (3, 17, 17),
    (3, 18, 18),
    (4, 0, 0),
    (4, 256, 4096),
    (0, 0, 0),
    (6, 0, 0),
    (255, 65535, 65535),
    (1, 257, 0),
    (1, 0, 4097),
    (1, 257, 4097),
    (6, 257, 4097),
    (4, 65535, 65535),
    (3, 256, 4096),
    (1, 256, 4096),
    (3, 0, 0),
    (5, 0, 0),
    (5, 0, 1),
    (5, 1, 0),
    (5, 31, 31),
    (5, 32, 32),
    (5, 33, 33),
    (5, 64, 0),
    (5, 65, 63),
    (5, 0, 64),
    (5, 0, 65),
    (5, 256, 0),
    (5, 0, 4096),
    (5, 256, 4096),
    (5, 257, 0),
    (5, 0, 4097),
    (5, 257, 4097),
    (1, 0, 65535),
    (2, 0, 65535),
    (2, 256, 65535),
    (3, 0, 65534),
    (3, 256, 65535),
    (4, 256, 65535),
    (5, 256, 65535),
];

/// After the rows, a request of which one byte is missing.
const CUT: [u8; 4] = [2, 0, 0, 0];

/// The longest text that a request can have.
const LONGEST: u16 = u16::MAX;

/// Lengths near multiples of each block length, at the largest and, of associated data, beyond it, and any.
fn many() -> Vec<Request> {
    let mut numbers = Numbers::new(16);
    let mut length = |most: u64| -> u16 {
        let edge = match numbers.next() % 8 {
            0 => 8 * (numbers.next() % (most / 8)) + numbers.next() % 3,
            1 => 18 * (numbers.next() % (most / 18)) + numbers.next() % 3,
            2 => 32 * (numbers.next() % (most / 32)) + numbers.next() % 3,
            3 => most + numbers.next() % 3,
            4 => numbers.next() % 65536,
            _ => numbers.next() % (most + 1),
        };
        edge.saturating_sub(1).min(65535) as u16
    };
    let lengths: Vec<(u16, u16)> = (0..10_000).map(|_| (length(MOST_ASSOC as u64), length(LONGEST as u64))).collect();
    let mut numbers = Numbers::new(17);
    lengths.into_iter().map(|(a, m)| ((numbers.next() % 7) as u8, a, m)).collect()
}

fn bytes(requests: &[Request]) -> Vec<u8> {
    let mut all = Vec::new();
    for (instance, a, m) in requests {
        all.push(*instance);
        all.extend(a.to_be_bytes());
        all.extend(m.to_be_bytes());
    }
    all
}

fn lines(requests: &[Request]) -> String {
    requests.iter().fold(HEADING.to_string(), |text, request| text + &line(*request))
}

/// Every text length in every instance, with the longest associated data.
fn lengths() -> Vec<Request> {
    ALL.iter().flat_map(|number| (0..=LONGEST).map(move |m| (*number as u8, MOST_ASSOC as u16, m))).collect()
}

pub fn rows_requests() -> Vec<u8> {
    let mut all = bytes(&ROWS);
    all.extend(CUT);
    all
}

pub fn rows_lines() -> String {
    lines(&ROWS) + "cut short\n"
}

pub fn many_requests() -> Vec<u8> {
    bytes(&many())
}

pub fn many_lines() -> String {
    lines(&many())
}

pub fn lengths_requests() -> Vec<u8> {
    bytes(&lengths())
}

pub fn lengths_lines() -> String {
    lines(&lengths())
}
