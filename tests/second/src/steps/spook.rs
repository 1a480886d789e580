//! Spook's parts, and what goes with their rounds. Every call has twelve rounds: of Clyde-128 or its inverse on the state's first 16 bytes,
//! or of Shadow-512 on all of it.

use super::Stepped;
use crate::paper::xor_into;
use crate::record::{OPENING, SEALING, WRONG_TAG};
use crate::spook::clyde::Keyed;
use crate::spook::{shadow, BLOCK};

const ROUNDS: usize = 12;

#[derive(Clone, Copy, PartialEq)]
enum Part {
    Seed,
    Start,
    Data,
    Text,
    Closing,
}
use Part::*;

/// A sealing has the first five; an opening's second walk is the last four.
const ORDER: [Part; 9] = [Seed, Start, Data, Text, Closing, Seed, Start, Data, Text];
const SECOND_WALK: usize = 5;

fn blocks(length: usize) -> usize {
    (length + BLOCK - 1) / BLOCK
}

pub fn parts(direction: u32, assoc: usize, text: usize) -> Vec<(usize, usize)> {
    let (u, v) = (blocks(assoc), blocks(text));
    let verifying = [1, 1, u, v, 1];
    let again = if v == 0 { [0; 4] } else { [1, 1, u, v - 1] };
    let calls = if direction == SEALING { verifying.to_vec() } else { [&verifying[..], &again].concat() };
    calls.into_iter().map(|calls| (calls, ROUNDS)).collect()
}

/// What a block that is short adds to a state besides itself: the padding's byte behind it, and the second bit of byte 32.
fn short(length: usize) -> [u8; BLOCK + 1] {
    let mut added = [0; BLOCK + 1];
    if length < BLOCK {
        added[length] = 1;
        added[BLOCK] = 2;
    }
    added
}

/// What goes with the first round of a call.
fn enter(job: &mut Stepped, part: Part, call: usize) {
    let ciphertext = job.ciphertext().chunks(BLOCK).nth(call).unwrap_or(&[]).to_vec();
    let r = &mut job.record;
    match part {
        Seed => {
            r.state.fill(0);
            r.state[..16].copy_from_slice(&r.nonce);
            r.session.fill(0);
        }
        Start => {
            r.state.copy_within(..16, 48);
            r.state[..48].fill(0);
            r.state[16..32].copy_from_slice(&r.nonce);
        }
        Data => {
            let block = job.assoc.chunks(BLOCK).nth(call).expect("a block for each call");
            xor_into(&mut r.state, block);
            xor_into(&mut r.state, &short(block.len()));
        }
        Text => {
            r.state[BLOCK] ^= (call == 0) as u8;
            xor_into(&mut r.state, &short(ciphertext.len()));
            r.state[..ciphertext.len()].copy_from_slice(&ciphertext);
        }
        Closing => {
            r.session = r.state;
            r.state[16..].fill(0);
            if r.direction == OPENING {
                r.state[..16].copy_from_slice(&r.tag);
            }
        }
    }
}

/// An output block, if there is one with this number.
fn write_block(job: &mut Stepped, number: usize) {
    if let Some(block) = job.text.chunks(BLOCK).nth(number) {
        let place = &mut job.out[number * BLOCK..][..block.len()];
        place.copy_from_slice(block);
        xor_into(place, &job.record.state);
    }
}

/// What goes with its last round; an opening's first walk writes nothing.
fn leave(job: &mut Stepped, part: Part, call: usize, writes: bool) {
    let u = blocks(job.assoc.len());
    let front: [u8; 16] = job.record.state[..16].try_into().expect("sixteen bytes");
    match part {
        Start if writes && u == 0 => write_block(job, 0),
        Data if writes && call + 1 == u => write_block(job, 0),
        Text if writes => write_block(job, call + 1),
        Closing if job.record.direction == SEALING => job.record.tag = front,
        Closing if job.record.session[..16] != front => job.record.ending = WRONG_TAG,
        _ => {}
    }
}

/// The cipher of the closing call: V with a one bit behind it is the tweak.
fn closing(job: &Stepped) -> Keyed {
    let mut tweak: [u8; 16] = job.record.session[16..32].try_into().expect("sixteen bytes");
    tweak[15] |= 0x80;
    Keyed { key: job.record.key, tweak }
}

pub fn step(job: &mut Stepped) {
    let [at, call, round] = job.record.place.map(|number| number as usize);
    let part = ORDER[at];
    if round == 0 {
        enter(job, part, call);
    }
    match (part, job.record.direction) {
        (Seed, _) => Keyed { key: job.record.key, tweak: [0; 16] }.round(&mut job.record.state[..16], round),
        (Closing, SEALING) => closing(job).round(&mut job.record.state[..16], round),
        (Closing, _) => closing(job).round_back(&mut job.record.state[..16], round),
        _ => shadow::round(&mut job.record.state, round),
    }
    if round + 1 == ROUNDS {
        let writes = job.record.direction == SEALING || at >= SECOND_WALK;
        leave(job, part, call, writes);
    }
}
