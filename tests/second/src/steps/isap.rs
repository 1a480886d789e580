//! ISAP's parts, and what goes with their rounds.

use super::Stepped;
use crate::instances::{instance, Instance};
use crate::paper::{padded, top_bit, xor_into};
use crate::record::{SEALING, WRONG_TAG};

#[derive(Clone, Copy, PartialEq)]
enum Part {
    KeyStart,
    KeyBits,
    KeyEnd,
    Text,
    MacStart,
    Assoc,
    Cipher,
    MacKeyStart,
    MacKeyBits,
    MacKeyEnd,
    Tag,
}
use Part::*;

const SEALING_ORDER: [Part; 11] = [KeyStart, KeyBits, KeyEnd, Text, MacStart, Assoc, Cipher, MacKeyStart, MacKeyBits, MacKeyEnd, Tag];
const OPENING_ORDER: [Part; 11] = [MacStart, Assoc, Cipher, MacKeyStart, MacKeyBits, MacKeyEnd, Tag, KeyStart, KeyBits, KeyEnd, Text];

fn order(direction: u32) -> [Part; 11] {
    if direction == SEALING {
        SEALING_ORDER
    } else {
        OPENING_ORDER
    }
}

/// How many calls a part has, and of how many rounds each.
fn shape(i: &Instance, part: Part, assoc: usize, text: usize) -> (usize, usize) {
    match part {
        KeyStart | KeyEnd | MacKeyStart | MacKeyEnd => (1, i.s_k),
        KeyBits | MacKeyBits => (127, i.s_b),
        Text => ((text + i.block - 1) / i.block, i.s_e),
        MacStart | Tag => (1, i.s_h),
        Assoc => (assoc / i.block + 1, i.s_h),
        Cipher => (text / i.block + 1, i.s_h),
    }
}

pub fn parts(number: u32, direction: u32, assoc: usize, text: usize) -> Vec<(usize, usize)> {
    order(direction).map(|part| shape(instance(number), part, assoc, text)).to_vec()
}

fn restart(job: &mut Stepped, front: [u8; 16], flag: u8) {
    let i = instance(job.record.instance);
    let start = [front.to_vec(), i.initial_value(flag)].concat();
    job.record.state[..i.bytes].copy_from_slice(&start);
}

fn xor_block(job: &mut Stepped, string: &[u8], call: usize) {
    let b = instance(job.record.instance).block;
    xor_into(&mut job.record.state, &padded(string, b)[call * b..][..b]);
}

/// What goes with the first round of a call.
fn enter(job: &mut Stepped, part: Part, call: usize) {
    let n = instance(job.record.instance).bytes;
    let r = &mut job.record;
    match part {
        KeyStart => restart(job, job.record.key, 3),
        KeyBits => r.state[0] ^= top_bit(&r.nonce, call),
        KeyEnd => r.state[0] ^= top_bit(&r.nonce, 127),
        Text if call == 0 => r.state[n - 16..n].copy_from_slice(&r.nonce),
        Text => {}
        MacStart => restart(job, job.record.nonce, 1),
        Assoc => xor_block(job, job.assoc, call),
        Cipher => {
            r.state[n - 1] ^= (call == 0) as u8;
            let ciphertext = job.ciphertext().to_vec();
            xor_block(job, &ciphertext, call);
        }
        MacKeyStart => {
            r.session[..n].copy_from_slice(&r.state[..n]);
            restart(job, job.record.key, 2);
        }
        MacKeyBits => r.state[0] ^= top_bit(&r.session, call),
        MacKeyEnd => r.state[0] ^= top_bit(&r.session, 127),
        Tag => {
            r.state[16..n].copy_from_slice(&r.session[16..n]);
            r.session[..n].fill(0);
        }
    }
}

/// What goes with its last round.
fn leave(job: &mut Stepped, part: Part, call: usize) {
    let b = instance(job.record.instance).block;
    let front = &job.record.state[..16];
    match part {
        Text => {
            let block = job.text.chunks(b).nth(call).expect("a block for each call");
            let place = &mut job.out[call * b..][..block.len()];
            place.copy_from_slice(block);
            xor_into(place, &job.record.state);
        }
        Tag if job.record.direction == SEALING => job.record.tag = front.try_into().expect("sixteen bytes"),
        Tag if job.record.tag != front => job.record.ending = WRONG_TAG,
        _ => {}
    }
}

pub fn step(job: &mut Stepped) {
    let i = instance(job.record.instance);
    let [at, call, round] = job.record.place.map(|number| number as usize);
    let part = order(job.record.direction)[at];
    let (_, rounds) = shape(i, part, job.assoc.len(), job.text.len());
    if round == 0 {
        enter(job, part, call);
    }
    i.round(&mut job.record.state, rounds, round);
    if round + 1 == rounds {
        leave(job, part, call);
    }
}
