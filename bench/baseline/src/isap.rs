//! ISAP v2.0: sealing and opening, for any instance.

use crate::instances::Lent;
use crate::sponge::{bytes_of, words_of, Sponge};

/// An instance: its permutation and its round counts sH, sB, sE, sK.
pub trait Instance {
    type State: Sponge;
    const HASH: u32;
    const BIT: u32;
    const ENCRYPT: u32;
    const KEY: u32;
}

const MAC: u64 = 1;
const REKEY_MAC: u64 = 2;
const REKEY_ENCRYPT: u64 = 3;

/// The most bytes that a block has.
const MOST: usize = 18;

fn initial<I: Instance>(flag: u64) -> u64 {
    let counts = [I::HASH, I::BIT, I::ENCRYPT, I::KEY];
    let head = flag << 24 | 128 << 16 | (8 * I::State::BLOCK as u64) << 8 | 1;
    counts.iter().fold(head, |value, &count| value << 8 | count as u64)
}

/// Lets the top bits of a word enter, two at a time, each followed by its rounds.
#[inline(always)]
fn enter_pairs<I: Instance>(state: &mut I::State, bits: u64, pairs: u32) {
    let mut left = bits;
    for _ in 0..pairs {
        state.enter_bit(left);
        state.permute(I::BIT);
        state.enter_bit(left << 1);
        state.permute(I::BIT);
        left <<= 2;
    }
}

/// The string's 128 bits enter, the top bit first; the last has a round count of its own.
#[inline(always)]
fn rekey<I: Instance>(key: &[u8; 16], flag: u64, string: [u64; 2]) -> I::State {
    let mut state = I::State::new(words_of(key), initial::<I>(flag));
    state.permute(I::KEY);
    enter_pairs::<I>(&mut state, string[0], 32);
    enter_pairs::<I>(&mut state, string[1], 31);
    state.enter_bit(string[1] << 62);
    state.permute(I::BIT);
    state.enter_bit(string[1] << 63);
    state.permute(I::KEY);
    state
}

#[inline(never)]
fn encrypt<I: Instance>(lent: &Lent, text: &[u8], out: &mut [u8]) {
    let block = I::State::BLOCK;
    let nonce = words_of(lent.nonce);
    let mut state = rekey::<I>(lent.key, REKEY_ENCRYPT, nonce);
    state.set_back(nonce);
    for (from, to) in text.chunks_exact(block).zip(out.chunks_exact_mut(block)) {
        state.permute(I::ENCRYPT);
        state.mask(from, to);
    }
    let whole = text.len() - text.len() % block;
    if whole < text.len() {
        state.permute(I::ENCRYPT);
        let mut from = [0; MOST];
        let mut to = [0; MOST];
        from[..text.len() - whole].copy_from_slice(&text[whole..]);
        state.mask(&from[..block], &mut to[..block]);
        out[whole..].copy_from_slice(&to[..text.len() - whole]);
    }
}

/// Absorbs a padded string.
#[inline(always)]
fn absorb<I: Instance>(state: &mut I::State, string: &[u8]) {
    let blocks = string.chunks_exact(I::State::BLOCK);
    let rest = blocks.remainder();
    for block in blocks {
        state.absorb(block);
        state.permute(I::HASH);
    }
    let mut last = [0; MOST];
    last[..rest.len()].copy_from_slice(rest);
    last[rest.len()] = 0x80;
    state.absorb(&last[..I::State::BLOCK]);
    state.permute(I::HASH);
}

#[inline(never)]
fn tag_of<I: Instance>(lent: &Lent, cipher: &[u8]) -> [u8; 16] {
    let mut state = I::State::new(words_of(lent.nonce), initial::<I>(MAC));
    state.permute(I::HASH);
    absorb::<I>(&mut state, lent.assoc);
    state.flip_domain_bit();
    absorb::<I>(&mut state, cipher);
    let key = rekey::<I>(lent.key, REKEY_MAC, state.front()).front();
    state.set_front(key);
    state.permute(I::HASH);
    bytes_of(state.front())
}

/// Writes the ciphertext and gives the tag.
pub fn seal<I: Instance>(lent: &Lent, text: &[u8], out: &mut [u8]) -> [u8; 16] {
    encrypt::<I>(lent, text, out);
    tag_of::<I>(lent, out)
}

/// Writes the text, if the tag is right; says whether it is.
pub fn open<I: Instance>(lent: &Lent, cipher: &[u8], tag: &[u8; 16], out: &mut [u8]) -> bool {
    let made = tag_of::<I>(lent, cipher);
    let differing = made.iter().zip(tag).fold(0, |seen, (a, b)| seen | (a ^ b));
    if differing != 0 {
        return false;
    }
    encrypt::<I>(lent, cipher, out);
    true
}
