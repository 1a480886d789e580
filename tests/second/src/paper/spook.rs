//! Spook[128,512,su]: Algorithms 3 and 4 of document 004 with P = 0*. An opening walks twice, as its request has it: it verifies from the
//! ciphertext alone, then walks again for the text.

use super::{xor_into, Notebook};
use crate::record::{Place, WELL, WRONG_TAG};
use crate::spook::clyde::{self, Keyed};
use crate::spook::{shadow, BLOCK};

/// The two bits after the first r of a state: 10 before the text, 01 for a last block that is short.
const TEXT_MARK: u8 = 0b01;
const SHORT_MARK: u8 = 0b10;

/// The place behind the closing call, where a sealing ends and an opening is decided, and that of an opening that has no round left.
const CLOSED: Place = [5, 0, 0];
const OPENED: Place = [9, 0, 0];

/// The part of the first call of an opening's second walk.
const AGAIN: u32 = 5;

type State = [u8; shadow::BYTES];

/// Sixteen bytes of a state.
fn sixteen(bytes: &[u8]) -> [u8; 16] {
    bytes.try_into().expect("sixteen bytes")
}

/// Lines 5 and 6: IV, which is P || 0 || N || 0*, and the seed B behind it.
fn started(nonce: &[u8; 16], seed: &[u8; 16]) -> State {
    [[0; 16], *nonce, [0; 16], *seed].concat().try_into().expect("64 bytes")
}

/// What the padding and the mark of a short block add to a state; a block that is not short has neither.
fn add_padding(state: &mut State, length: usize) {
    if length < BLOCK {
        state[length] ^= 1;
        state[BLOCK] ^= SHORT_MARK;
    }
}

/// Line 7: a block of data is xored in.
fn xor_data(state: &mut State, block: &[u8]) {
    add_padding(state, block.len());
    xor_into(state, block);
}

/// Line 8: a block of ciphertext takes the place of the state's first bytes.
fn put_block(state: &mut State, block: &[u8]) {
    add_padding(state, block.len());
    state[..block.len()].copy_from_slice(block);
}

/// Lines 9 and 10: the cipher with the tweak V || 1, and U.
pub fn closing(key: [u8; 16], state: &[u8; shadow::BYTES]) -> (Keyed, [u8; 16]) {
    let mut tweak = sixteen(&state[16..32]);
    tweak[15] |= 0x80;
    (Keyed { key, tweak }, sixteen(&state[..16]))
}

pub struct Spook<'a, 'b> {
    book: &'a mut Notebook<'b>,
}

impl<'a, 'b> Spook<'a, 'b> {
    pub fn of(book: &'a mut Notebook<'b>) -> Self {
        book.aside = vec![0; shadow::BYTES];
        Spook { book }
    }

    /// A call of Clyde-128 or of its inverse, on a block with 48 zeros behind it.
    fn cipher(&mut self, part: u32, block: [u8; 16], round: impl Fn(&mut [u8], usize)) -> [u8; 16] {
        let mut state = [0; shadow::BYTES];
        state[..16].copy_from_slice(&block);
        self.book.call(&mut state, part, 0, clyde::ROUNDS, |state, k| round(&mut state[..16], k));
        sixteen(&state[..16])
    }

    fn permute(&mut self, state: &mut State, part: u32, call: usize) {
        self.book.call(state, part, call, shadow::ROUNDS, shadow::round);
    }

    /// Lines 4 to 8 (a): the seed, the start, the data, and the mark if a text follows.
    fn begin(&mut self, first_part: u32) -> State {
        let given = self.book.given;
        let keyed = Keyed { key: given.key, tweak: [0; 16] };
        let seed = self.cipher(first_part, given.nonce, |state, k| keyed.round(state, k));
        let mut state = started(&given.nonce, &seed);
        self.permute(&mut state, first_part + 1, 0);
        for (i, block) in given.assoc.chunks(BLOCK).enumerate() {
            xor_data(&mut state, block);
            self.permute(&mut state, first_part + 2, i);
        }
        if !given.text.is_empty() {
            state[BLOCK] ^= TEXT_MARK;
        }
        state
    }

    /// Line 8 of Algorithm 3.
    fn encrypt(&mut self, state: &mut State, part: u32) {
        for (i, block) in self.book.given.text.chunks(BLOCK).enumerate() {
            self.book.write(i * BLOCK, block, state);
            let ciphertext = self.book.now.out[i * BLOCK..][..block.len()].to_vec();
            put_block(state, &ciphertext);
            self.permute(state, part, i);
        }
    }

    /// Line 8 of Algorithm 4 without its text.
    fn absorb(&mut self, state: &mut State, part: u32) {
        for (i, block) in self.book.given.text.chunks(BLOCK).enumerate() {
            put_block(state, block);
            self.permute(state, part, i);
        }
    }

    /// Line 8 of Algorithm 4 for its text alone: nothing is made of the state behind the last block.
    fn decrypt(&mut self, state: &mut State, part: u32) {
        let given = self.book.given;
        for (i, block) in given.text.chunks(BLOCK).enumerate() {
            self.book.write(i * BLOCK, block, state);
            if (i + 1) * BLOCK < given.text.len() {
                put_block(state, block);
                self.permute(state, part, i);
            }
        }
    }

    /// Algorithm 3.
    pub fn seal(&mut self) {
        let mut state = self.begin(0);
        self.encrypt(&mut state, 3);
        let (keyed, u) = closing(self.book.given.key, &state);
        self.book.aside = state.to_vec();
        self.book.now.record.tag = self.cipher(4, u, |state, k| keyed.round(state, k));
        self.book.end(WELL, CLOSED);
    }

    /// Algorithm 4.
    pub fn open(&mut self) {
        let mut state = self.begin(0);
        self.absorb(&mut state, 3);
        let (keyed, u) = closing(self.book.given.key, &state);
        self.book.aside = state.to_vec();
        let inverse = self.cipher(4, self.book.now.record.tag, |state, k| keyed.round_back(state, k));
        self.book.aside = vec![0; shadow::BYTES];
        let empty = self.book.given.text.is_empty();
        if inverse != u {
            return self.book.end(WRONG_TAG, if empty { OPENED } else { CLOSED });
        }
        if !empty {
            let mut state = self.begin(AGAIN);
            self.decrypt(&mut state, AGAIN + 3);
        }
        self.book.end(WELL, OPENED);
    }
}
