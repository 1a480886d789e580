//! ISAP, Algorithms 1 to 5 of document 001.

use super::{xor_into, Notebook};
use crate::instances::{instance, Instance, ISAP_END};
use crate::record::{WELL, WRONG_TAG};

/// The place of an opening whose encryption comes next.
const DECIDED: [u32; 3] = [7, 0, 0];

pub struct Isap<'a, 'b> {
    book: &'a mut Notebook<'b>,
    instance: &'static Instance,
}

/// A string padded with a one bit and zeros to whole blocks.
pub fn padded(string: &[u8], block: usize) -> Vec<u8> {
    let mut all = string.to_vec();
    all.push(0x80);
    while all.len() % block != 0 {
        all.push(0);
    }
    all
}

/// Bit `i` of a string, a byte's top bit first, as the top bit of a byte.
pub fn top_bit(string: &[u8], i: usize) -> u8 {
    string[i / 8] << (i % 8) & 0x80
}

impl<'a, 'b> Isap<'a, 'b> {
    pub fn of(book: &'a mut Notebook<'b>) -> Self {
        let instance = instance(book.given.instance);
        book.aside = vec![0; instance.bytes];
        Isap { book, instance }
    }

    /// A call of the permutation: the last `rounds` of its rounds.
    fn permute(&mut self, state: &mut [u8], part: u32, call: usize, rounds: usize) {
        let i = self.instance;
        self.book.call(state, part, call, rounds, |state, k| i.round(state, rounds, k));
    }

    /// Algorithm 4: the state at whose front the session key stands.
    fn rekey(&mut self, first_part: u32, flag: u8, y: &[u8]) -> Vec<u8> {
        let i = self.instance;
        let mut s = [self.book.given.key.to_vec(), i.initial_value(flag)].concat();
        self.permute(&mut s, first_part, 0, i.s_k);
        for bit in 0..127 {
            s[0] ^= top_bit(y, bit);
            self.permute(&mut s, first_part + 1, bit, i.s_b);
        }
        s[0] ^= top_bit(y, 127);
        self.permute(&mut s, first_part + 2, 0, i.s_k);
        s
    }

    /// Algorithm 3: it makes the session key before it looks at the blocks, of which an empty text has none.
    fn encrypt(&mut self, first_part: u32) {
        let (i, given) = (self.instance, self.book.given);
        let mut s = self.rekey(first_part, 3, &given.nonce);
        s[i.bytes - 16..].copy_from_slice(&given.nonce);
        for (block, bytes) in given.text.chunks(i.block).enumerate() {
            self.permute(&mut s, first_part + 3, block, i.s_e);
            self.book.write(block * i.block, bytes, &s);
        }
    }

    fn absorb(&mut self, s: &mut [u8], part: u32, string: &[u8]) {
        let i = self.instance;
        for (block, bytes) in padded(string, i.block).chunks(i.block).enumerate() {
            xor_into(s, bytes);
            self.permute(s, part, block, i.s_h);
        }
    }

    /// Algorithm 5.
    fn mac(&mut self, first_part: u32, ciphertext: &[u8]) -> [u8; 16] {
        let (i, given) = (self.instance, self.book.given);
        let mut s = [given.nonce.to_vec(), i.initial_value(1)].concat();
        self.permute(&mut s, first_part, 0, i.s_h);
        self.absorb(&mut s, first_part + 1, &given.assoc);
        s[i.bytes - 1] ^= 1;
        self.absorb(&mut s, first_part + 2, ciphertext);
        self.book.aside = s.clone();
        let session_key = self.rekey(first_part + 3, 2, &s[..16]);
        self.book.aside = vec![0; i.bytes];
        s[..16].copy_from_slice(&session_key[..16]);
        self.permute(&mut s, first_part + 6, 0, i.s_h);
        s[..16].try_into().expect("sixteen bytes")
    }

    /// Algorithm 1.
    pub fn seal(&mut self) {
        self.encrypt(0);
        let ciphertext = self.book.now.out.clone();
        self.book.now.record.tag = self.mac(4, &ciphertext);
        self.book.end(WELL, ISAP_END);
    }

    /// Algorithm 2.
    pub fn open(&mut self) {
        if self.mac(0, &self.book.given.text) == self.book.now.record.tag {
            self.encrypt(7);
            self.book.end(WELL, ISAP_END);
        } else {
            self.book.end(WRONG_TAG, DECIDED);
        }
    }
}
