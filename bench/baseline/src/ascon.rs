//! Ascon-p on five words, its rounds unrolled.
//!
//! Words 0 to 3 are kept complemented: a round then needs one complement instead of three, and a word xored with two
//! rotations of itself stays complemented. On a machine that overwrites one operand a round is 45 instructions: 20 for
//! constant and S-box, and for each word a copy, two rotations and two xors.

use crate::sponge::{word_of, Sponge};

#[derive(Clone, Copy)]
pub struct Ascon {
    x: [u64; 5],
}

/// The word xored with its rotations by `a` and by `b`.
#[inline(always)]
fn diffuse(x: u64, a: u32, b: u32) -> u64 {
    (x.rotate_right(b - a) ^ x).rotate_right(a) ^ x
}

#[inline(always)]
fn round(x: [u64; 5], constant: u64) -> [u64; 5] {
    let [x0, x1, mut x2, x3, x4] = x;
    x2 ^= constant;
    let t = x1 ^ x2;
    let u = x0 ^ x4;
    let v = x3 ^ x4;
    let w = (x1 & x2) ^ u;
    let s4 = (x1 | !u) ^ v;
    [
        diffuse(x1 ^ w ^ s4, 19, 28),
        diffuse((x3 | t) ^ w, 39, 61),
        diffuse((x3 & x4) ^ t, 1, 6),
        diffuse((x0 & v) ^ t, 10, 17),
        diffuse(s4, 7, 41),
    ]
}

/// Unrolls the last rounds, as many as `rounds` says, which is known where this is compiled.
macro_rules! last_rounds {
    ($x:expr, $rounds:expr, $($left:literal $constant:literal),*) => {
        $(if $rounds >= $left { $x = round($x, $constant); })*
    };
}

impl Sponge for Ascon {
    const BLOCK: usize = 8;

    #[inline(always)]
    fn new(front: [u64; 2], initial: u64) -> Ascon {
        Ascon { x: [!front[0], !front[1], !initial, !0, 0] }
    }

    #[inline(always)]
    fn front(&self) -> [u64; 2] {
        [!self.x[0], !self.x[1]]
    }

    #[inline(always)]
    fn set_front(&mut self, front: [u64; 2]) {
        self.x[0] = !front[0];
        self.x[1] = !front[1];
    }

    #[inline(always)]
    fn set_back(&mut self, back: [u64; 2]) {
        self.x[3] = !back[0];
        self.x[4] = back[1];
    }

    #[inline(always)]
    fn permute(&mut self, rounds: u32) {
        last_rounds!(self.x, rounds, 12 0xf0, 11 0xe1, 10 0xd2, 9 0xc3, 8 0xb4, 7 0xa5, 6 0x96, 5 0x87, 4 0x78, 3 0x69, 2 0x5a, 1 0x4b);
    }

    #[inline(always)]
    fn enter_bit(&mut self, bits: u64) {
        self.x[0] ^= bits & 1 << 63;
    }

    #[inline(always)]
    fn flip_domain_bit(&mut self) {
        self.x[4] ^= 1;
    }

    #[inline(always)]
    fn absorb(&mut self, block: &[u8]) {
        self.x[0] ^= word_of(block);
    }

    #[inline(always)]
    fn mask(&self, text: &[u8], out: &mut [u8]) {
        out.copy_from_slice(&(word_of(text) ^ !self.x[0]).to_be_bytes());
    }
}
