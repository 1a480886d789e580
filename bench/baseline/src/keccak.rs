//! Keccak-p[400] on 25 lanes, four rounds at a time.
//!
//! A lane of 16 bits stands twice in a word of 32, so that it turns as that word turns. Six lanes are kept complemented:
//! with `or` beside `and` the step chi then needs five complements a round instead of 25.

use crate::sponge::Sponge;

#[derive(Clone, Copy)]
pub struct Keccak {
    lanes: [u32; 25],
}

const CONSTANTS: [u32; 20] = [
    0x00010001, 0x80828082, 0x808a808a, 0x80008000, 0x808b808b, 0x00010001, 0x80818081, 0x80098009, 0x008a008a, 0x00880088,
    0x80098009, 0x000a000a, 0x808b808b, 0x008b008b, 0x80898089, 0x80038003, 0x80028002, 0x00800080, 0x800a800a, 0x000a000a,
];

/// What a lane is xored with where it is kept.
const fn kept(lane: usize) -> u32 {
    match lane {
        1 | 2 | 8 | 12 | 17 | 20 => !0,
        _ => 0,
    }
}

#[inline(always)]
fn twice(lane: u32) -> u32 {
    lane << 16 | lane
}

/// What theta adds to each column.
#[inline(always)]
fn effects(a: &[u32; 25]) -> [u32; 5] {
    let c0 = a[0] ^ a[5] ^ a[10] ^ a[15] ^ a[20];
    let c1 = a[1] ^ a[6] ^ a[11] ^ a[16] ^ a[21];
    let c2 = a[2] ^ a[7] ^ a[12] ^ a[17] ^ a[22];
    let c3 = a[3] ^ a[8] ^ a[13] ^ a[18] ^ a[23];
    let c4 = a[4] ^ a[9] ^ a[14] ^ a[19] ^ a[24];
    [
        c4 ^ c1.rotate_left(1),
        c0 ^ c2.rotate_left(1),
        c1 ^ c3.rotate_left(1),
        c2 ^ c4.rotate_left(1),
        c3 ^ c0.rotate_left(1),
    ]
}

/// A round, row by row of its result: theta, rho and pi give the row's five lanes, chi mixes them, each by the complements that it and
/// its neighbours are kept with.
#[inline(always)]
fn round(a: [u32; 25], constant: u32) -> [u32; 25] {
    let d = effects(&a);
    let moved = |lane: usize, by: u32| (a[lane] ^ d[lane % 5]).rotate_left(by);
    let [b0, b1, b2, b3, b4] = [moved(0, 0), moved(6, 12), moved(12, 11), moved(18, 5), moved(24, 14)];
    let p = [b0 ^ (b1 | b2) ^ constant, b1 ^ (!b2 | b3), b2 ^ (b3 & b4), b3 ^ (b4 | b0), b4 ^ (b0 & b1)];
    let [b0, b1, b2, b3, b4] = [moved(3, 12), moved(9, 4), moved(10, 3), moved(16, 13), moved(22, 13)];
    let q = [b0 ^ (b1 | b2), b1 ^ (b2 & b3), b2 ^ (b3 | !b4), b3 ^ (b4 | b0), b4 ^ (b0 & b1)];
    let [b0, b1, b2, b3, b4] = [moved(1, 1), moved(7, 6), moved(13, 9), moved(19, 8), moved(20, 2)];
    let r = [b0 ^ (b1 | b2), b1 ^ (b2 & b3), b2 ^ (!b3 & b4), !b3 ^ (b4 | b0), b4 ^ (b0 & b1)];
    let [b0, b1, b2, b3, b4] = [moved(4, 11), moved(5, 4), moved(11, 10), moved(17, 15), moved(23, 8)];
    let s = [b0 ^ (b1 & b2), b1 ^ (b2 | b3), b2 ^ (!b3 | b4), !b3 ^ (b4 & b0), b4 ^ (b0 | b1)];
    let [b0, b1, b2, b3, b4] = [moved(2, 14), moved(8, 7), moved(14, 7), moved(15, 9), moved(21, 2)];
    let t = [b0 ^ (!b1 & b2), !b1 ^ (b2 | b3), b2 ^ (b3 & b4), b3 ^ (b4 | b0), b4 ^ (b0 & b1)];
    [
        p[0], p[1], p[2], p[3], p[4], q[0], q[1], q[2], q[3], q[4], r[0], r[1], r[2], r[3], r[4], s[0], s[1], s[2], s[3], s[4], t[0],
        t[1], t[2], t[3], t[4],
    ]
}

/// Rounds in fours. Not inlined: unrolled at each place it would outgrow the caches.
#[inline(never)]
fn run(lanes: &mut [u32; 25], constants: &[u32]) {
    let mut a = *lanes;
    for four in constants.chunks_exact(4) {
        a = round(round(round(round(a, four[0]), four[1]), four[2]), four[3]);
    }
    *lanes = a;
}

impl Keccak {
    /// The four lanes from `from` on as a word, the first byte most significant.
    fn word(&self, from: usize) -> u64 {
        (from..from + 4).fold(0, |word, i| word << 16 | ((self.lanes[i] ^ kept(i)) as u16).swap_bytes() as u64)
    }

    fn set_word(&mut self, from: usize, word: u64) {
        for i in 0..4 {
            let lane = ((word >> (48 - 16 * i)) as u16).swap_bytes();
            self.lanes[from + i] = twice(lane as u32) ^ kept(from + i);
        }
    }
}

impl Sponge for Keccak {
    const BLOCK: usize = 18;

    #[inline(always)]
    fn new(front: [u64; 2], initial: u64) -> Keccak {
        let mut state = Keccak { lanes: [0; 25] };
        for i in 0..25 {
            state.lanes[i] = kept(i);
        }
        state.set_front(front);
        state.set_word(8, initial);
        state
    }

    #[inline(always)]
    fn front(&self) -> [u64; 2] {
        [self.word(0), self.word(4)]
    }

    #[inline(always)]
    fn set_front(&mut self, front: [u64; 2]) {
        self.set_word(0, front[0]);
        self.set_word(4, front[1]);
    }

    #[inline(always)]
    fn set_back(&mut self, back: [u64; 2]) {
        self.set_word(17, back[0]);
        self.set_word(21, back[1]);
    }

    #[inline(always)]
    fn permute(&mut self, rounds: u32) {
        if rounds == 1 {
            self.lanes = round(self.lanes, CONSTANTS[19]);
            return;
        }
        run(&mut self.lanes, &CONSTANTS[20 - rounds as usize..]);
    }

    #[inline(always)]
    fn enter_bit(&mut self, bits: u64) {
        self.lanes[0] ^= twice((bits >> 56) as u32 & 0x80);
    }

    #[inline(always)]
    fn flip_domain_bit(&mut self) {
        self.lanes[24] ^= twice(0x100);
    }

    #[inline(always)]
    fn absorb(&mut self, block: &[u8]) {
        for i in 0..9 {
            self.lanes[i] ^= twice(u16::from_le_bytes([block[2 * i], block[2 * i + 1]]) as u32);
        }
    }

    #[inline(always)]
    fn mask(&self, text: &[u8], out: &mut [u8]) {
        for i in 0..9 {
            let lane = u16::from_le_bytes([text[2 * i], text[2 * i + 1]]) ^ (self.lanes[i] ^ kept(i)) as u16;
            out[2 * i..2 * i + 2].copy_from_slice(&lane.to_le_bytes());
        }
    }
}
