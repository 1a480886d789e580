//! Shadow-512 on four bundles of four words, its rounds unrolled: a constant then costs an xor where it has a one, and nothing else. In a
//! loop over the six steps a call is a quarter more instructions.

use crate::clyde::{mix, plus, substitute, with_constant, Rows};

pub const BLOCK: usize = 32;

/// The marks of text and of a last block that is short: bits of the state's byte 32.
pub const TEXT: u32 = 1;
pub const SHORT: u32 = 2;

#[derive(Clone, Copy)]
pub struct Shadow {
    bundles: [Rows; 4],
}

/// 16 bytes in words.
#[inline(always)]
pub fn rows_of(bytes: &[u8]) -> Rows {
    let word = |i: usize| u32::from_le_bytes([bytes[i], bytes[i + 1], bytes[i + 2], bytes[i + 3]]);
    [word(0), word(4), word(8), word(12)]
}

#[inline(always)]
pub fn put_rows(bytes: &mut [u8], rows: Rows) {
    for (to, row) in bytes.chunks_exact_mut(4).zip(rows) {
        to.copy_from_slice(&row.to_le_bytes());
    }
}

/// Round A of a bundle, and round B's S-box.
#[inline(always)]
fn alone(x: Rows, number: usize, bundle: u32) -> Rows {
    substitute(with_constant(mix(substitute(x)), 2 * number, bundle))
}

/// The diffusion layer on one row of each bundle.
#[inline(always)]
fn diffuse(w: u32, x: u32, y: u32, z: u32) -> Rows {
    let u = w ^ x;
    let v = y ^ z;
    [x ^ v, w ^ v, u ^ z, u ^ y]
}

/// Rounds A and B.
#[inline(always)]
fn step(bundles: [Rows; 4], number: usize) -> [Rows; 4] {
    let [w, x, y, z] = bundles;
    let (w, x, y, z) = (alone(w, number, 0), alone(x, number, 1), alone(y, number, 2), alone(z, number, 3));
    let row = |i: usize| diffuse(w[i], x[i], y[i], z[i]);
    let (r0, r1, r2, r3) = (row(0), row(1), row(2), row(3));
    let bundle = |b: usize| with_constant([r0[b], r1[b], r2[b], r3[b]], 2 * number + 1, b as u32);
    [bundle(0), bundle(1), bundle(2), bundle(3)]
}

/// Not inlined: unrolled at each place it would outgrow the caches.
#[inline(never)]
fn run(bundles: &mut [Rows; 4]) {
    let x = step(step(step(*bundles, 0), 1), 2);
    *bundles = step(step(step(x, 3), 4), 5);
}

impl Shadow {
    #[inline(always)]
    pub fn new(nonce: Rows, seed: Rows) -> Shadow {
        Shadow { bundles: [[0; 4], nonce, [0; 4], seed] }
    }

    #[inline(always)]
    pub fn permute(&mut self) {
        run(&mut self.bundles);
    }

    /// The state's first 16 bytes.
    #[inline(always)]
    pub fn front(&self) -> Rows {
        self.bundles[0]
    }

    /// The 16 bytes after them.
    #[inline(always)]
    pub fn second(&self) -> Rows {
        self.bundles[1]
    }

    #[inline(always)]
    pub fn mark(&mut self, mark: u32) {
        self.bundles[2][0] ^= mark;
    }

    /// Xors a whole block into the state's first bytes.
    #[inline(always)]
    pub fn absorb(&mut self, block: &[u8]) {
        self.bundles[0] = plus(self.bundles[0], rows_of(&block[..16]));
        self.bundles[1] = plus(self.bundles[1], rows_of(&block[16..BLOCK]));
    }

    /// Puts a whole block in the place of the state's first bytes.
    #[inline(always)]
    pub fn replace(&mut self, block: &[u8]) {
        self.bundles[0] = rows_of(&block[..16]);
        self.bundles[1] = rows_of(&block[16..BLOCK]);
    }

    /// The state's first bytes, a whole block of them.
    #[inline(always)]
    pub fn write(&self, out: &mut [u8]) {
        put_rows(&mut out[..16], self.bundles[0]);
        put_rows(&mut out[16..BLOCK], self.bundles[1]);
    }
}
