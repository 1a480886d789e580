//! Clyde-128 and its inverse on four words, their rounds unrolled.
//!
//! Document 004 turns rows of bits, written from bit 0 on, to the left: their numbers turn to the right.

/// The rows of a state, a key or a tweak: its 16 bytes in words, the first byte least significant.
pub type Rows = [u32; 4];

/// The round constants: bit i is that of row i.
const CONSTANTS: [u32; 12] = [
    0b0001, 0b0010, 0b0100, 0b1000, 0b0011, 0b0110, 0b1100, 0b1011, 0b0101, 0b1010, 0b0111, 0b1110,
];

#[inline(always)]
pub fn plus(x: Rows, y: Rows) -> Rows {
    [x[0] ^ y[0], x[1] ^ y[1], x[2] ^ y[2], x[3] ^ y[3]]
}

/// The constant of a round, added to bit `bit` of the rows.
#[inline(always)]
pub fn with_constant(x: Rows, round: usize, bit: u32) -> Rows {
    let of_row = |row: u32| (CONSTANTS[round] >> row & 1) << bit;
    plus(x, [of_row(0), of_row(1), of_row(2), of_row(3)])
}

/// The S-box on all columns.
#[inline(always)]
pub fn substitute(x: Rows) -> Rows {
    let y1 = (x[0] & x[1]) ^ x[2];
    let y0 = (x[3] & x[0]) ^ x[1];
    let y3 = (y1 & x[3]) ^ x[0];
    let y2 = (y0 & y1) ^ x[3];
    [y0, y1, y2, y3]
}

#[inline(always)]
fn substitute_back(x: Rows) -> Rows {
    let y3 = (x[0] & x[1]) ^ x[2];
    let y0 = (x[1] & y3) ^ x[3];
    let y1 = (y3 & y0) ^ x[0];
    let y2 = (y0 & y1) ^ x[1];
    [y0, y1, y2, y3]
}

/// What the L-box does first to each word of a pair.
#[inline(always)]
fn spread(x: u32) -> u32 {
    let a = x ^ x.rotate_right(12);
    a ^ a.rotate_right(3) ^ x.rotate_right(17)
}

/// The L-box. Its last two turns of each word are taken together, which saves a copy.
#[inline(always)]
fn mix_pair(x: u32, y: u32) -> [u32; 2] {
    let (a, b) = (spread(x), spread(y));
    let (c, d) = (a ^ a.rotate_right(31), b ^ b.rotate_right(31));
    [a ^ (c ^ d.rotate_right(11)).rotate_right(15), b ^ (d ^ c.rotate_right(10)).rotate_right(15)]
}

/// What the inverse L-box does first to each word of a pair.
#[inline(always)]
fn spread_back(x: u32) -> u32 {
    let a = x ^ x.rotate_right(25);
    x ^ a.rotate_right(31) ^ a.rotate_right(20)
}

#[inline(always)]
fn mix_pair_back(x: u32, y: u32) -> [u32; 2] {
    let (c, d) = (spread_back(x), spread_back(y));
    let (a, b) = (c ^ c.rotate_right(31), d ^ d.rotate_right(31));
    let (e, f) = (c ^ b.rotate_right(26), d ^ a.rotate_right(25));
    [(a ^ e.rotate_right(17)).rotate_right(16), (b ^ f.rotate_right(17)).rotate_right(16)]
}

/// The L-box on both pairs of rows.
#[inline(always)]
pub fn mix(x: Rows) -> Rows {
    let ([x0, x1], [x2, x3]) = (mix_pair(x[0], x[1]), mix_pair(x[2], x[3]));
    [x0, x1, x2, x3]
}

#[inline(always)]
fn mix_back(x: Rows) -> Rows {
    let ([x0, x1], [x2, x3]) = (mix_pair_back(x[0], x[1]), mix_pair_back(x[2], x[3]));
    [x0, x1, x2, x3]
}

/// The three tweakeys that the steps take in turn.
#[inline(always)]
fn tweakeys(key: Rows, tweak: Rows) -> [Rows; 3] {
    let [t0, t1, t2, t3] = tweak;
    let (u0, u1) = (t0 ^ t2, t1 ^ t3);
    [plus(key, tweak), plus(key, [u0, u1, t0, t1]), plus(key, [t2, t3, u0, u1])]
}

#[inline(always)]
fn step(x: Rows, number: usize, keys: &[Rows; 3]) -> Rows {
    let x = with_constant(mix(substitute(x)), 2 * number, 0);
    let x = with_constant(mix(substitute(x)), 2 * number + 1, 0);
    plus(x, keys[(number + 1) % 3])
}

#[inline(always)]
fn step_back(x: Rows, number: usize, keys: &[Rows; 3]) -> Rows {
    let x = with_constant(plus(x, keys[(number + 1) % 3]), 2 * number + 1, 0);
    let x = with_constant(substitute_back(mix_back(x)), 2 * number, 0);
    substitute_back(mix_back(x))
}

#[inline(never)]
pub fn encrypt(key: Rows, tweak: Rows, x: Rows) -> Rows {
    let keys = &tweakeys(key, tweak);
    let x = step(step(step(plus(x, keys[0]), 0, keys), 1, keys), 2, keys);
    step(step(step(x, 3, keys), 4, keys), 5, keys)
}

#[inline(never)]
pub fn decrypt(key: Rows, tweak: Rows, x: Rows) -> Rows {
    let keys = &tweakeys(key, tweak);
    let x = step_back(step_back(step_back(x, 5, keys), 4, keys), 3, keys);
    plus(step_back(step_back(step_back(x, 2, keys), 1, keys), 0, keys), keys[0])
}
