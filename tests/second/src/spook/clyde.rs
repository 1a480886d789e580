//! Clyde-128 (document 004, section 3.2, Algorithm 1) and its inverse, round by round. A tweakey addition goes with the round before it,
//! the first with the first round, in the inverse in its own order.

use super::layers::{add_constant, l_layer, l_layer_undone, put_rows, rows, s_layer, s_layer_undone};

pub const BYTES: usize = 16;
pub const ROUNDS: usize = 12;
/// TK(0) is added first, TK(6) last.
const LAST_TWEAKEY: usize = ROUNDS / 2;

type Block = [u8; BYTES];

/// A key and a tweak.
#[derive(Clone, Copy)]
pub struct Keyed {
    pub key: Block,
    pub tweak: Block,
}

fn xored<const N: usize>(a: [u8; N], b: [u8; N]) -> [u8; N] {
    std::array::from_fn(|i| a[i] ^ b[i])
}

impl Keyed {
    /// TK(i).
    fn tweakey(&self, i: usize) -> Block {
        let half = |at: usize| -> [u8; 8] { self.tweak[at..at + 8].try_into().expect("eight bytes") };
        let (t0, t1) = (half(0), half(8));
        let delta = match i % 3 {
            0 => [t0, t1],
            1 => [xored(t0, t1), t0],
            _ => [t1, xored(t0, t1)],
        };
        xored(self.key, delta.concat().try_into().expect("two halves"))
    }

    fn add_tweakey(&self, state: &mut [u8], i: usize) {
        state.iter_mut().zip(self.tweakey(i)).for_each(|(byte, of_key)| *byte ^= of_key);
    }

    /// Round `r` of the twelve, on 16 bytes.
    pub fn round(&self, state: &mut [u8], r: usize) {
        if r == 0 {
            self.add_tweakey(state, 0);
        }
        let mut x = rows(state);
        s_layer(&mut x);
        l_layer(&mut x);
        add_constant(&mut x, r, 0);
        put_rows(state, &x);
        if r % 2 == 1 {
            self.add_tweakey(state, (r + 1) / 2);
        }
    }

    /// Round `k` of the inverse, which undoes the last round first.
    pub fn round_back(&self, state: &mut [u8], k: usize) {
        if k == 0 {
            self.add_tweakey(state, LAST_TWEAKEY);
        }
        let mut x = rows(state);
        add_constant(&mut x, ROUNDS - 1 - k, 0);
        l_layer_undone(&mut x);
        s_layer_undone(&mut x);
        put_rows(state, &x);
        if k % 2 == 1 {
            self.add_tweakey(state, LAST_TWEAKEY - (k + 1) / 2);
        }
    }

    pub fn encrypted(&self, block: Block) -> Block {
        let mut state = block;
        (0..ROUNDS).for_each(|r| self.round(&mut state, r));
        state
    }

    pub fn decrypted(&self, block: Block) -> Block {
        let mut state = block;
        (0..ROUNDS).for_each(|k| self.round_back(&mut state, k));
        state
    }
}
