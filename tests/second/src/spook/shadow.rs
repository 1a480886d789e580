//! Shadow-512 (document 004, section 3.3, Algorithm 2): rounds A and B in turn, each counting one.

use super::layers::{add_constant, l_layer, put_rows, rows, s_layer, Rows};

pub const BYTES: usize = 64;
pub const ROUNDS: usize = 12;
const BUNDLE: usize = BYTES / 4;

const D: [[u32; 4]; 4] = [[0, 1, 1, 1], [1, 0, 1, 1], [1, 1, 0, 1], [1, 1, 1, 0]];

/// D on the four bits x[*, i, j], for each i and j.
pub fn diffuse(x: &mut [Rows; 4]) {
    let mut new = [[0; 4]; 4];
    for i in 0..4 {
        for j in 0..32 {
            for (b, line) in D.iter().enumerate() {
                let bit = (0..4).fold(0, |sum, other| sum ^ line[other] & x[other][i] >> j & 1);
                new[b][i] |= bit << j;
            }
        }
    }
    *x = new;
}

/// Round `r` of the twelve, on 64 bytes. The diffusion layer comes once, when all bundles have been through the S-box; bundle b has the
/// constant at its bit b.
pub fn round(state: &mut [u8], r: usize) {
    let mut x: [Rows; 4] = std::array::from_fn(|b| rows(&state[BUNDLE * b..][..BUNDLE]));
    x.iter_mut().for_each(s_layer);
    if r % 2 == 0 {
        x.iter_mut().for_each(l_layer);
    } else {
        diffuse(&mut x);
    }
    x.iter_mut().enumerate().for_each(|(b, bundle)| add_constant(bundle, r, b));
    state.chunks_mut(BUNDLE).zip(&x).for_each(|(bytes, bundle)| put_rows(bytes, bundle));
}
