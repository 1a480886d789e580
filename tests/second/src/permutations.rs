//! States for the permutations, with a key and a tweak for Clyde-128, and each after the rounds that the instances use. Of a run the whole
//! state is shown: bytes behind those of the permutation must come back as they were.

use crate::numbers::Numbers;
use crate::spook::clyde::{self, Keyed};
use crate::spook::shadow;
use crate::{ascon, keccak};

/// Two bytes more than the largest permutation has.
const STATE: usize = shadow::BYTES + 2;
/// A state, a key and a tweak.
const CASE: usize = STATE + 2 * clyde::BYTES;
const CASES: usize = 32;

/// Runs of the rounds of a call in Spook, from one on: all, the first, the second, some that begin within a step, and up to the last.
const RUNS: [(usize, usize); 5] = [(0, 12), (0, 1), (1, 1), (1, 4), (5, 7)];

/// All zeros, all ones, 0 1 2 .., a single bit at each end of each permutation, then random bytes.
pub fn states() -> Vec<u8> {
    let mut numbers = Numbers::new(400);
    let mut all = Vec::new();
    for i in 0..CASES {
        let mut case = [0u8; CASE];
        match i {
            0 => {}
            1 => case.fill(0xFF),
            2 => (0..CASE).for_each(|k| case[k] = k as u8),
            3 => case[0] = 0x80,
            4 => case[0] = 0x01,
            5 => case[ascon::BYTES - 1] = 0x01,
            6 => case[keccak::BYTES - 1] = 0x80,
            7 => case[clyde::BYTES - 1] = 0x80,
            8 => case[shadow::BYTES - 1] = 0x80,
            9 => case[STATE] = 0x01,
            10 => case[CASE - 1] = 0x80,
            _ => case.iter_mut().for_each(|byte| *byte = numbers.next() as u8),
        }
        all.extend(case);
    }
    all
}

fn hex(state: &[u8]) -> String {
    state.iter().map(|byte| format!("{byte:02x}")).collect()
}

/// The last `rounds` of a permutation's `most` rounds.
fn last(name: &str, most: usize, rounds: usize, round: fn(&mut [u8], usize), state: &[u8]) -> String {
    let mut state = state.to_vec();
    (most - rounds..most).for_each(|index| round(&mut state, index));
    format!("{name} {rounds} {}\n", hex(&state))
}

/// The runs, on the first bytes of a state.
fn runs(name: &str, bytes: usize, round: impl Fn(&mut [u8], usize), state: &[u8]) -> String {
    let run = |(from, count): (usize, usize)| {
        let mut state = state.to_vec();
        (from..from + count).for_each(|k| round(&mut state[..bytes], k));
        format!("{name} {from} {count} {}\n", hex(&state))
    };
    RUNS.into_iter().map(run).collect()
}

/// Ascon-p and Keccak-p, a line each: the permutation, the rounds, the state after them in hex. Shadow-512, Clyde-128 and its inverse,
/// whose rounds count in its own order: the same with the first round before their number.
fn lines(case: &[u8]) -> String {
    let (state, rest) = case.split_at(STATE);
    let (key, tweak) = rest.split_at(clyde::BYTES);
    let keyed = Keyed { key: key.try_into().expect("16 bytes"), tweak: tweak.try_into().expect("16 bytes") };
    let ascon = [12, 8, 6, 1].map(|rounds| last("ascon-p", ascon::MOST_ROUNDS, rounds, ascon::round, state));
    let keccak = [20, 16, 12, 8, 1].map(|rounds| last("keccak-p", keccak::MOST_ROUNDS, rounds, keccak::round, state));
    [
        ascon.concat(),
        keccak.concat(),
        runs("shadow-512", shadow::BYTES, shadow::round, state),
        runs("clyde-128", clyde::BYTES, |bytes, k| keyed.round(bytes, k), state),
        runs("clyde-128-inverse", clyde::BYTES, |bytes, k| keyed.round_back(bytes, k), state),
    ]
    .concat()
}

pub fn answers() -> String {
    states().chunks(CASE).map(lines).collect()
}
