//! The instances: the four of ISAP (document 001, Tables 2.2 and 2.3), and Spook, which is instance 5 (`spook`).

use crate::record::Place;
use crate::spook::{self, SPOOK};
use crate::{ascon, keccak};

/// Every instance that there is.
pub const ALL: [u32; 5] = [1, 2, 3, 4, SPOOK];

/// The bytes of a block of an instance.
pub fn block(number: u32) -> usize {
    if number == SPOOK {
        spook::BLOCK
    } else {
        instance(number).block
    }
}

/// The place of a job of ISAP that has no round left.
pub const ISAP_END: Place = [11, 0, 0];

/// Bytes of a state and of a block, the rounds of the calls pH, pB, pE and pK, and the permutation.
pub struct Instance {
    pub bytes: usize,
    pub block: usize,
    pub s_h: usize,
    pub s_b: usize,
    pub s_e: usize,
    pub s_k: usize,
    most: usize,
    round: fn(&mut [u8], usize),
}

impl Instance {
    /// Round `k` of a call of `rounds` rounds, which are the last ones that the permutation has.
    pub fn round(&self, state: &mut [u8], rounds: usize, k: usize) {
        (self.round)(state, self.most - rounds + k);
    }

    /// An initial value: flag 1 for the MAC, 2 for its re-keying, 3 for that of encryption.
    pub fn initial_value(&self, flag: u8) -> Vec<u8> {
        let numbers = [128, 8 * self.block, 1, self.s_h, self.s_b, self.s_e, self.s_k];
        let mut value = vec![flag];
        value.extend(numbers.map(|number| number as u8));
        value.resize(self.bytes - 16, 0);
        value
    }
}

// The other two instances differ from these in round counts alone.
const A_128: Instance =
    Instance { bytes: ascon::BYTES, block: 64 / 8, s_h: 12, s_b: 12, s_e: 12, s_k: 12, most: ascon::MOST_ROUNDS, round: ascon::round };
const K_128: Instance =
    Instance { bytes: keccak::BYTES, block: 144 / 8, s_h: 20, s_b: 12, s_e: 12, s_k: 12, most: keccak::MOST_ROUNDS, round: keccak::round };

/// ISAP-A-128a, ISAP-A-128, ISAP-K-128a, ISAP-K-128: instances 1 to 4.
static INSTANCES: [Instance; 4] = [
    Instance { s_b: 1, s_e: 6, ..A_128 },
    A_128,
    Instance { s_h: 16, s_b: 1, s_e: 8, s_k: 8, ..K_128 },
    K_128,
];

/// Instance `number` of ISAP, which is 1 to 4.
pub fn instance(number: u32) -> &'static Instance {
    &INSTANCES[number as usize - 1]
}
