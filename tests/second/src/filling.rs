//! What stands in the buffers before a case, named by a seed, and the checksum of long outputs. `crates/case_file` has the same rules.

/// A step of the sequence: x ^= x << 13, x ^= x >> 7, x ^= x << 17, on 64 bits.
fn stirred(x: u64) -> u64 {
    let x = x ^ x << 13;
    let x = x ^ x >> 7;
    x ^ x << 17
}

/// Buffers of these lengths, filled by one sequence in order: from the seed on, a step and then its lowest byte.
pub fn filled<const N: usize>(seed: u64, lengths: [usize; N]) -> [Vec<u8>; N] {
    let mut x = seed;
    let mut next = || {
        x = stirred(x);
        x as u8
    };
    lengths.map(|length| (0..length).map(|_| next()).collect())
}

/// From 1 on, each byte is xored in, and a step follows.
pub fn checksum(bytes: &[u8]) -> u64 {
    bytes.iter().fold(1, |x, byte| stirred(x ^ *byte as u64))
}
