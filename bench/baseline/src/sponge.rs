//! What the mode asks of a permutation and its state. A string of 16 bytes is two words, the first byte most significant.

pub trait Sponge: Copy {
    /// The bytes of a block.
    const BLOCK: usize;

    /// A 16-byte string, then an initial value of eight bytes and zeros.
    fn new(front: [u64; 2], initial: u64) -> Self;
    /// The state's first 16 bytes.
    fn front(&self) -> [u64; 2];
    fn set_front(&mut self, front: [u64; 2]);
    /// Sets the state's last 16 bytes.
    fn set_back(&mut self, back: [u64; 2]);
    /// The permutation's last rounds, as many as `rounds`.
    fn permute(&mut self, rounds: u32);
    /// Xors the top bit of `bits` into the state's first bit.
    fn enter_bit(&mut self, bits: u64);
    fn flip_domain_bit(&mut self);
    /// Xors a whole block into the state's first bytes.
    fn absorb(&mut self, block: &[u8]);
    /// A whole block of text xored with the state's first bytes.
    fn mask(&self, text: &[u8], out: &mut [u8]);
}

/// The first eight bytes as a word.
#[inline(always)]
pub fn word_of(bytes: &[u8]) -> u64 {
    let mut word = [0; 8];
    word.copy_from_slice(&bytes[..8]);
    u64::from_be_bytes(word)
}

pub fn words_of(bytes: &[u8; 16]) -> [u64; 2] {
    [word_of(&bytes[..8]), word_of(&bytes[8..])]
}

pub fn bytes_of(words: [u64; 2]) -> [u8; 16] {
    let mut bytes = [0; 16];
    bytes[..8].copy_from_slice(&words[0].to_be_bytes());
    bytes[8..].copy_from_slice(&words[1].to_be_bytes());
    bytes
}
