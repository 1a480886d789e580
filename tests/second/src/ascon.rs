//! Ascon-p, its S-box by the table (document 001, Appendix B; the table from document 01).

pub const BYTES: usize = 40;
pub const MOST_ROUNDS: usize = 12;

const CONSTANTS: [u8; MOST_ROUNDS] = [0xF0, 0xE1, 0xD2, 0xC3, 0xB4, 0xA5, 0x96, 0x87, 0x78, 0x69, 0x5A, 0x4B];

const SBOX: [usize; 32] = [
    4, 11, 31, 20, 26, 21, 9, 2, 27, 5, 8, 18, 29, 3, 6, 28, //
    30, 19, 7, 14, 0, 13, 17, 24, 16, 12, 1, 25, 22, 10, 15, 23,
];

const TURNS: [[u32; 2]; 5] = [[19, 28], [61, 39], [1, 6], [10, 17], [7, 41]];

/// A bit of a column's value: word 0 has the top one.
fn holds(value: usize, word: usize) -> bool {
    value >> (4 - word) & 1 == 1
}

/// The S-box on all 64 columns: for each value the columns that hold it, and the words that get a one there.
fn substituted(words: [u64; 5]) -> [u64; 5] {
    let mut new = [0u64; 5];
    for (value, image) in SBOX.iter().enumerate() {
        let held = |word: usize| if holds(value, word) { words[word] } else { !words[word] };
        let columns = (0..5).fold(u64::MAX, |columns, word| columns & held(word));
        (0..5).filter(|word| holds(*image, *word)).for_each(|word| new[word] |= columns);
    }
    new
}

/// Round `index` of the twelve, on the first 40 bytes.
pub fn round(state: &mut [u8], index: usize) {
    let mut words = [0u64; 5];
    for (word, bytes) in words.iter_mut().zip(state.chunks(8)) {
        *word = bytes.iter().fold(0, |number, byte| number << 8 | *byte as u64);
    }
    words[2] ^= CONSTANTS[index] as u64;
    words = substituted(words);
    for (word, [one, two]) in words.iter_mut().zip(TURNS) {
        *word ^= word.rotate_right(one) ^ word.rotate_right(two);
    }
    for (word, bytes) in words.iter().zip(state.chunks_mut(8)) {
        bytes.copy_from_slice(&word.to_be_bytes());
    }
}
