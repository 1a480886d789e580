//! The components that Clyde-128 and Shadow-512 share (document 004, section 3.4), on four rows of 32 bits. The S-box is its table, column
//! by column, and the L-box its circulant matrices, bit by bit; the inverses come from inverting the table and the matrix as they are
//! printed, not from Appendices E and F.

/// x[i, j] is bit j of row i.
pub type Rows = [u32; 4];

/// The mapping between bytes and rows: x[i, j] = B[32 i + j], and a byte's lowest bit is its first (sections 3.1 and 3.2).
pub fn rows(bytes: &[u8]) -> Rows {
    let mut all = [0; 4];
    for place in 0..128 {
        let bit = u32::from(bytes[place / 8] >> (place % 8) & 1);
        all[place / 32] |= bit << (place % 32);
    }
    all
}

pub fn put_rows(bytes: &mut [u8], rows: &Rows) {
    bytes.fill(0);
    for place in 0..128 {
        let bit = rows[place / 32] >> (place % 32) & 1;
        bytes[place / 8] |= (bit as u8) << (place % 8);
    }
}

/// Table 1.
const S: [u32; 16] = [0, 8, 1, 15, 2, 10, 7, 9, 4, 13, 5, 6, 14, 3, 11, 12];

fn inverted_table() -> [u32; 16] {
    std::array::from_fn(|y| S.iter().position(|image| *image == y as u32).expect("each value is an image") as u32)
}

/// A table on each column, row i holding the bit of weight 2^i.
fn on_columns(x: &mut Rows, table: &[u32; 16]) {
    let mut new = [0; 4];
    for j in 0..32 {
        let column = (0..4).fold(0, |sum, i| sum + ((x[i] >> j & 1) << i));
        (0..4).for_each(|i| new[i] |= (table[column as usize] >> i & 1) << j);
    }
    *x = new;
}

/// A line for each of the 64 bits of (a, b), over the 64 bits of (x, y); the first word's bits come first.
type Matrix = [u64; 64];

/// Line `i` of a circulant matrix by its first line, whose entry j is bit j: each line is the one before, moved on by one entry.
fn circ(first: u32, i: usize) -> u64 {
    (0..32).filter(|j| first >> j & 1 == 1).fold(0, |line, j| line | 1 << ((j + i) % 32))
}

/// L' of section 3.4.
fn l() -> Matrix {
    std::array::from_fn(|i| match i {
        0..=31 => circ(0xEC04_5008, i) | circ(0x3600_0F60, i) << 32,
        _ => circ(0x1B00_07B0, i - 32) | circ(0xEC04_5008, i - 32) << 32,
    })
}

/// The inverse, by elimination.
fn inverted(matrix: Matrix) -> Matrix {
    let (mut left, mut right): (Matrix, Matrix) = (matrix, std::array::from_fn(|i| 1 << i));
    for column in 0..64 {
        let pivot = (column..64).find(|i| left[*i] >> column & 1 == 1).expect("a matrix that has an inverse");
        left.swap(column, pivot);
        right.swap(column, pivot);
        for i in (0..64).filter(|i| *i != column) {
            if left[i] >> column & 1 == 1 {
                left[i] ^= left[column];
                right[i] ^= right[column];
            }
        }
    }
    right
}

// The matrices and the inverse table, computed once in each thread.
thread_local! {
    static L: Matrix = l();
    static L_INVERTED: Matrix = inverted(l());
    static S_INVERTED: [u32; 16] = inverted_table();
}

/// A matrix times a column of bits: an output bit is the parity of the ones of a line masked by the column.
fn times(matrix: &Matrix, column: u64) -> u64 {
    (0..64).fold(0, |product, i| product | u64::from((matrix[i] & column).count_ones() % 2) << i)
}

/// A matrix on rows 0 and 1, and on rows 2 and 3.
fn on_pairs(x: &mut Rows, matrix: &Matrix) {
    for i in [0, 2] {
        let product = times(matrix, u64::from(x[i]) | u64::from(x[i + 1]) << 32);
        (x[i], x[i + 1]) = (product as u32, (product >> 32) as u32);
    }
}

pub fn s_layer(x: &mut Rows) {
    on_columns(x, &S);
}

pub fn s_layer_undone(x: &mut Rows) {
    S_INVERTED.with(|table| on_columns(x, table));
}

pub fn l_layer(x: &mut Rows) {
    L.with(|matrix| on_pairs(x, matrix));
}

pub fn l_layer_undone(x: &mut Rows) {
    L_INVERTED.with(|matrix| on_pairs(x, matrix));
}

/// W(r): the four bits of the register after `r` steps from (1, 0, 0, 0); the last bit enters again at the first two places.
pub fn constant(r: usize) -> [u32; 4] {
    let mut register = [1, 0, 0, 0];
    for _ in 0..r {
        let [a, b, c, d] = register;
        register = [d, a ^ d, b, c];
    }
    register
}

/// Adds W(r) at bit `place` of the four rows.
pub fn add_constant(x: &mut Rows, r: usize, place: usize) {
    x.iter_mut().zip(constant(r)).for_each(|(row, bit)| *row ^= bit << place);
}
