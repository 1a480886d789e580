//! Keccak-p[400] (FIPS 202, sections 3.2 and 3.3; document 001, Appendix A): theta, rho and pi bit by bit. They are linear, so a round
//! looks up what they make of each byte of the state and xors it together; chi and iota work on the bytes.

pub const BYTES: usize = 50;
pub const MOST_ROUNDS: usize = 20;
const WIDTH: usize = 16;

/// A[x][y][z].
type Cube = [[[bool; WIDTH]; 5]; 5];
type Bytes = [u8; BYTES];

fn each(mut bit: impl FnMut(usize, usize, usize) -> bool) -> Cube {
    let mut cube = [[[false; WIDTH]; 5]; 5];
    for x in 0..5 {
        for y in 0..5 {
            for z in 0..WIDTH {
                cube[x][y][z] = bit(x, y, z);
            }
        }
    }
    cube
}

fn theta(a: Cube) -> Cube {
    let parity = |x: usize, z: usize| (0..5).fold(false, |sum, y| sum ^ a[x][y][z]);
    each(|x, y, z| a[x][y][z] ^ parity((x + 4) % 5, z) ^ parity((x + 1) % 5, (z + WIDTH - 1) % WIDTH))
}

fn rho(a: Cube) -> Cube {
    let mut b = a;
    let (mut x, mut y) = (1, 0);
    for t in 0..24 {
        let offset = (t + 1) * (t + 2) / 2;
        for z in 0..WIDTH {
            b[x][y][(z + offset) % WIDTH] = a[x][y][z];
        }
        (x, y) = (y, (2 * x + 3 * y) % 5);
    }
    b
}

fn pi(a: Cube) -> Cube {
    each(|x, y, z| a[(x + 3 * y) % 5][x][z])
}

/// The number of a bit in the string.
fn place(x: usize, y: usize, z: usize) -> usize {
    WIDTH * (5 * y + x) + z
}

/// What theta, rho and pi make of a state in which bit `number` alone is one.
fn image(number: usize) -> Bytes {
    let a = pi(rho(theta(each(|x, y, z| place(x, y, z) == number))));
    let mut bytes = [0; BYTES];
    each(|x, y, z| {
        bytes[place(x, y, z) / 8] |= (a[x][y][z] as u8) << (place(x, y, z) % 8);
        false
    });
    bytes
}

fn xor_into(a: &mut Bytes, b: &Bytes) {
    a.iter_mut().zip(b).for_each(|(a, b)| *a ^= b);
}

/// For each byte of the state and each value of it what theta, rho and pi make of it alone, all other bytes being zero.
fn images() -> Vec<[Bytes; 256]> {
    let mut all = vec![[[0; BYTES]; 256]; BYTES];
    for (i, of_byte) in all.iter_mut().enumerate() {
        for value in 1..256usize {
            let lowest = value.trailing_zeros() as usize;
            of_byte[value] = of_byte[value & (value - 1)];
            xor_into(&mut of_byte[value], &image(8 * i + lowest));
        }
    }
    all
}

/// rc(t), Algorithm 5.
fn rc(t: usize) -> bool {
    let mut register = vec![true, false, false, false, false, false, false, false];
    for _ in 0..t % 255 {
        register.insert(0, false);
        for i in [0, 4, 5, 6] {
            register[i] ^= register[8];
        }
        register.truncate(8);
    }
    register[0]
}

/// What iota of round `index` adds to the two bytes of lane (0, 0).
fn constant(index: usize) -> [u8; 2] {
    let lane = (0..=4).fold(0u16, |lane, j| lane | (rc(j + 7 * index) as u16) << ((1 << j) - 1));
    lane.to_le_bytes()
}

// Both tables, computed once in each thread.
thread_local! {
    static IMAGES: Vec<[Bytes; 256]> = images();
    static CONSTANTS: [[u8; 2]; MOST_ROUNDS] = std::array::from_fn(constant);
}

/// A row has ten bytes, and the next lane's byte stands two further on.
fn chi(a: &Bytes, new: &mut [u8]) {
    for (row, new) in a.chunks(10).zip(new.chunks_mut(10)) {
        for i in 0..10 {
            new[i] = row[i] ^ (!row[(i + 2) % 10] & row[(i + 4) % 10]);
        }
    }
}

/// Round `index` of the twenty, on the first 50 bytes.
pub fn round(state: &mut [u8], index: usize) {
    let mut mixed = [0; BYTES];
    IMAGES.with(|images| {
        for (of_byte, value) in images.iter().zip(state.iter()) {
            xor_into(&mut mixed, &of_byte[*value as usize]);
        }
    });
    chi(&mixed, &mut state[..BYTES]);
    for (byte, constant) in state.iter_mut().zip(CONSTANTS.with(|constants| constants[index])) {
        *byte ^= constant;
    }
}
