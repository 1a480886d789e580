//! The case file for the program `parcels`: what the library is to be called with, and what this program says it must answer. A case is
//! its kind and what `built` or `received` says.

mod built;
mod damaged;
mod host;
mod received;

pub use host::agrees;

use crate::written::Written;

#[derive(Clone, Copy)]
enum Kind {
    Built = 1,
    NotBuilt,
    Opened,
    WrongTag,
    LengthLent,
    CutShort,
    WrongMark,
    WrongHeader,
}

const NAMES: [&str; 8] = [
    "parcels built",
    "parcels not built",
    "parcels read and opened",
    "parcels read and not opened, for the tag",
    "parcels read and not opened, for a length lent",
    "buffers cut short",
    "buffers without the mark",
    "buffers whose instance or text length no parcel has",
];

/// Instances that there are not: as a number, and as a header's byte.
const UNKNOWN: [u32; 5] = [0, 6, 255, 256, u32::MAX];
const UNKNOWN_BYTES: [u32; 3] = [0, 6, 255];

/// Text lengths around the blocks of each permutation, which are short, and the longest.
const TEXTS: [usize; 13] = [0, 1, 7, 8, 9, 17, 18, 19, 31, 32, 33, 4095, 4096];
const SHORT_TEXTS: usize = 11;

/// Last counters that another one follows.
const LASTS: [u64; 5] = [0, 1, u32::MAX as u64, 1 << 63, u64::MAX - 1];
const STATIONS: [u16; 5] = [0, 1, 12, 258, u16::MAX];

/// The buffers that parts are lent of, each from its start: key, text and output.
const ROOM: [usize; 3] = [32, 4200, 4200];

fn all() -> Written {
    let mut file = built::cases();
    file.append(received::cases());
    file.append(damaged::cases());
    file
}

pub fn file() -> Vec<u8> {
    all().file()
}

/// What `parcels` prints where nothing differs.
pub fn summary() -> String {
    all().summary(&NAMES)
}
