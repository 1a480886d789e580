//! Parcels received with damage, and openings that are lent other lengths, alone and together: which answer comes first.

use super::received::{sealed, write, Received};
use super::{ROOM, UNKNOWN_BYTES};
use crate::calls::{ENDED_WELL, TAG_DIFFERS};
use crate::filling::filled;
use crate::instances::ALL;
use crate::numbers::Numbers;
use crate::paper::{closing, decided};
use crate::parcel::{parts, read, Fields, CUT_SHORT, HEADER, KEY_LENGTH, OUTPUT_LENGTH, TAG, WRONG_MARK};
use crate::spook::SPOOK;
use crate::written::Written;

const TEXT: usize = 19;

fn parcel(numbers: &mut Numbers, instance: u32, text: usize) -> Received {
    let fields = Fields { instance, station: numbers.next() as u16, counter: numbers.next(), text };
    sealed(numbers.next(), fields)
}

/// Each bit of the header, one at a time.
fn write_header(file: &mut Written, parcel: &Received) {
    for bit in 0..8 * HEADER {
        assert!(write(file, &parcel.flipped(bit / 8, 1 << (bit % 8))) != ENDED_WELL, "the header is not open to change");
    }
}

/// A bit of each byte behind the header.
fn write_body(file: &mut Written, numbers: &mut Numbers, parcel: &Received) {
    for at in HEADER..parcel.buffer.len() {
        let damaged = parcel.flipped(at, 1 << (numbers.next() % 8));
        assert!(write(file, &damaged) == TAG_DIFFERS, "the tag vouches for the body");
    }
}

/// The mark damaged, in a buffer of every length up to the header's.
fn write_mark(file: &mut Written, parcel: &Received) {
    for mark in [[0xA7, 0x5D], [0x27, 0x5C], [0x5C, 0xA7], [0, 0]] {
        let mut buffer = parcel.buffer.clone();
        buffer[..2].copy_from_slice(&mark);
        let damaged = parcel.with(buffer);
        for length in 0..=HEADER {
            let first = if length < 2 { CUT_SHORT } else { WRONG_MARK };
            assert!(write(file, &damaged.cut(length)) == first, "two bytes are enough to miss the mark");
        }
    }
}

/// A parcel that says another instance and another text length of itself.
fn saying(parcel: &Received, instance: u32, text: usize) -> Received {
    let mut buffer = parcel.buffer.clone();
    buffer[2] = instance as u8;
    buffer[13..HEADER].copy_from_slice(&(text as u16).to_be_bytes());
    parcel.with(buffer)
}

/// A parcel with whatever of it is there, and without the mark.
fn write_more_or_less(file: &mut Written, parcel: &Received) {
    let end = parcel.buffer.len();
    for length in [HEADER - 1, HEADER, end - 1, end] {
        write(file, &parcel.cut(length));
    }
    write(file, &parcel.flipped(0, 1));
}

/// Each instance that there is not, and the right one, with each text length.
fn write_headers(file: &mut Written, parcel: &Received, instance: u32) {
    for said in UNKNOWN_BYTES.into_iter().chain([instance]) {
        for text in [0, TEXT - 1, TEXT, TEXT + 1, 4095, 4096, 4097, 65535] {
            write_more_or_less(file, &saying(parcel, said, text));
        }
    }
}

/// Keys and outputs of other lengths: what reading refuses comes before the key, the key before the output, the output before the tag.
fn write_lengths(file: &mut Written, received: &Received) {
    let refused = read(&received.buffer).err();
    for key in [15, 16, 17] {
        let refused = refused.or((key != 16).then_some(KEY_LENGTH));
        for out in [received.out.saturating_sub(1), received.out, received.out + 1] {
            let refused = refused.or((out != received.out).then_some(OUTPUT_LENGTH));
            let number = write(file, &Received { key, out, ..received.clone() });
            assert!(refused.map_or(true, |first| number == first), "refusals have their order");
        }
    }
}

/// Other lengths with a right tag, with a wrong one, and with each thing that reading refuses.
fn write_all_lengths(file: &mut Written, parcel: &Received) {
    let end = parcel.buffer.len();
    let cut = [1, HEADER - 1, end - 1].map(|length| parcel.cut(length));
    let flipped = [(0, 1), (2, 8), (13, 32), (end - 1, 1)].map(|(at, bits)| parcel.flipped(at, bits));
    cut.iter().chain(&flipped).chain([parcel]).for_each(|received| write_lengths(file, received));
}

/// A parcel of Spook with a tag whose inverse misses the required value by some bits of one byte.
fn missing(parcel: &Received, at: usize, bits: u8) -> Received {
    let [key, _, _] = filled(parcel.seed, ROOM);
    let fields = read(&parcel.buffer).expect("a whole parcel");
    let (cipher, _) = parts(&parcel.buffer);
    let decided = decided(&fields.given(&key[..16], &parcel.buffer[..HEADER], cipher));
    let (keyed, mut required) = closing(decided.key, &decided.session);
    required[at] ^= bits;
    let sealed = &parcel.buffer[..parcel.buffer.len() - TAG];
    parcel.with([sealed, &keyed.encrypted(required)].concat())
}

fn write_misses(file: &mut Written, numbers: &mut Numbers, parcel: &Received) {
    for at in 0..16 {
        let missing = missing(parcel, at, 1 << (numbers.next() % 8));
        assert!(write(file, &missing) == TAG_DIFFERS, "every byte of the required value counts");
    }
}

pub fn cases() -> Written {
    let mut file = Written::default();
    let mut numbers = Numbers::new(520);
    for instance in ALL {
        let (empty, parcel) = (parcel(&mut numbers, instance, 0), parcel(&mut numbers, instance, TEXT));
        write_header(&mut file, &parcel);
        write_body(&mut file, &mut numbers, &parcel);
        write_body(&mut file, &mut numbers, &empty);
        write_mark(&mut file, &parcel);
        write_headers(&mut file, &parcel, instance);
        write_all_lengths(&mut file, &parcel);
        write_lengths(&mut file, &empty);
        let with_another_key = Received { seed: numbers.next(), ..parcel };
        assert!(write(&mut file, &with_another_key) == TAG_DIFFERS, "another key does not open it");
    }
    let (empty, short) = (parcel(&mut numbers, SPOOK, 0), parcel(&mut numbers, SPOOK, TEXT));
    [empty, short].iter().for_each(|parcel| write_misses(&mut file, &mut numbers, parcel));
    for long in [parcel(&mut numbers, 3, 4095), parcel(&mut numbers, SPOOK, 4095)] {
        [HEADER + 4094, HEADER + 4095].iter().for_each(|at| {
            write(&mut file, &long.flipped(*at, 16));
        });
    }
    file
}
