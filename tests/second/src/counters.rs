//! The worked example of docs/COUNTERS.md: parcels built with a counter that is used twice, then with the one that was handed back.

use crate::parcel::{build, parts, Built, HEADER, TAG};

const KEY: [u8; 16] = [0, 1, 2, 3, 4, 5, 6, 7, 8, 9, 10, 11, 12, 13, 14, 15];
const INSTANCE: u32 = 1;
const STATION: u16 = 12;
const LAST: u64 = 40;

const TEXT_A: &[u8] = b"shift clock +17 us";
const TEXT_B: &[u8] = b"shift clock -42 us";

fn row(name: &str, bytes: &[u8]) -> String {
    let digits: String = bytes.iter().map(|byte| format!(" {byte:02x}")).collect();
    format!("{name:9}{digits}\n")
}

fn xor_row(a: &[u8], b: &[u8]) -> String {
    let xor: Vec<u8> = a.iter().zip(b).map(|(a, b)| a ^ b).collect();
    row("xor", &xor)
}

/// A parcel of the text and what its building answered, in a line that begins with these words.
fn built(words: &str, last: u64, text: &[u8]) -> (Vec<u8>, String) {
    let mut parcel = vec![0; HEADER + text.len() + TAG];
    let Built { number, counter, .. } = build(INSTANCE, &KEY, STATION, last, text, &mut parcel);
    (parcel, format!("{words}, last counter {last}: number {number}, counter {counter}\n"))
}

pub fn lines() -> String {
    let (a, answered_a) = built("\ntext A", LAST, TEXT_A);
    let (b, answered_b) = built("text B", LAST, TEXT_B);
    let (sealed_a, sealed_b) = (parts(&a).0, parts(&b).0);
    let (short, answered_short) = built("\nthe first 11 bytes of text A", LAST, &TEXT_A[..11]);
    let (back, answered_back) = built("\nsealed A as a text", LAST, sealed_a);
    let (next, answered_next) = built("\ntext B", LAST + 1, TEXT_B);
    let (_, answered_largest) = built("\ntext B", u64::MAX, TEXT_B);
    [
        row("text A", TEXT_A),
        row("text B", TEXT_B),
        xor_row(TEXT_A, TEXT_B),
        answered_a,
        answered_b,
        row("header A", &a[..HEADER]),
        row("header B", &b[..HEADER]),
        row("sealed A", sealed_a),
        row("sealed B", sealed_b),
        xor_row(sealed_a, sealed_b),
        answered_short,
        row("sealed", parts(&short).0),
        answered_back,
        row("sealed", parts(&back).0),
        answered_next,
        row("sealed B", parts(&next).0),
        xor_row(sealed_a, parts(&next).0),
        answered_largest,
    ]
    .concat()
}
