//! Sealings of the library that a host wrote to a file (`host/tests/fuzz.c`), sealed again. A line has the instance, then in hex key,
//! nonce, associated data, text, and ciphertext with tag; `-` stands for no bytes.

use crate::known::{sixteen, unhex};
use crate::lines::{bytes, six};
use crate::paper::{ended, Given};
use crate::record::SEALING;

/// Whether the line's ciphertext and tag are those that the second program makes.
pub fn agrees(line: &str) -> bool {
    let [instance, key, nonce, assoc, text, sealed] = six(line);
    let instance = instance.parse().expect("an instance");
    let given = Given { instance, key: sixteen(&unhex(key)), nonce: sixteen(&unhex(nonce)), assoc: bytes(assoc), text: bytes(text) };
    let made = ended(&given, SEALING, [0; 16], &vec![0; given.text.len()]);
    [made.out, made.record.tag.to_vec()].concat() == unhex(sealed)
}
