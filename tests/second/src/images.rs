//! An image, a text of the largest length, that a host has sealed in each instance (`host/tests/images`), sealed again.

use std::fs::read;
use std::path::Path;

use crate::calls::MOST_TEXT;
use crate::known::sixteen;
use crate::paper::{ended, Given};
use crate::record::SEALING;
use crate::threads::by_instance;

fn bytes(folder: &Path, name: &str) -> Vec<u8> {
    read(folder.join(name)).unwrap_or_else(|cause| panic!("{name}: {cause}"))
}

/// Whether a folder's `sealed-N` is the ciphertext and the tag of instance N.
fn agrees(folder: &Path, instance: u32) -> bool {
    let [key, nonce] = ["key", "nonce"].map(|name| sixteen(&bytes(folder, name)));
    let [assoc, text] = ["assoc", "image"].map(|name| bytes(folder, name));
    let given = Given { instance, key, nonce, assoc, text };
    let made = ended(&given, SEALING, [0; 16], &given.text);
    [made.out, made.record.tag.to_vec()].concat() == bytes(folder, &format!("sealed-{instance}"))
}

/// A line for each instance, and whether one differs.
pub fn report(folder: &str) -> (String, bool) {
    let folder = Path::new(folder);
    assert!(bytes(folder, "image").len() == MOST_TEXT, "the image is of the largest length");
    let agree = by_instance(|instance| agrees(folder, instance));
    let line = |(instance, agrees): (u32, &bool)| {
        let verdict = if *agrees { "as the second program seals it" } else { "DIFFERS" };
        format!("image of {MOST_TEXT} bytes, instance {instance}: {verdict}\n")
    };
    ((1..).zip(&agree).map(line).collect(), agree.contains(&false))
}
