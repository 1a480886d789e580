//! Answers of instance 5 in the form of the known-answer files, over the same inputs. Nothing published vouches for them: they are what
//! this program makes of document 004.

use crate::paper::{ended, Given};
use crate::record::SEALING;
use crate::spook::SPOOK;

const MOST: usize = 32;

/// 00 01 02 ..
fn counting<const N: usize>() -> [u8; N] {
    std::array::from_fn(|i| i as u8)
}

fn hex(bytes: &[u8]) -> String {
    bytes.iter().map(|byte| format!("{byte:02X}")).collect()
}

fn case(count: usize, text: &[u8], assoc: &[u8]) -> String {
    let (key, nonce) = (counting(), counting());
    let given = Given { instance: SPOOK, key, nonce, assoc: assoc.to_vec(), text: text.to_vec() };
    let sealed = ended(&given, SEALING, [0; 16], text);
    let strings = [("Key", hex(&key)), ("Nonce", hex(&nonce)), ("PT", hex(text)), ("AD", hex(assoc))];
    let lines: String = strings.iter().map(|(name, value)| format!("{name} = {value}\n")).collect();
    format!("Count = {count}\n{lines}CT = {}{}\n\n", hex(&sealed.out), hex(&sealed.record.tag))
}

/// Texts of 0 to 32 bytes, each with associated data of 0 to 32 bytes.
pub fn file() -> String {
    let bytes: [u8; MOST] = counting();
    let lengths = (0..=MOST).flat_map(|text| (0..=MOST).map(move |assoc| (text, assoc)));
    (1..).zip(lengths).map(|(count, (text, assoc))| case(count, &bytes[..text], &bytes[..assoc])).collect()
}
