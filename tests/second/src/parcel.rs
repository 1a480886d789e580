//! The parcel on the air, from the text of its request: the mark A7 5C, instance (1 byte), station (2), counter (8) and text length (2),
//! all big-endian, then the ciphertext and the 16-byte tag. The first 15 bytes are the associated data; the nonce is station, counter and
//! six zero bytes.

use crate::calls::{number_of, refusal, Lengths};
use crate::instances::ALL;
use crate::known::sixteen;
use crate::paper::{ended, Given};
use crate::record::{OPENING, SEALING};

pub const MARK: [u8; 2] = [0xA7, 0x5C];
pub const HEADER: usize = 15;
pub const TAG: usize = 16;
const MOST_TEXT: usize = 4096;

pub const UNKNOWN_INSTANCE: u32 = 1;
pub const KEY_LENGTH: u32 = 2;
pub const TEXT_TOO_LONG: u32 = 5;
pub const OUTPUT_LENGTH: u32 = 6;
pub const WRONG_MARK: u32 = 12;
pub const COUNTER_AT_ITS_LARGEST: u32 = 13;
pub const CUT_SHORT: u32 = 14;

#[derive(Clone, Copy, Default, PartialEq, Debug)]
pub struct Fields {
    pub instance: u32,
    pub station: u16,
    pub counter: u64,
    pub text: usize,
}

/// What a sender is answered.
pub struct Built {
    pub number: u32,
    pub rounds: u32,
    pub counter: u64,
}

fn is_known(instance: u32) -> bool {
    ALL.contains(&instance)
}

impl Fields {
    pub fn header(&self) -> Vec<u8> {
        let (station, counter, text) = (self.station.to_be_bytes(), self.counter.to_be_bytes(), (self.text as u16).to_be_bytes());
        [&MARK[..], &[self.instance as u8], &station, &counter, &text].concat()
    }

    fn nonce(&self) -> [u8; 16] {
        sixteen(&[&self.station.to_be_bytes()[..], &self.counter.to_be_bytes(), &[0; 6]].concat())
    }

    pub fn given(&self, key: &[u8], assoc: &[u8], text: &[u8]) -> Given {
        Given { instance: self.instance, key: sixteen(key), nonce: self.nonce(), assoc: assoc.to_vec(), text: text.to_vec() }
    }

    /// The parcel with these fields, and the rounds of its sealing.
    pub fn sealed(&self, key: &[u8], text: &[u8]) -> (Vec<u8>, u32) {
        let header = self.header();
        let made = ended(&self.given(key, &header, text), SEALING, [0; 16], text);
        ([header, made.out, made.record.tag.to_vec()].concat(), made.record.done)
    }
}

fn build_refusal(instance: u32, key: usize, last: u64, text: usize, out: usize) -> Option<u32> {
    let applies = [
        (UNKNOWN_INSTANCE, !is_known(instance)),
        (KEY_LENGTH, key != 16),
        (TEXT_TOO_LONG, text > MOST_TEXT),
        (OUTPUT_LENGTH, out != HEADER + text + TAG),
        (COUNTER_AT_ITS_LARGEST, last == u64::MAX),
    ];
    applies.iter().find(|(_, applies)| *applies).map(|(number, _)| *number)
}

/// Builds a parcel with the counter after `last`; a refusal leaves the output as it was and hands `last` back.
pub fn build(instance: u32, key: &[u8], station: u16, last: u64, text: &[u8], out: &mut [u8]) -> Built {
    if let Some(number) = build_refusal(instance, key.len(), last, text.len(), out.len()) {
        return Built { number, rounds: 0, counter: last };
    }
    let counter = last + 1;
    let (parcel, rounds) = Fields { instance, station, counter, text: text.len() }.sealed(key, text);
    out.copy_from_slice(&parcel);
    Built { number: 0, rounds, counter }
}

fn number(bytes: &[u8]) -> u64 {
    bytes.iter().fold(0, |number, byte| number << 8 | u64::from(*byte))
}

/// The fields of the parcel at the start of a buffer, or the number of the refusal.
pub fn read(buffer: &[u8]) -> Result<Fields, u32> {
    if buffer.get(..2).ok_or(CUT_SHORT)? != MARK {
        return Err(WRONG_MARK);
    }
    let header = buffer.get(2..HEADER).ok_or(CUT_SHORT)?;
    let (instance, header) = header.split_at(1);
    let (station, header) = header.split_at(2);
    let (counter, text) = header.split_at(8);
    let fields = Fields {
        instance: number(instance) as u32,
        station: number(station) as u16,
        counter: number(counter),
        text: number(text) as usize,
    };
    if !is_known(fields.instance) {
        return Err(UNKNOWN_INSTANCE);
    }
    if fields.text > MOST_TEXT {
        return Err(TEXT_TOO_LONG);
    }
    buffer.get(HEADER..HEADER + fields.text + TAG).ok_or(CUT_SHORT)?;
    Ok(fields)
}

/// Ciphertext and tag, as parts of the buffer; empty on a refusal.
pub fn parts(buffer: &[u8]) -> (&[u8], &[u8]) {
    match read(buffer) {
        Ok(fields) => buffer[HEADER..HEADER + fields.text + TAG].split_at(fields.text),
        Err(_) => (&[], &[]),
    }
}

/// Opens the parcel at the start of a buffer: number and rounds.
pub fn open(key: &[u8], buffer: &[u8], out: &mut [u8]) -> (u32, u32) {
    let fields = match read(buffer) {
        Ok(fields) => fields,
        Err(number) => return (number, 0),
    };
    let lengths = Lengths { key: key.len(), nonce: 16, assoc: HEADER, text: fields.text, out: Some(out.len()), tag: Some(TAG) };
    if let Some(number) = refusal(fields.instance, &lengths) {
        return (number, 0);
    }
    let (cipher, tag) = parts(buffer);
    let end = ended(&fields.given(key, &buffer[..HEADER], cipher), OPENING, sixteen(tag), out);
    out.copy_from_slice(&end.out);
    (number_of(&end.record), end.record.done)
}
