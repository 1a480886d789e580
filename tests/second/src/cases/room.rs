//! The buffers from which the lent parts are taken, each from its start. `compare` has the same.

use crate::filling::filled;

#[derive(Clone)]
pub struct Room {
    pub key: [u8; 32],
    pub nonce: [u8; 32],
    pub assoc: [u8; 512],
    pub text: [u8; 4200],
    pub out: [u8; 4200],
}

fn array<const N: usize>(bytes: Vec<u8>) -> [u8; N] {
    bytes.try_into().expect("a buffer of its length")
}

impl Room {
    pub fn of(seed: u64) -> Self {
        let [key, nonce, assoc, text, out] = filled(seed, [32, 32, 512, 4200, 4200]);
        Room { key: array(key), nonce: array(nonce), assoc: array(assoc), text: array(text), out: array(out) }
    }

    pub fn key16(&self) -> [u8; 16] {
        self.key[..16].try_into().expect("sixteen bytes")
    }

    pub fn nonce16(&self) -> [u8; 16] {
        self.nonce[..16].try_into().expect("sixteen bytes")
    }
}
