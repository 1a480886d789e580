//! The five instances, and a job of each by its number.

use crate::ascon::Ascon;
use crate::isap::{self, Instance};
use crate::keccak::Keccak;
use crate::spook;

/// What a job has besides its text.
pub struct Lent<'a> {
    pub key: &'a [u8; 16],
    pub nonce: &'a [u8; 16],
    pub assoc: &'a [u8],
}

macro_rules! instance {
    ($name:ident, $state:ty, $hash:literal, $bit:literal, $encrypt:literal, $key:literal) => {
        pub struct $name;
        impl Instance for $name {
            type State = $state;
            const HASH: u32 = $hash;
            const BIT: u32 = $bit;
            const ENCRYPT: u32 = $encrypt;
            const KEY: u32 = $key;
        }
    };
}

instance!(IsapA128a, Ascon, 12, 1, 6, 12);
instance!(IsapA128, Ascon, 12, 12, 12, 12);
instance!(IsapK128a, Keccak, 16, 1, 8, 8);
instance!(IsapK128, Keccak, 20, 12, 12, 12);

pub fn seal(instance: u32, lent: &Lent, text: &[u8], out: &mut [u8]) -> [u8; 16] {
    match instance {
        1 => isap::seal::<IsapA128a>(lent, text, out),
        2 => isap::seal::<IsapA128>(lent, text, out),
        3 => isap::seal::<IsapK128a>(lent, text, out),
        4 => isap::seal::<IsapK128>(lent, text, out),
        5 => spook::seal(lent, text, out),
        _ => panic!("no instance {}", instance),
    }
}

pub fn open(instance: u32, lent: &Lent, cipher: &[u8], tag: &[u8; 16], out: &mut [u8]) -> bool {
    match instance {
        1 => isap::open::<IsapA128a>(lent, cipher, tag, out),
        2 => isap::open::<IsapA128>(lent, cipher, tag, out),
        3 => isap::open::<IsapK128a>(lent, cipher, tag, out),
        4 => isap::open::<IsapK128>(lent, cipher, tag, out),
        5 => spook::open(lent, cipher, tag, out),
        _ => panic!("no instance {}", instance),
    }
}
