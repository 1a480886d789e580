//! Messages: sealed, opened again, and opened with one thing damaged.
//!
//! A case: instance (1 byte), lengths of associated data and text (2 each), seed (8), rounds of the sealing (2) and of the opening
//! (2), the damage: what (1), where (2), which bits (1), rounds of the opening that it ends (2); tag (16), and the ciphertext: whole up to
//! 256 bytes, of a longer one the first 8, the last 8 and the checksum (8).

use super::room::Room;
use super::{one_of, up_to, Kind, Written};
use crate::calls::MOST_ASSOC;
use crate::filling::checksum;
use crate::instances::{block, ALL};
use crate::numbers::Numbers;
use crate::paper::{ended, Given};
use crate::record::{OPENING, SEALING, WELL, WRONG_TAG};
use crate::spook::SPOOK;

/// The longest text of a message here; `compare` has room for a little more.
const LONGEST: usize = 4096;
const SHOWN_WHOLE: usize = 256;

/// One bit of the key, of the nonce, of the associated data, of the ciphertext, of the tag; another instance; a shorter ciphertext.
#[derive(Clone, Copy, PartialEq)]
enum What {
    Key,
    Nonce,
    Assoc,
    Ciphertext,
    Tag,
    Instance,
    Shorter,
}

#[derive(Clone, Copy)]
struct Damage {
    what: What,
    /// the byte that is damaged; the other instance; the shorter length
    at: usize,
    bits: u8,
}

pub struct Message {
    instance: u32,
    assoc: usize,
    text: usize,
    seed: u64,
    damage: Damage,
}

/// Whether a length is within 1 of a multiple of the block, or the largest.
fn near_a_block(number: u32, length: usize, most: usize) -> bool {
    let block = block(number);
    (length + 1) % block <= 2 || length == most
}

fn damage(numbers: &mut Numbers, number: u32, assoc: usize, text: usize) -> Damage {
    let mut whats = vec![What::Key, What::Nonce, What::Tag, What::Instance];
    if assoc > 0 {
        whats.push(What::Assoc);
    }
    if text > 0 {
        whats.extend([What::Ciphertext, What::Shorter]);
    }
    let what = one_of(numbers, &whats);
    let bits = 1 << up_to(numbers, 7);
    let at = match what {
        What::Key | What::Nonce | What::Tag => up_to(numbers, 15),
        What::Assoc => up_to(numbers, assoc - 1),
        What::Ciphertext | What::Shorter => up_to(numbers, text - 1),
        What::Instance => (number as usize + up_to(numbers, ALL.len() - 2)) % ALL.len() + 1,
    };
    Damage { what, at, bits }
}

/// Every text up to 256 bytes, and up to the longest every one near a block's multiple; associated data in turn near a multiple and of any
/// length.
fn lengths(numbers: &mut Numbers, number: u32) -> Vec<(usize, usize)> {
    let edges: Vec<usize> = (0..=MOST_ASSOC).filter(|length| near_a_block(number, *length, MOST_ASSOC)).collect();
    let texts = (0..=LONGEST).filter(|text| *text <= SHOWN_WHOLE || near_a_block(number, *text, LONGEST));
    let chosen = texts.enumerate().map(|(i, text)| {
        let assoc = if i % 2 == 0 { edges[i / 2 % edges.len()] } else { up_to(numbers, MOST_ASSOC) };
        (assoc, text)
    });
    chosen.collect()
}

/// Around the halves and the wholes of Spook's first blocks, and the longest: each with each.
fn spook_lengths() -> Vec<(usize, usize)> {
    const SHORT: [usize; 11] = [0, 1, 15, 16, 17, 31, 32, 33, 63, 64, 65];
    let assocs = SHORT.into_iter().chain([MOST_ASSOC]);
    assocs.flat_map(|assoc| SHORT.into_iter().chain([256, LONGEST]).map(move |text| (assoc, text))).collect()
}

pub fn planned(number: u32) -> Vec<Message> {
    let mut numbers = Numbers::new(100 + number as u64);
    let mut all = lengths(&mut numbers, number);
    if number == SPOOK {
        all.extend(spook_lengths());
    }
    let planned = all.into_iter().map(|(assoc, text)| {
        let seed = numbers.next();
        let damage = damage(&mut numbers, number, assoc, text);
        Message { instance: number, assoc, text, seed, damage }
    });
    planned.collect()
}

/// What the opening is given, with the damage.
fn damaged(sealed: &Given, tag: [u8; 16], damage: Damage) -> (Given, [u8; 16]) {
    let (mut given, mut tag) = (sealed.clone(), tag);
    match damage.what {
        What::Key => given.key[damage.at] ^= damage.bits,
        What::Nonce => given.nonce[damage.at] ^= damage.bits,
        What::Assoc => given.assoc[damage.at] ^= damage.bits,
        What::Ciphertext => given.text[damage.at] ^= damage.bits,
        What::Tag => tag[damage.at] ^= damage.bits,
        What::Instance => given.instance = damage.at as u32,
        What::Shorter => given.text.truncate(damage.at),
    }
    (given, tag)
}

fn show(file: &mut Written, out: &[u8]) {
    if out.len() <= SHOWN_WHOLE {
        file.bytes.extend(out);
        return;
    }
    file.bytes.extend(&out[..8]);
    file.bytes.extend(&out[out.len() - 8..]);
    file.eight(checksum(out));
}

fn write(file: &mut Written, m: &Message) {
    let room = Room::of(m.seed);
    let (assoc, text) = (room.assoc[..m.assoc].to_vec(), room.text[..m.text].to_vec());
    let given = Given { instance: m.instance, key: room.key16(), nonce: room.nonce16(), assoc, text };
    let sealed = ended(&given, SEALING, [0; 16], &given.text);
    let tag = sealed.record.tag;
    let received = Given { text: sealed.out.clone(), ..given.clone() };
    let opened = ended(&received, OPENING, tag, &sealed.out);
    assert!(opened.record.ending == WELL && opened.out == given.text, "a sealed message opens to itself");
    let (other, other_tag) = damaged(&received, tag, m.damage);
    let refused = ended(&other, OPENING, other_tag, &other.text);
    assert!(refused.record.ending == WRONG_TAG, "a damaged message is refused");
    file.begin(Kind::Message as u8);
    file.byte(m.instance);
    file.pair(m.assoc);
    file.pair(m.text);
    file.eight(m.seed);
    file.pair(sealed.record.done as usize);
    file.pair(opened.record.done as usize);
    file.byte(m.damage.what as u32);
    file.pair(m.damage.at);
    file.byte(m.damage.bits as u32);
    file.pair(refused.record.done as usize);
    file.bytes.extend(tag);
    show(file, &sealed.out);
}

pub fn of_instance(number: u32) -> Written {
    let mut file = Written::default();
    planned(number).iter().for_each(|message| write(&mut file, message));
    file
}
