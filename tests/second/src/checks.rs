//! What stands in for answers that Spook's authors published, of which none is at hand: its parts are held to what document 004 prints a
//! second time, and to what they owe to one another. A mode that is read wrongly but fits together would pass.

use crate::numbers::Numbers;
use crate::paper::{ended, Given};
use crate::plan::rounds;
use crate::record::{OPENING, SEALING, WELL, WRONG_TAG};
use crate::spook::clyde::Keyed;
use crate::spook::layers::{self, constant, Rows};
use crate::spook::{printed, shadow, SPOOK};

const LENGTHS: [usize; 14] = [0, 1, 15, 16, 17, 31, 32, 33, 63, 64, 65, 95, 128, 256];

/// The round constants as document 004 lists them.
const PRINTED: [[u32; 4]; 12] = [
    [1, 0, 0, 0],
    [0, 1, 0, 0],
    [0, 0, 1, 0],
    [0, 0, 0, 1],
    [1, 1, 0, 0],
    [0, 1, 1, 0],
    [0, 0, 1, 1],
    [1, 1, 0, 1],
    [1, 0, 1, 0],
    [0, 1, 0, 1],
    [1, 1, 1, 0],
    [0, 1, 1, 1],
];

fn any_bytes<const N: usize>(numbers: &mut Numbers) -> [u8; N] {
    std::array::from_fn(|_| numbers.next() as u8)
}

fn register_runs_as_printed() -> bool {
    (0..12).all(|r| constant(r) == PRINTED[r])
}

/// Table and matrices, bit by bit, and what inverts them, are the paper's word formulas.
fn layers_are_the_printed_formulas() -> bool {
    let pairs: [(fn(&mut Rows), fn(Rows) -> Rows); 4] = [
        (layers::s_layer, printed::s),
        (layers::s_layer_undone, printed::s_undone),
        (layers::l_layer, printed::l),
        (layers::l_layer_undone, printed::l_undone),
    ];
    let mut numbers = Numbers::new(605);
    (0..1000).all(|_| {
        let before: Rows = std::array::from_fn(|_| numbers.next() as u32);
        pairs.iter().all(|(layer, formula)| {
            let mut after = before;
            layer(&mut after);
            after == formula(before)
        })
    })
}

fn cipher_and_inverse_undo_one_another() -> bool {
    let mut numbers = Numbers::new(600);
    (0..1000).all(|_| {
        let keyed = Keyed { key: any_bytes(&mut numbers), tweak: any_bytes(&mut numbers) };
        let block = any_bytes(&mut numbers);
        keyed.decrypted(keyed.encrypted(block)) == block && keyed.encrypted(keyed.decrypted(block)) == block
    })
}

/// As the circuit of section 3.4 has it, on whole words: a bundle gets the xor of the other three. Then once more, and all is as before.
fn diffusion_mixes_and_undoes_itself() -> bool {
    let mut numbers = Numbers::new(601);
    (0..1000).all(|_| {
        let before: [[u32; 4]; 4] = std::array::from_fn(|_| std::array::from_fn(|_| numbers.next() as u32));
        let mut after = before;
        shadow::diffuse(&mut after);
        let others = |b: usize, i: usize| (0..4).filter(|other| *other != b).fold(0, |sum, other| sum ^ before[other][i]);
        let mixed = (0..4).all(|b| (0..4).all(|i| after[b][i] == others(b, i)));
        shadow::diffuse(&mut after);
        mixed && after == before
    })
}

fn message(numbers: &mut Numbers, assoc: usize, text: usize) -> Given {
    let mut string = |length: usize| (0..length).map(|_| numbers.next() as u8).collect();
    let (assoc, text) = (string(assoc), string(text));
    Given { instance: SPOOK, key: any_bytes(numbers), nonce: any_bytes(numbers), assoc, text }
}

/// The ciphertext in place of the text, and the tag.
fn sealed(given: &Given) -> (Given, [u8; 16]) {
    let sealed = ended(given, SEALING, [0; 16], &given.text);
    (Given { text: sealed.out, ..given.clone() }, sealed.record.tag)
}

/// For every two of the lengths.
fn for_lengths(seed: u64, holds: fn(&Given) -> bool) -> bool {
    let mut numbers = Numbers::new(seed);
    LENGTHS.iter().all(|assoc| LENGTHS.iter().all(|text| holds(&message(&mut numbers, *assoc, *text))))
}

fn opens_to_itself(given: &Given) -> bool {
    let (received, tag) = sealed(given);
    let opened = ended(&received, OPENING, tag, &received.text);
    opened.record.ending == WELL && opened.out == given.text
}

/// With any one bit changed of key, nonce, data, ciphertext and tag, in this order.
fn refuses_flipped_bits(given: &Given) -> bool {
    let (received, tag) = sealed(given);
    let all = [&received.key[..], &received.nonce, &received.assoc, &received.text, &tag].concat();
    (0..8 * all.len()).all(|bit| {
        let mut bytes = all.clone();
        bytes[bit / 8] ^= 1 << (bit % 8);
        let (front, tag) = bytes.split_at(bytes.len() - 16);
        let (front, text) = front.split_at(front.len() - received.text.len());
        let (key, nonce, assoc) = (&front[..16], &front[16..32], front[32..].to_vec());
        let (key, nonce) = (key.try_into().expect("16 bytes"), nonce.try_into().expect("16 bytes"));
        let other = Given { instance: SPOOK, key, nonce, assoc, text: text.to_vec() };
        let opened = ended(&other, OPENING, tag.try_into().expect("16 bytes"), &given.text);
        opened.record.ending == WRONG_TAG && opened.out == given.text
    })
}

fn refuses_every_flipped_bit() -> bool {
    let mut numbers = Numbers::new(603);
    [(0, 0), (0, 33), (33, 0), (32, 32)].iter().all(|(assoc, text)| refuses_flipped_bits(&message(&mut numbers, *assoc, *text)))
}

/// The rounds that were walked, that are planned, and that the request's formulas give.
fn counts_agree(given: &Given) -> bool {
    let (a, m) = (given.assoc.len(), given.text.len());
    let (u, v) = ((a + 31) / 32, (m + 31) / 32);
    let verify = 24 + 12 * (1 + u + v);
    let opening = verify + if m > 0 { 12 + 12 * (u + v) } else { 0 };
    let (received, tag) = sealed(given);
    let walked = [
        ended(&received, OPENING, tag.map(|byte| !byte), &received.text),
        ended(given, SEALING, [0; 16], &given.text),
        ended(&received, OPENING, tag, &received.text),
    ];
    let planned = rounds(SPOOK, a, m);
    let formulas = [verify, verify, opening];
    walked.map(|job| job.record.done as usize) == formulas && [planned.verify, planned.sealing, planned.opening] == formulas
}

/// The lines of a report, and whether a check fails.
pub fn report() -> (String, bool) {
    let checks = [
        ("the register runs through the printed constants", register_runs_as_printed()),
        ("table and matrices are the printed formulas", layers_are_the_printed_formulas()),
        ("Clyde-128 and its inverse undo one another", cipher_and_inverse_undo_one_another()),
        ("the diffusion layer mixes bundles and undoes itself", diffusion_mixes_and_undoes_itself()),
        ("what was sealed opens to itself", for_lengths(602, opens_to_itself)),
        ("one bit changed is refused", refuses_every_flipped_bit()),
        ("rounds walked are those planned and those of the formulas", for_lengths(604, counts_agree)),
    ];
    let lines = checks.iter().map(|(name, holds)| format!("Spook: {name}: {}\n", if *holds { "yes" } else { "NO" })).collect();
    (lines, checks.iter().any(|(_, holds)| !holds))
}
