//! Spook[128,512,su]: sealing and opening by the mode S1P.

use crate::clyde;
use crate::instances::Lent;
use crate::shadow::{put_rows, rows_of, Shadow, BLOCK, SHORT, TEXT};

/// A short block, padded.
fn padded(rest: &[u8]) -> [u8; BLOCK] {
    let mut block = [0; BLOCK];
    block[..rest.len()].copy_from_slice(rest);
    block[rest.len()] = 1;
    block
}

/// The state that both walks come to before the text.
fn begin(lent: &Lent) -> Shadow {
    let nonce = rows_of(lent.nonce);
    let mut state = Shadow::new(nonce, clyde::encrypt(rows_of(lent.key), [0; 4], nonce));
    state.permute();
    let blocks = lent.assoc.chunks_exact(BLOCK);
    let rest = blocks.remainder();
    for block in blocks {
        state.absorb(block);
        state.permute();
    }
    if !rest.is_empty() {
        state.absorb(&padded(rest));
        state.mark(SHORT);
        state.permute();
    }
    state
}

/// Writes the ciphertext, which the state takes in.
fn encrypt(state: &mut Shadow, text: &[u8], out: &mut [u8]) {
    if text.is_empty() {
        return;
    }
    state.mark(TEXT);
    for (from, to) in text.chunks_exact(BLOCK).zip(out.chunks_exact_mut(BLOCK)) {
        state.absorb(from);
        state.write(to);
        state.permute();
    }
    let whole = text.len() - text.len() % BLOCK;
    if whole < text.len() {
        let mut last = [0; BLOCK];
        state.absorb(&padded(&text[whole..]));
        state.write(&mut last);
        out[whole..].copy_from_slice(&last[..text.len() - whole]);
        state.mark(SHORT);
        state.permute();
    }
}

/// The state takes in the ciphertext, and no text is made.
fn absorb(state: &mut Shadow, cipher: &[u8]) {
    if cipher.is_empty() {
        return;
    }
    state.mark(TEXT);
    let blocks = cipher.chunks_exact(BLOCK);
    let rest = blocks.remainder();
    for block in blocks {
        state.replace(block);
        state.permute();
    }
    if !rest.is_empty() {
        let mut last = [0; BLOCK];
        state.write(&mut last);
        last[..rest.len()].copy_from_slice(rest);
        last[rest.len()] ^= 1;
        state.replace(&last);
        state.mark(SHORT);
        state.permute();
    }
}

/// A block of the text, whole or short.
#[inline(always)]
fn decrypt_block(state: &Shadow, cipher: &[u8], out: &mut [u8]) {
    let mut mask = [0; BLOCK];
    state.write(&mut mask);
    for ((to, from), mask) in out.iter_mut().zip(cipher).zip(mask) {
        *to = from ^ mask;
    }
}

/// The second walk: writes the text, of which there is some. The state after the last block is of no use to it.
fn decrypt(lent: &Lent, cipher: &[u8], out: &mut [u8]) {
    let mut state = begin(lent);
    state.mark(TEXT);
    let before_last = (cipher.len() - 1) / BLOCK * BLOCK;
    let (blocks, last) = cipher.split_at(before_last);
    let (out, out_last) = out.split_at_mut(before_last);
    for (from, to) in blocks.chunks_exact(BLOCK).zip(out.chunks_exact_mut(BLOCK)) {
        decrypt_block(&state, from, to);
        state.replace(from);
        state.permute();
    }
    decrypt_block(&state, last, out_last);
}

/// The closing tweak: the state's second 16 bytes with the last bit set.
fn closing(state: &Shadow) -> clyde::Rows {
    let [t0, t1, t2, t3] = state.second();
    [t0, t1, t2, t3 | 1 << 31]
}

/// Writes the ciphertext and gives the tag.
pub fn seal(lent: &Lent, text: &[u8], out: &mut [u8]) -> [u8; 16] {
    let mut state = begin(lent);
    encrypt(&mut state, text, out);
    let mut tag = [0; 16];
    put_rows(&mut tag, clyde::encrypt(rows_of(lent.key), closing(&state), state.front()));
    tag
}

/// Writes the text, if the tag is right; says whether it is. The second walk does all its rounds anew, as the library does.
pub fn open(lent: &Lent, cipher: &[u8], tag: &[u8; 16], out: &mut [u8]) -> bool {
    let mut state = begin(lent);
    absorb(&mut state, cipher);
    let required = clyde::decrypt(rows_of(lent.key), closing(&state), rows_of(tag));
    let differing = clyde::plus(required, state.front()).iter().fold(0, |seen, row| seen | row);
    if differing != 0 {
        return false;
    }
    if !cipher.is_empty() {
        decrypt(lent, cipher, out);
    }
    true
}
