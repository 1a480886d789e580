//! The algorithms as the papers have them, run from beginning to end: ISAP (`isap`, document 001) and Spook (`spook`, document 004). A
//! notebook beside them counts the rounds and keeps what a record holds between two of them, so that a job stopped after n rounds is what
//! was noted there (document 01, 'Between two rounds').
//!
//! The algorithms work on a state of their own. The record takes it over with each round; so an xor, the padding, a mark and a session key
//! reach the record with the round after them, and only an output block and the tag are written at once.

mod isap;
mod spook;

pub use isap::{padded, top_bit};
pub use spook::closing;

use crate::plan::rounds;
use crate::record::{Place, Record, OPENING, UNENDED};
use crate::spook::SPOOK;

/// What a job is given.
#[derive(Clone)]
pub struct Given {
    pub instance: u32,
    pub key: [u8; 16],
    pub nonce: [u8; 16],
    pub assoc: Vec<u8>,
    pub text: Vec<u8>,
}

/// A record and the output beside it.
#[derive(Clone, PartialEq)]
pub struct Noted {
    pub record: Record,
    pub out: Vec<u8>,
}

struct Notebook<'a> {
    given: &'a Given,
    now: Noted,
    /// the session bytes that come with the next round
    aside: Vec<u8>,
    /// the round counts to stop at, ascending, that are still to come, and what was noted at the others
    stops: &'a [usize],
    noted: Vec<Noted>,
}

pub fn xor_into(state: &mut [u8], bytes: &[u8]) {
    state.iter_mut().zip(bytes).for_each(|(s, b)| *s ^= b);
}

impl Notebook<'_> {
    /// A call: its rounds one after the other, each on the state that the one before left.
    fn call(&mut self, state: &mut [u8], part: u32, call: usize, rounds: usize, round: impl Fn(&mut [u8], usize)) {
        for k in 0..rounds {
            self.now.record.place = [part, call as u32, k as u32];
            self.note();
            round(state, k);
            self.now.record.state[..state.len()].copy_from_slice(state);
            self.now.record.session[..state.len()].copy_from_slice(&self.aside);
            self.now.record.done += 1;
        }
    }

    fn note(&mut self) {
        while self.stops.first() == Some(&(self.now.record.done as usize)) {
            self.noted.push(self.now.clone());
            self.stops = &self.stops[1..];
        }
    }

    /// Writes an output block: the text's bytes from a place on, xored with the state.
    fn write(&mut self, at: usize, bytes: &[u8], state: &[u8]) {
        let place = &mut self.now.out[at..][..bytes.len()];
        place.copy_from_slice(bytes);
        xor_into(place, state);
    }

    /// Whatever was to come after the end is noted as it stands there.
    fn end(&mut self, ending: u32, place: Place) {
        self.now.record.place = place;
        self.now.record.ending = ending;
        self.noted.resize(self.noted.len() + self.stops.len(), self.now.clone());
    }
}

/// The record that a beginning hands out, but for its place.
fn begun(given: &Given, direction: u32, tag: [u8; 16]) -> Record {
    Record {
        instance: given.instance,
        direction,
        assoc: given.assoc.len() as u32,
        text: given.text.len() as u32,
        key: given.key,
        nonce: given.nonce,
        tag,
        ending: UNENDED,
        ..Record::zeros()
    }
}

/// A job, and what stands after each of the `stops`; the tag is the one received, in a sealing zeros.
pub fn noted(given: &Given, direction: u32, tag: [u8; 16], out: &[u8], stops: &[usize]) -> Vec<Noted> {
    let now = Noted { record: begun(given, direction, tag), out: out.to_vec() };
    let mut book = Notebook { given, now, aside: Vec::new(), stops, noted: Vec::new() };
    match (given.instance == SPOOK, direction == OPENING) {
        (false, false) => isap::Isap::of(&mut book).seal(),
        (false, true) => isap::Isap::of(&mut book).open(),
        (true, false) => spook::Spook::of(&mut book).seal(),
        (true, true) => spook::Spook::of(&mut book).open(),
    }
    book.noted
}

/// A job at its end.
pub fn ended(given: &Given, direction: u32, tag: [u8; 16], out: &[u8]) -> Noted {
    noted(given, direction, tag, out, &[usize::MAX]).remove(0)
}

/// The record of an opening, with some tag, after the last round of V.
pub fn decided(given: &Given) -> Record {
    let v = rounds(given.instance, given.assoc.len(), given.text.len()).verify;
    noted(given, OPENING, [0; 16], &given.text, &[v]).remove(0).record
}

/// The tag that an opening accepts, by its record after the last round of V, whatever tag it had: ISAP has recomputed it at the state's
/// front; Spook has set the state aside that the tag is made of.
pub fn accepted_tag(decided: &Record) -> [u8; 16] {
    if decided.instance == SPOOK {
        let (keyed, u) = closing(decided.key, &decided.session);
        return keyed.encrypted(u);
    }
    decided.state[..16].try_into().expect("sixteen bytes")
}
