//! A record stepped round by round from its place, whatever its bytes: the second way to the same, which forged records need. It knows
//! the job as a list of places and does at each what goes with that round (`isap`, `spook`).

mod isap;
mod spook;

use crate::calls::{MOST_ASSOC, MOST_TEXT};
use crate::instances::ALL;
use crate::plan::rounds;
use crate::record::{Place, Record, OPENING, SEALING, UNENDED, WELL, WRONG_TAG};
use crate::spook::SPOOK;

/// How many calls each part has in turn, and of how many rounds each.
fn parts(number: u32, direction: u32, assoc: usize, text: usize) -> Vec<(usize, usize)> {
    if number == SPOOK {
        spook::parts(direction, assoc, text)
    } else {
        isap::parts(number, direction, assoc, text)
    }
}

/// The place of each round of a job in turn, and the end, which is behind the last part.
pub fn places(number: u32, direction: u32, assoc: usize, text: usize) -> Vec<Place> {
    let parts = parts(number, direction, assoc, text);
    let end = [parts.len() as u32, 0, 0];
    let mut all = Vec::new();
    for (part, (calls, rounds)) in (0..).zip(parts) {
        for call in 0..calls as u32 {
            all.extend((0..rounds as u32).map(|round| [part, call, round]));
        }
    }
    all.push(end);
    all
}

/// A record with what the host lends to it, and the places of its rounds.
pub struct Stepped<'a> {
    pub record: Record,
    pub out: Vec<u8>,
    pub assoc: &'a [u8],
    pub text: &'a [u8],
    pub places: &'a [Place],
}

impl Stepped<'_> {
    fn ciphertext(&self) -> &[u8] {
        if self.record.direction == SEALING {
            &self.out
        } else {
            self.text
        }
    }

    fn step(&mut self) {
        if self.record.instance == SPOOK {
            spook::step(self);
        } else {
            isap::step(self);
        }
        self.record.done += 1;
        self.record.place = self.places[self.record.done as usize];
        if self.places.last() == Some(&self.record.place) && self.record.ending == UNENDED {
            self.record.ending = WELL;
        }
    }

    /// As many rounds as the budget allows and the job still has; how many those were.
    pub fn run(&mut self, budget: u32) -> u32 {
        let before = self.record.done;
        while self.record.ending == UNENDED && self.record.done - before < budget {
            self.step();
        }
        self.record.done - before
    }
}

/// Whether the ending is one that a record may have after its rounds.
fn ending_allowed(r: &Record) -> bool {
    let rounds = rounds(r.instance, r.assoc as usize, r.text as usize);
    let (done, all) = (r.done as usize, rounds.of(r.direction));
    match r.ending {
        UNENDED => done < all,
        WELL => done == all,
        WRONG_TAG => r.direction == OPENING && done == rounds.verify,
        _ => false,
    }
}

/// Whether a record can stand; if so, the places of its rounds.
pub fn standing(r: &Record) -> Option<Vec<Place>> {
    let known = ALL.contains(&r.instance) && [SEALING, OPENING].contains(&r.direction);
    if !known || r.assoc as usize > MOST_ASSOC || r.text as usize > MOST_TEXT {
        return None;
    }
    let places = places(r.instance, r.direction, r.assoc as usize, r.text as usize);
    let placed = places.get(r.done as usize) == Some(&r.place);
    (placed && ending_allowed(r)).then_some(places)
}
