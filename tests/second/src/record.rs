//! A job's record, field by field as document 01 lists it, and its bytes in a case file.

pub const SEALING: u32 = 1;
pub const OPENING: u32 = 2;

/// Endings: not yet, well, by a wrong tag.
pub const UNENDED: u32 = 0;
pub const WELL: u32 = 1;
pub const WRONG_TAG: u32 = 2;

/// Part, call of it and round of that call, of the round that comes next.
pub type Place = [u32; 3];

/// Bytes of state and of session, for the widest permutation; an instance uses the first of them that it needs.
pub const STATE: usize = 64;

#[derive(Clone, PartialEq, Debug)]
pub struct Record {
    pub instance: u32,
    pub direction: u32,
    pub assoc: u32,
    pub text: u32,
    pub key: [u8; 16],
    pub nonce: [u8; 16],
    pub tag: [u8; 16],
    pub done: u32,
    pub place: Place,
    pub ending: u32,
    pub state: [u8; STATE],
    pub session: [u8; STATE],
}

impl Record {
    /// What a refused beginning hands out.
    pub fn zeros() -> Self {
        Record {
            instance: 0,
            direction: 0,
            assoc: 0,
            text: 0,
            key: [0; 16],
            nonce: [0; 16],
            tag: [0; 16],
            done: 0,
            place: [0; 3],
            ending: UNENDED,
            state: [0; STATE],
            session: [0; STATE],
        }
    }

    /// 212 bytes: the fields in order, a number as four bytes, the first most significant.
    pub fn bytes(&self) -> Vec<u8> {
        let [part, call, round] = self.place;
        let numbers = |all: &[u32]| -> Vec<u8> { all.iter().flat_map(|number| number.to_be_bytes()).collect() };
        [
            numbers(&[self.instance, self.direction, self.assoc, self.text]),
            [self.key, self.nonce, self.tag].concat(),
            numbers(&[self.done, part, call, round, self.ending]),
            [self.state, self.session].concat(),
        ]
        .concat()
    }
}
