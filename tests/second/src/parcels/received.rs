//! Buffers received, with a parcel that is whole, cut short or followed by other bytes: read, taken apart and opened.
//!
//! A case: seed (8 bytes), the buffer, a string; the reading's number (1), instance (1), station (2), counter (8) and text length (2);
//! ciphertext and tag, strings; lengths of key (1) and output (2) for the opening, its number (1) and rounds (2), and what it writes at
//! the output's start, a string. What stands behind that stays as it was.

use super::{Kind, LASTS, ROOM, STATIONS, TEXTS};
use crate::calls::{ENDED_WELL, TAG_DIFFERS};
use crate::filling::filled;
use crate::instances::ALL;
use crate::numbers::Numbers;
use crate::parcel::{build, open, parts, read, Fields, CUT_SHORT, WRONG_MARK};
use crate::written::Written;

/// A buffer as it is received, and what its opening is lent.
#[derive(Clone)]
pub struct Received {
    /// key and output are those of this seed
    pub seed: u64,
    pub buffer: Vec<u8>,
    pub key: usize,
    pub out: usize,
}

/// The parcel of these fields, with the key and the text of a seed, to be opened with that key.
pub fn sealed(seed: u64, fields: Fields) -> Received {
    let [key, text, _] = filled(seed, ROOM);
    let (buffer, _) = fields.sealed(&key[..16], &text[..fields.text]);
    Received { seed, buffer, key: 16, out: fields.text }
}

impl Received {
    /// The same with another buffer, lent an output for the text that is read in it.
    pub fn with(&self, buffer: Vec<u8>) -> Received {
        let out = read(&buffer).map_or(self.out, |fields| fields.text);
        Received { buffer, out, ..self.clone() }
    }

    pub fn cut(&self, length: usize) -> Received {
        self.with(self.buffer[..length].to_vec())
    }

    pub fn followed(&self, bytes: &[u8]) -> Received {
        self.with([&self.buffer, bytes].concat())
    }

    /// The same with some bits of one byte changed.
    pub fn flipped(&self, at: usize, bits: u8) -> Received {
        let mut buffer = self.buffer.clone();
        buffer[at] ^= bits;
        self.with(buffer)
    }
}

fn kind(reading: &Result<Fields, u32>, opening: u32) -> Kind {
    match (reading, opening) {
        (Err(CUT_SHORT), _) => Kind::CutShort,
        (Err(WRONG_MARK), _) => Kind::WrongMark,
        (Err(_), _) => Kind::WrongHeader,
        (Ok(_), ENDED_WELL) => Kind::Opened,
        (Ok(_), TAG_DIFFERS) => Kind::WrongTag,
        _ => Kind::LengthLent,
    }
}

/// Writes a case; the number of its opening.
pub fn write(file: &mut Written, received: &Received) -> u32 {
    let buffer = &received.buffer;
    let [key, _, mut out] = filled(received.seed, ROOM);
    let (reading, (cipher, tag)) = (read(buffer), parts(buffer));
    let (number, rounds) = open(&key[..received.key], buffer, &mut out[..received.out]);
    let fields = reading.unwrap_or_default();
    file.begin(kind(&reading, number) as u8);
    file.eight(received.seed);
    file.string(buffer);
    file.byte(reading.err().unwrap_or(0));
    file.byte(fields.instance);
    file.pair(fields.station.into());
    file.eight(fields.counter);
    file.pair(fields.text);
    file.string(cipher);
    file.string(tag);
    file.byte(received.key as u32);
    file.pair(received.out);
    file.byte(number);
    file.pair(rounds as usize);
    file.string(&out[..if number == ENDED_WELL { received.out } else { 0 }]);
    number
}

/// From what was read and opened the same parcel is built, unless its counter is 0, which follows none.
fn assert_built_again(received: &Received) {
    let [key, _, mut out] = filled(received.seed, ROOM);
    let (key, text) = (&key[..16], &mut out[..received.out]);
    let fields = read(&received.buffer).expect("a whole parcel");
    assert!(open(key, &received.buffer, text).0 == ENDED_WELL, "a parcel opens");
    if fields.counter > 0 {
        let mut again = vec![0; received.buffer.len()];
        build(fields.instance, key, fields.station, fields.counter - 1, text, &mut again);
        assert!(again == received.buffer, "a parcel is built again from what was read and opened");
    }
}

/// Every text with each instance; counters and stations in turn.
fn whole(numbers: &mut Numbers, instance: u32) -> Vec<Received> {
    let mut counters = vec![0];
    counters.extend(LASTS.map(|last| last + 1));
    let turn = instance as usize;
    let fields = TEXTS.iter().enumerate().map(|(i, text)| Fields {
        instance,
        station: STATIONS[(2 * i + turn) % 5],
        counter: counters[(i + turn) % 6],
        text: *text,
    });
    fields.map(|fields| sealed(numbers.next(), fields)).collect()
}

/// A parcel cut at every length, and with other bytes behind it.
fn write_cut_and_followed(file: &mut Written, parcel: &Received) {
    (0..parcel.buffer.len()).for_each(|length| assert!(write(file, &parcel.cut(length)) == CUT_SHORT, "a cut parcel is cut short"));
    for behind in [&[0][..], &[0xA7, 0x5C], &parcel.buffer, &[255; 32]] {
        assert!(write(file, &parcel.followed(behind)) == ENDED_WELL, "bytes behind a parcel are not looked at");
    }
}

pub fn cases() -> Written {
    let mut file = Written::default();
    let mut numbers = Numbers::new(510);
    for instance in ALL {
        let parcels = whole(&mut numbers, instance);
        for parcel in &parcels {
            assert_built_again(parcel);
            write(&mut file, parcel);
        }
        parcels.iter().filter(|parcel| [0, 1, 19].contains(&parcel.out)).for_each(|parcel| write_cut_and_followed(&mut file, parcel));
    }
    let longest = sealed(numbers.next(), Fields { instance: 1, station: 12, counter: 7, text: 4096 });
    write(&mut file, &longest.followed(&[9; 73]));
    [16, 4111, 4126].iter().for_each(|length| {
        write(&mut file, &longest.cut(*length));
    });
    file
}
