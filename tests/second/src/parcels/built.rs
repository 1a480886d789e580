//! Parcels built, and buildings refused: each cause alone, and every set of them at once.
//!
//! A case: seed (8 bytes), instance (4), station (2), last counter (8), lengths of key (1), text (2) and output (2); the answer's number
//! (1), rounds (2) and counter (8), and what it writes at the output's start, a string. What stands behind that stays as it was.

use super::{Kind, LASTS, ROOM, SHORT_TEXTS, STATIONS, TEXTS, UNKNOWN};
use crate::filling::filled;
use crate::instances::ALL;
use crate::numbers::Numbers;
use crate::parcel::{build, COUNTER_AT_ITS_LARGEST, HEADER, KEY_LENGTH, OUTPUT_LENGTH, TAG, TEXT_TOO_LONG, UNKNOWN_INSTANCE};
use crate::written::Written;

/// What a sender gives, with the lengths that are lent.
struct Sending {
    instance: u32,
    station: u16,
    last: u64,
    key: usize,
    text: usize,
    out: usize,
}

fn right(instance: u32, station: u16, last: u64, text: usize) -> Sending {
    Sending { instance, station, last, key: 16, text, out: HEADER + text + TAG }
}

fn write(file: &mut Written, seed: u64, sending: &Sending) -> u32 {
    let Sending { instance, station, last, .. } = *sending;
    let [key, text, mut out] = filled(seed, ROOM);
    let built = build(instance, &key[..sending.key], station, last, &text[..sending.text], &mut out[..sending.out]);
    let (kind, written) = if built.number == 0 { (Kind::Built, sending.out) } else { (Kind::NotBuilt, 0) };
    file.begin(kind as u8);
    file.eight(seed);
    file.four(instance);
    file.pair(station.into());
    file.eight(last);
    file.byte(sending.key as u32);
    file.pair(sending.text);
    file.pair(sending.out);
    file.byte(built.number);
    file.pair(built.rounds as usize);
    file.eight(built.counter);
    file.string(&out[..written]);
    built.number
}

/// Every text with each instance, and every counter with every station.
fn well(instance: u32) -> Vec<Sending> {
    let turn = instance as usize;
    let texts = TEXTS.iter().enumerate().map(|(i, text)| right(instance, STATIONS[(i + turn) % 5], LASTS[(2 * i + turn) % 5], *text));
    let mut all: Vec<Sending> = texts.collect();
    for (i, last) in LASTS.iter().enumerate() {
        let stations = STATIONS.iter().enumerate();
        all.extend(stations.map(|(j, station)| right(instance, *station, *last, TEXTS[(5 * i + j + turn) % SHORT_TEXTS])));
    }
    all
}

/// The causes of a refusal, in the order in which they are looked at.
const CAUSES: [u32; 5] = [UNKNOWN_INSTANCE, KEY_LENGTH, TEXT_TOO_LONG, OUTPUT_LENGTH, COUNTER_AT_ITS_LARGEST];

/// A sending with these causes; each turn has another value for each of them.
fn spoilt(causes: &[u32], turn: usize) -> Sending {
    let mut sending = right(ALL[turn], STATIONS[turn], LASTS[turn], TEXTS[turn + 3]);
    let has = |cause: u32| causes.contains(&cause);
    if has(UNKNOWN_INSTANCE) {
        sending.instance = UNKNOWN[turn];
    }
    if has(KEY_LENGTH) {
        sending.key = [15, 17, 0, 1, 32][turn];
    }
    if has(TEXT_TOO_LONG) {
        sending.text = [4097, 4097, 4098, 4128, 4160][turn];
    }
    let out = HEADER + sending.text + TAG;
    sending.out = if has(OUTPUT_LENGTH) { [out - 1, out + 1, sending.text, 0, 4200][turn] } else { out };
    if has(COUNTER_AT_ITS_LARGEST) {
        sending.last = u64::MAX;
    }
    sending
}

/// Each cause alone, next to what is right, with the number that it must give.
fn just_wrong(instance: u32) -> [(Sending, u32); 6] {
    let sending = || right(instance, 12, 41, 18);
    let out = sending().out;
    [
        (Sending { key: 15, ..sending() }, KEY_LENGTH),
        (Sending { key: 17, ..sending() }, KEY_LENGTH),
        (right(instance, 12, 41, 4097), TEXT_TOO_LONG),
        (Sending { out: out - 1, ..sending() }, OUTPUT_LENGTH),
        (Sending { out: out + 1, ..sending() }, OUTPUT_LENGTH),
        (Sending { last: u64::MAX, ..sending() }, COUNTER_AT_ITS_LARGEST),
    ]
}

pub fn cases() -> Written {
    let mut file = Written::default();
    let mut numbers = Numbers::new(500);
    for sending in ALL.into_iter().flat_map(well) {
        assert!(write(&mut file, numbers.next(), &sending) == 0, "this parcel can be built");
    }
    for set in 1..1 << CAUSES.len() {
        let causes: Vec<u32> = (0..CAUSES.len()).filter(|i| set >> i & 1 == 1).map(|i| CAUSES[i]).collect();
        for turn in 0..5 {
            assert!(write(&mut file, numbers.next(), &spoilt(&causes, turn)) == causes[0], "the first cause is the answer");
        }
    }
    for (sending, number) in ALL.into_iter().flat_map(just_wrong) {
        assert!(write(&mut file, numbers.next(), &sending) == number, "one cause is the answer");
    }
    file
}
