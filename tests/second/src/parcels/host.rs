//! Parcels that a host built with the library and wrote to a file (`host/tests/parcel_fuzz.c`), built, read and opened again. A line has
//! the instance, the key in hex, station and last counter, the text in hex (`-` for none) and the parcel in hex.

use crate::known::unhex;
use crate::lines::{bytes, six};
use crate::parcel::{build, open, read, Fields, HEADER};
use crate::plan::rounds;

/// Whether the line's parcel is the one that the second program builds, and reads and opens here to what it was built of.
pub fn agrees(line: &str) -> bool {
    let [instance, key, station, last, text, parcel] = six(line);
    let (instance, station, last) =
        (instance.parse().expect("an instance"), station.parse().expect("a station"), last.parse().expect("a counter"));
    let (key, text, parcel) = (unhex(key), bytes(text), unhex(parcel));
    let mut again = vec![0; parcel.len()];
    let built = build(instance, &key, station, last, &text, &mut again);
    let mut opened = vec![0; text.len()];
    let answer = open(&key, &parcel, &mut opened);
    let rounds = rounds(instance, HEADER, text.len());
    built.number == 0
        && again == parcel
        && read(&parcel) == Ok(Fields { instance, station, counter: built.counter, text: text.len() })
        && built.rounds as usize == rounds.sealing
        && answer == (0, rounds.opening as u32)
        && opened == text
}
