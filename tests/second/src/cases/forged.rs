//! Forged records: such as can stand, with any bytes where bytes may be anything, and such as cannot, have ended, or are lent other
//! lengths than their own. A case: seed (8 bytes), the record (212), then its slices. Its kind goes by what the first slice answers.

use super::room::Room;
use super::slices::{own_lengths, Cut, Sliced};
use super::{one_of, up_to, Kind, Written};
use crate::calls::{slice, CANNOT_STAND, HAS_ENDED, MOST_TEXT, NOT_ENDED, OTHER_LENGTH};
use crate::instances::{block, ISAP_END};
use crate::numbers::Numbers;
use crate::paper::{accepted_tag, closing};
use crate::plan::rounds;
use crate::record::{Place, Record, OPENING, SEALING, UNENDED, WELL, WRONG_TAG};
use crate::spook::{clyde, SPOOK};
use crate::steps::places;

const STANDING: usize = 40;
const EACH_DAMAGE: usize = 2;

fn any_bytes<const N: usize>(numbers: &mut Numbers) -> [u8; N] {
    std::array::from_fn(|_| numbers.next() as u8)
}

/// The verification's rounds of a record, and its rounds in all.
fn rounds_of(r: &Record) -> (usize, usize) {
    let rounds = rounds(r.instance, r.assoc as usize, r.text as usize);
    (rounds.verify, rounds.of(r.direction))
}

/// Moves a record to a number of rounds done, unended unless these are all.
fn move_to(r: &mut Record, done: usize) {
    r.done = done as u32;
    r.place = places(r.instance, r.direction, r.assoc as usize, r.text as usize)[done];
    r.ending = if done == rounds_of(r).1 { WELL } else { UNENDED };
}

/// A record of any bytes, not yet begun.
fn any_record(numbers: &mut Numbers, number: u32, direction: u32) -> Record {
    let b = block(number);
    let text = one_of(numbers, &[0, 1, b - 1, b, b + 1, 2 * b, 3 * b + 2]) as u32;
    let any = up_to(numbers, 256);
    let assoc = one_of(numbers, &[0, 1, b, b + 5, 3 * b, any]) as u32;
    Record {
        instance: number,
        direction,
        assoc,
        text,
        key: any_bytes(numbers),
        nonce: any_bytes(numbers),
        tag: any_bytes(numbers),
        state: any_bytes(numbers),
        session: any_bytes(numbers),
        ..Record::zeros()
    }
}

/// Rounds done of an unended record: any, and often near the start, the end, the decision or a change of part.
fn some_rounds(numbers: &mut Numbers, r: &Record) -> usize {
    let (v, total) = rounds_of(r);
    let all = places(r.instance, r.direction, r.assoc as usize, r.text as usize);
    let any = up_to(numbers, total - 1);
    let change = (any..total).find(|n| all[*n + 1][0] != all[any][0]).unwrap_or(0);
    let done = one_of(numbers, &[0, 1, v - 1, v, v + 1, total - 1, change, change + 1, any, any]);
    done.min(total - 1)
}

fn unended(numbers: &mut Numbers, number: u32, direction: u32) -> Record {
    let mut record = any_record(numbers, number, direction);
    let done = some_rounds(numbers, &record);
    move_to(&mut record, done);
    record
}

/// Writes a record and its slices; the number of the first.
fn write(file: &mut Written, seed: u64, record: Record, cuts: &[Cut]) -> u32 {
    let mut rest = Written::default();
    let mut sliced = Sliced { record: record.clone(), room: Room::of(seed) };
    let numbers: Vec<u32> = cuts.iter().map(|cut| sliced.write(&mut rest, cut)).collect();
    let kind = match numbers[0] {
        CANNOT_STAND => Kind::NotStanding,
        HAS_ENDED => Kind::Ended,
        OTHER_LENGTH => Kind::OtherLengths,
        _ => Kind::Standing,
    };
    file.begin(kind as u8);
    file.eight(seed);
    file.bytes.extend(record.bytes());
    file.pair(cuts.len());
    file.append(rest);
    numbers[0]
}

fn budgets(numbers: &mut Numbers, record: &Record) -> Vec<Cut> {
    let count = 1 + up_to(numbers, 3);
    let cuts = (0..count).map(|_| {
        let any = up_to(numbers, 400) as u32;
        Cut { budget: one_of(numbers, &[0, 1, 1, 2, 13, 40, any, u32::MAX]), lent: own_lengths(record) }
    });
    cuts.collect()
}

/// Spook's closing call does not look at the tag again after its first round: in the midst of it the state decides.
fn accepting_in_the_closing_call(decided: &Record, record: Record, rounds: usize) -> Record {
    let (keyed, _) = closing(decided.key, &decided.session);
    let mut state = accepted_tag(decided);
    (0..rounds).for_each(|k| keyed.round_back(&mut state, k));
    let mut record = record;
    record.state[..16].copy_from_slice(&state);
    record
}

/// An opening that will accept: its tag is the one that its own state leads to at the decision.
fn accepting(seed: u64, record: Record) -> Record {
    let (v, _) = rounds_of(&record);
    let done = record.done as usize;
    if record.direction != OPENING || done >= v {
        return record;
    }
    let (mut at_v, mut room) = (record.clone(), Room::of(seed));
    let [assoc, text, out] = own_lengths(&record);
    slice(&mut at_v, &room.assoc[..assoc], &room.text[..text], &mut room.out[..out], (v - done) as u32);
    if record.instance == SPOOK && done + clyde::ROUNDS > v {
        return accepting_in_the_closing_call(&at_v, record, done + clyde::ROUNDS - v);
    }
    Record { tag: accepted_tag(&at_v), ..record }
}

fn write_standing(file: &mut Written, numbers: &mut Numbers, number: u32, direction: u32) {
    for i in 0..STANDING {
        let seed = numbers.next();
        let record = unended(numbers, number, direction);
        let record = if i % 2 == 0 { accepting(seed, record) } else { record };
        let cuts = budgets(numbers, &record);
        write(file, seed, record, &cuts);
    }
}

/// Openings of ISAP of an empty text past the decision, of which nothing but the re-keying is left.
fn write_rekeying(file: &mut Written, numbers: &mut Numbers, number: u32) {
    let mut record = Record { text: 0, ..any_record(numbers, number, OPENING) };
    let (v, total) = rounds_of(&record);
    for done in [v, v + 1, total - 1] {
        move_to(&mut record, done);
        let cuts = [1, u32::MAX].map(|budget| Cut { budget, lent: own_lengths(&record) });
        write(file, numbers.next(), record.clone(), &cuts);
    }
}

/// What is done to an unended record so that it cannot stand.
type Damage = fn(&mut Record);

const DAMAGES: [Damage; 36] = [
    // These four may leave a record that stands; then it is one more of those.
    |r| r.instance = r.instance % 5 + 1,
    |r| r.direction = SEALING + OPENING - r.direction,
    |r| r.assoc ^= 1,
    |r| r.text ^= 1,
    |r| r.instance = 0,
    |r| r.instance = 6,
    |r| r.instance = u32::MAX,
    |r| r.direction = 0,
    |r| r.direction = 3,
    |r| r.direction = u32::MAX,
    |r| r.assoc = 257,
    |r| r.assoc = u32::MAX,
    |r| r.text = MOST_TEXT as u32 + 1,
    |r| r.text = u32::MAX,
    |r| r.done += 1,
    |r| r.done = r.done.wrapping_sub(1),
    |r| r.done = rounds_of(r).1 as u32 + 1,
    |r| r.done = u32::MAX,
    |r| r.place[0] += 1,
    |r| r.place[0] = r.place[0].wrapping_sub(1),
    |r| r.place[0] = 11,
    |r| r.place[0] = u32::MAX,
    |r| r.place[1] += 1,
    |r| r.place[1] = u32::MAX,
    |r| r.place[2] += 1,
    |r| r.place[2] = r.place[2].wrapping_sub(1),
    |r| r.place[2] = u32::MAX,
    |r| r.ending = WELL,
    |r| r.ending = 3,
    |r| r.ending = u32::MAX,
    // past all rounds, at the end's place
    |r| {
        let (_, total) = rounds_of(r);
        move_to(r, total);
        r.done += 1;
    },
    // at the end, unended
    |r| {
        let (_, total) = rounds_of(r);
        move_to(r, total);
        r.ending = UNENDED;
    },
    // refused before the decision
    |r| {
        move_to(r, rounds_of(r).0 - 1);
        r.ending = WRONG_TAG;
    },
    // refused past the decision; a sealing is never refused
    |r| {
        r.text = r.text.max(1);
        let (v, _) = rounds_of(r);
        let past = (r.direction == OPENING) as usize;
        move_to(r, v + past);
        r.ending = WRONG_TAG;
    },
    // of an empty text, ended well after V rounds: ISAP's opening has its re-keying still to do, its sealing the rest of its MAC; a job of
    // Spook has ended there
    |r| {
        r.text = 0;
        move_to(r, rounds_of(r).0);
        r.ending = WELL;
    },
    // the same at the end's place of ISAP, where an opening was before an empty text was re-keyed for
    |r| {
        r.text = 0;
        move_to(r, rounds_of(r).0);
        r.ending = WELL;
        r.place = ISAP_END;
    },
];

/// The same for Spook's own second walk.
const SPOOK_DAMAGES: [Damage; 2] = [
    // in a walk that a sealing and an empty text do not have
    |r| {
        r.text *= (r.direction == SEALING) as u32;
        r.done = rounds_of(r).0 as u32 + 1;
        r.place = [5, 0, 1];
    },
    // in a call after the last block
    |r| {
        r.text = r.text.max(1);
        r.done = rounds_of(r).1 as u32;
        r.place = [8, (r.text - 1) / block(SPOOK) as u32, 0];
    },
];

fn write_damaged(file: &mut Written, numbers: &mut Numbers, number: u32, direction: u32, damages: &[Damage]) {
    for damage in damages.iter().cycle().take(EACH_DAMAGE * damages.len()) {
        let mut record = unended(numbers, number, direction);
        let lent = own_lengths(&record);
        damage(&mut record);
        write(file, numbers.next(), record, &[Cut { budget: 20, lent }]);
    }
}

/// Ended well, and an opening by a wrong tag.
fn write_ended(file: &mut Written, numbers: &mut Numbers, number: u32, direction: u32) {
    for i in 0..8 {
        let mut record = any_record(numbers, number, direction);
        let (v, total) = rounds_of(&record);
        move_to(&mut record, total);
        if i % 2 == 1 && direction == OPENING {
            move_to(&mut record, v);
            record.ending = WRONG_TAG;
        }
        let [assoc, text, out] = own_lengths(&record);
        // That it has ended comes before the lengths.
        let lent = if i < 4 { [assoc, text, out] } else { [assoc + 1, text, out + 1] };
        write(file, numbers.next(), record, &[Cut { budget: one_of(numbers, &[0, 1, u32::MAX]), lent }]);
    }
}

/// One length other than the record's, then all right: the slice after a refusal goes on as if that had not been.
fn write_other_lengths(file: &mut Written, numbers: &mut Numbers, number: u32, direction: u32) {
    for i in 0..9 {
        let record = unended(numbers, number, direction);
        let own = own_lengths(&record);
        let mut lent = own;
        lent[i % 3] = if i < 6 || lent[i % 3] == 0 { lent[i % 3] + 1 + i } else { lent[i % 3] - 1 };
        let cuts = [Cut { budget: 5, lent }, Cut { budget: 5, lent: own }];
        write(file, numbers.next(), record, &cuts);
        // That a record cannot stand comes before the lengths.
        let mut record = unended(numbers, number, direction);
        record.ending = one_of(numbers, &[WELL, 3]);
        let [assoc, text, out] = own_lengths(&record);
        write(file, numbers.next(), record, &[Cut { budget: 5, lent: [assoc + 1, text + 1, out] }]);
    }
}

/// Spook's places behind the closing call, and of an opening that has no round left.
const CLOSED: Place = [5, 0, 0];
const OPENED: Place = [9, 0, 0];

/// What a slice answers to a record of Spook at one of these places: 9 but for a sealing's end, an opening's end, and an opening at V.
fn answer_at_an_end(r: &Record) -> u32 {
    let all = rounds(SPOOK, r.assoc as usize, r.text as usize);
    let (at_v, at_end) = (r.done as usize == all.verify, r.done as usize == all.opening);
    match (r.direction, r.place, r.ending) {
        (SEALING, CLOSED, WELL) if at_v => HAS_ENDED,
        (OPENING, OPENED, WELL) if at_end => HAS_ENDED,
        (OPENING, OPENED, WRONG_TAG) if at_v && r.text == 0 => HAS_ENDED,
        (OPENING, CLOSED, WRONG_TAG) if at_v && r.text > 0 => HAS_ENDED,
        (OPENING, CLOSED, UNENDED) if at_v && r.text > 0 => NOT_ENDED,
        _ => CANNOT_STAND,
    }
}

/// Records of Spook after either direction's rounds, behind either last call, with each ending.
fn write_ends(file: &mut Written, numbers: &mut Numbers, direction: u32, text: u32) {
    for place in [CLOSED, OPENED] {
        for ending in [UNENDED, WELL, WRONG_TAG] {
            let record = Record { text, place, ending, ..any_record(numbers, SPOOK, direction) };
            let all = rounds(SPOOK, record.assoc as usize, text as usize);
            for done in [all.sealing, all.opening] {
                let record = Record { done: done as u32, ..record.clone() };
                let (expected, lent) = (answer_at_an_end(&record), own_lengths(&record));
                let number = write(file, numbers.next(), record, &[Cut { budget: 1, lent }]);
                assert!(number == expected, "each direction has its own end");
            }
        }
    }
}

/// Openings of Spook before the round that decides, which miss by a bit of each byte.
fn write_misses(file: &mut Written, numbers: &mut Numbers) {
    for at in 0..16 {
        let seed = numbers.next();
        let mut record = any_record(numbers, SPOOK, OPENING);
        let (v, _) = rounds_of(&record);
        move_to(&mut record, v - 1);
        let mut record = accepting(seed, record);
        record.session[at] ^= 1 << up_to(numbers, 7);
        let cuts = [1, u32::MAX].map(|budget| Cut { budget, lent: own_lengths(&record) });
        write(file, seed, record, &cuts);
    }
}

fn write_spook(file: &mut Written, numbers: &mut Numbers) {
    for direction in [SEALING, OPENING] {
        write_damaged(file, numbers, SPOOK, direction, &SPOOK_DAMAGES);
        [0, 1, 65].iter().for_each(|text| write_ends(file, numbers, direction, *text));
    }
    write_misses(file, numbers);
}

pub fn of_instance(number: u32) -> Written {
    let mut file = Written::default();
    let mut numbers = Numbers::new(400 + number as u64);
    for direction in [SEALING, OPENING] {
        write_standing(&mut file, &mut numbers, number, direction);
        write_damaged(&mut file, &mut numbers, number, direction, &DAMAGES);
        write_ended(&mut file, &mut numbers, number, direction);
        write_other_lengths(&mut file, &mut numbers, number, direction);
    }
    if number == SPOOK {
        write_spook(&mut file, &mut numbers);
    } else {
        write_rekeying(&mut file, &mut numbers, number);
    }
    write(&mut file, numbers.next(), Record::zeros(), &[Cut { budget: 1, lent: [0, 0, 0] }]);
    file
}
