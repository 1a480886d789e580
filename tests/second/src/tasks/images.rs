//! An image of the largest length, sealed and opened by a task in turns of 1,000 rounds. Its slices are not stepped as those of short texts
//! are: the paper's algorithm is run once and noted where the task stands when it stops.

use super::{beginning, case, filling_of, Allowed, Message};
use crate::calls::{number_of, slice, MOST_ASSOC, MOST_TEXT};
use crate::filling::checksum;
use crate::paper::{ended, noted, Given, Noted};
use crate::plan::rounds;
use crate::record::{Record, OPENING, SEALING, WELL, WRONG_TAG};

/// After the messages' own.
const INDEX: u64 = 5;
const BUDGET: u32 = 1000;
/// More turns than a job of an image has.
const ENOUGH: u32 = 4000;
/// For each instance turns after which some of the image is sealed and some is not.
const AMID_THE_IMAGE: [u32; 5] = [700, 1000, 400, 600, 200];

/// What a task reports beside what it leaves.
struct Report {
    number: u32,
    served: u32,
    waited: u32,
}

fn line(job: &str, given: &Given, turns: u32, report: &Report, left: &Noted) -> String {
    let numbers = format!("{} {} {} {}", report.number, report.served, report.waited, left.record.done);
    let sums = [checksum(&left.record.bytes()), checksum(&left.out)];
    format!("{} {numbers} {:016x} {:016x}\n", case(job, given, Allowed { budget: BUDGET, turns }), sums[0], sums[1])
}

/// The line of a task that goes on after `before` rounds, and takes its job to its end.
fn to_the_end(job: &str, given: &Given, before: u32, left: &Noted) -> String {
    let served = (left.record.done - before + BUDGET - 1) / BUDGET;
    assert!(served <= ENOUGH, "the task has turns enough");
    line(job, given, ENOUGH, &Report { number: number_of(&left.record), served, waited: BUDGET }, left)
}

/// Sealed in part by one run of the task and to the end by another.
fn sealed(message: &Message) -> (String, Noted) {
    let given = &message.given;
    let turns = AMID_THE_IMAGE[given.instance as usize - 1];
    let done = turns * BUDGET;
    let stops = [done as usize, usize::MAX];
    let [part, whole]: [Noted; 2] = noted(given, SEALING, [0; 16], &message.before, &stops).try_into().ok().expect("two stops");
    assert!(part.out != message.before && part.out != whole.out, "some of the image is sealed");
    assert!(whole.record.done as usize == rounds(given.instance, MOST_ASSOC, MOST_TEXT).sealing, "all its rounds are done");
    let report = Report { number: number_of(&part.record), served: turns, waited: BUDGET };
    (line("part", given, turns, &report, &part) + &to_the_end("rest", given, done, &whole), whole)
}

/// The line of an opening, which must come to this ending and leave this output.
fn opened(job: &str, received: &Given, tag: [u8; 16], before: &[u8], ending: u32, out: &[u8]) -> String {
    let left = ended(received, OPENING, tag, before);
    let planned = rounds(received.instance, MOST_ASSOC, MOST_TEXT);
    let lasts = if ending == WELL { planned.opening } else { planned.verify };
    assert!(left.record.ending == ending && left.out == out, "an opening accepts exactly the right tag");
    assert!(left.record.done as usize == lasts, "all its rounds are done");
    to_the_end(job, received, 0, &left)
}

/// A record of a text of one byte more, which cannot stand.
fn forged(message: &Message) -> String {
    let given = &message.given;
    let record = Record { text: MOST_TEXT as u32 + 1, ..beginning(given, SEALING, [0; 16]) };
    let mut left = Noted { record, out: message.before.clone() };
    let (number, waited) = slice(&mut left.record, &given.assoc, &given.text, &mut left.out, BUDGET);
    line("forged", given, ENOUGH, &Report { number, served: 1, waited }, &left)
}

pub fn of_instance(instance: u32) -> String {
    let message = filling_of(instance, INDEX, MOST_ASSOC, MOST_TEXT);
    let (lines, whole) = sealed(&message);
    let received = Given { text: whole.out, ..message.given.clone() };
    let (right, mut wrong) = (whole.record.tag, whole.record.tag);
    wrong[15] ^= 1;
    let before = &message.before;
    let open = opened("open", &received, right, before, WELL, &message.given.text);
    let refused = opened("wrong", &received, wrong, before, WRONG_TAG, before);
    [lines, open, refused, forged(&message)].concat()
}
