//! The lines of the program `tasks`: a host task that keeps the record of one job and in each turn gives it one slice. A line has the case,
//! the last slice's number, the turns that there were, the most rounds of one of them, the rounds of the record afterwards, the checksum of
//! that record and the output afterwards, of an image its checksum. What went to its end is compared with the paper's algorithm.

mod images;

use crate::calls::{begun, slice, NOT_ENDED};
use crate::filling::{checksum, filled};
use crate::paper::{ended, Given, Noted};
use crate::record::{Record, OPENING, SEALING};
use crate::threads::by_instance;

const HEADING: &str = "instance job assoc text budget turns number served waited done record out\n";

/// The lengths of associated data and text of each message.
const MESSAGES: [(usize, usize); 4] = [(0, 0), (1, 8), (20, 41), (256, 100)];
/// The message of the runs that do not go to an end.
const STOPPED: usize = 2;
const BUDGETS: [u32; 3] = [1, 25, 1000];
/// More turns than a job of these messages has rounds.
const ENOUGH: u32 = 20_000;
/// For each instance turns of one round, after which some of the output's blocks are written and some are not.
const AMID_THE_TEXT: [u32; 5] = [163, 1572, 159, 1572, 40];

/// What a job is given, and what the output holds before each run.
struct Message {
    given: Given,
    before: Vec<u8>,
}

fn sixteen(bytes: Vec<u8>) -> [u8; 16] {
    bytes.try_into().expect("sixteen bytes")
}

/// A message of these lengths, its index counted from 1.
fn filling_of(instance: u32, index: u64, a: usize, m: usize) -> Message {
    let seed = 1000 * instance as u64 + 10 * index;
    let [key, nonce, assoc, text] = filled(seed, [16, 16, a, m]);
    let [before] = filled(seed + 1, [m]);
    Message { given: Given { instance, key: sixteen(key), nonce: sixteen(nonce), assoc, text }, before }
}

fn message(instance: u32, index: usize) -> Message {
    let (a, m) = MESSAGES[index];
    filling_of(instance, index as u64 + 1, a, m)
}

fn beginning(given: &Given, direction: u32, tag: [u8; 16]) -> Record {
    begun(given.instance, direction, given.key, given.nonce, tag, given.assoc.len() as u32, given.text.len() as u32)
}

/// The turns that a task is allowed, and the rounds of each.
#[derive(Clone, Copy)]
struct Allowed {
    budget: u32,
    turns: u32,
}

/// What a task leaves: the last slice's number, the turns that there were, the most rounds of one, and record and output.
struct Ran {
    number: u32,
    served: u32,
    waited: u32,
    left: Noted,
}

/// A turn whose slice answers anything but 100 is the last.
fn run(record: Record, given: &Given, before: &[u8], allowed: Allowed) -> Ran {
    let mut left = Noted { record, out: before.to_vec() };
    let (mut number, mut served, mut waited) = (NOT_ENDED, 0, 0);
    while number == NOT_ENDED && served < allowed.turns {
        let (answer, rounds) = slice(&mut left.record, &given.assoc, &given.text, &mut left.out, allowed.budget);
        number = answer;
        served += 1;
        waited = rounds.max(waited);
    }
    Ran { number, served, waited, left }
}

/// Bytes in hex, `-` for none.
fn hex(bytes: &[u8]) -> String {
    if bytes.is_empty() {
        return "-".to_string();
    }
    bytes.iter().map(|byte| format!("{byte:02x}")).collect()
}

fn case(job: &str, given: &Given, allowed: Allowed) -> String {
    format!("{} {job} {} {} {} {}", given.instance, given.assoc.len(), given.text.len(), allowed.budget, allowed.turns)
}

fn line(job: &str, given: &Given, allowed: Allowed, ran: &Ran) -> String {
    let record = &ran.left.record;
    let numbers = format!("{} {} {} {}", ran.number, ran.served, ran.waited, record.done);
    format!("{} {numbers} {:016x} {}\n", case(job, given, allowed), checksum(&record.bytes()), hex(&ran.left.out))
}

/// A job from its beginning to its end, where it is what the paper's algorithm gives.
fn to_the_end(given: &Given, direction: u32, tag: [u8; 16], before: &[u8], allowed: Allowed) -> Ran {
    let ran = run(beginning(given, direction, tag), given, before, allowed);
    assert!(ran.left == ended(given, direction, tag, before), "a task's job comes to the paper's end");
    ran
}

fn sealed(message: &Message, budget: u32) -> Ran {
    to_the_end(&message.given, SEALING, [0; 16], &message.before, Allowed { budget, turns: ENOUGH })
}

/// A sealing, and openings of what it made: with its tag, and with the lowest bit of the tag's last byte changed.
fn ended_lines(message: &Message, budget: u32) -> String {
    let allowed = Allowed { budget, turns: ENOUGH };
    let sealed = sealed(message, budget);
    let received = Given { text: sealed.left.out.clone(), ..message.given.clone() };
    let right = sealed.left.record.tag;
    let mut wrong = right;
    wrong[15] ^= 1;
    let opened = |job: &str, tag: [u8; 16]| {
        let ran = to_the_end(&received, OPENING, tag, &message.before, allowed);
        line(job, &received, allowed, &ran)
    };
    [line("seal", &message.given, allowed, &sealed), opened("open", right), opened("wrong", wrong)].concat()
}

/// Runs with too few turns: amid the text, and one turn short of the end, where the output is whole and the job is not.
fn unended_lines(message: &Message) -> String {
    let (given, before) = (&message.given, &message.before);
    let whole = sealed(message, 25);
    let amid = Allowed { budget: 1, turns: AMID_THE_TEXT[given.instance as usize - 1] };
    let cut = Allowed { budget: 25, turns: whole.served - 1 };
    let ran = |allowed: Allowed| run(beginning(given, SEALING, [0; 16]), given, before, allowed);
    let (part, short) = (ran(amid), ran(cut));
    assert!(part.number == NOT_ENDED && short.number == NOT_ENDED, "neither has ended");
    assert!(part.left.out != *before && part.left.out != whole.left.out, "some of the output is written");
    assert!(short.left.out == whole.left.out, "all of the output is written");
    [line("part", given, amid, &part), line("cut", given, cut, &short)].concat()
}

/// Runs of no rounds or no turns, and of which the first slice is refused.
fn idle_lines(message: &Message) -> String {
    let (given, before) = (&message.given, &message.before[..]);
    let begun = beginning(given, SEALING, [0; 16]);
    let finished = sealed(message, 25).left.record;
    let forged = Record { done: 1, ..begun.clone() };
    let shorter = &before[..before.len() - 1];
    let runs = [
        ("none", &begun, before, Allowed { budget: 0, turns: 3 }),
        ("idle", &begun, before, Allowed { budget: 25, turns: 0 }),
        ("again", &finished, before, Allowed { budget: 25, turns: 5 }),
        ("forged", &forged, before, Allowed { budget: 25, turns: 5 }),
        ("other", &begun, shorter, Allowed { budget: 25, turns: 5 }),
    ];
    let said = |(job, record, before, allowed): (&str, &Record, &[u8], Allowed)| {
        line(job, given, allowed, &run(record.clone(), given, before, allowed))
    };
    runs.into_iter().map(said).collect()
}

fn of_instance(number: u32) -> String {
    let messages: Vec<Message> = (0..MESSAGES.len()).map(|index| message(number, index)).collect();
    let ended: String = messages.iter().flat_map(|message| BUDGETS.map(|budget| ended_lines(message, budget))).collect();
    ended + &unended_lines(&messages[STOPPED]) + &idle_lines(&messages[STOPPED]) + &images::of_instance(number)
}

pub fn lines() -> String {
    HEADING.to_string() + &by_instance(of_instance).concat()
}
