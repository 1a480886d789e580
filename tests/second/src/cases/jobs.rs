//! Jobs of both directions, begun and cut in slices; slices after the end too. A case: a beginning (`refused`), then its slices.
//! What each slice leaves is compared with the paper's algorithm stopped after as many rounds before it is written.

use super::refused::{write_beginning, Beginning};
use super::room::Room;
use super::slices::{own_lengths, Cut, Sliced};
use super::{one_of, up_to, Kind, Written};
use crate::calls::{begun, Lengths, NOT_ENDED};
use crate::instances::{block, instance};
use crate::numbers::Numbers;
use crate::paper::{accepted_tag, closing, decided, ended, noted, Given, Noted};
use crate::plan::rounds;
use crate::record::{OPENING, SEALING};
use crate::spook::SPOOK;
use crate::steps::places;

const RANDOM_JOBS: usize = 8;

struct Job {
    kind: Kind,
    given: Given,
    tag: [u8; 16],
    seed: u64,
    room: Room,
    /// the rounds that it takes
    rounds: usize,
}

impl Job {
    fn direction(&self) -> u32 {
        direction(self.kind)
    }
}

fn direction(kind: Kind) -> u32 {
    if matches!(kind, Kind::Sealing) {
        SEALING
    } else {
        OPENING
    }
}

fn any_bit(numbers: &mut Numbers) -> u8 {
    1 << up_to(numbers, 7)
}

/// The tag that an opening receives: the right one, or that with one bit changed.
fn received(numbers: &mut Numbers, kind: Kind, given: &Given) -> [u8; 16] {
    if matches!(kind, Kind::Sealing) {
        return [0; 16];
    }
    let mut tag = accepted_tag(&decided(given));
    if matches!(kind, Kind::WrongTag) {
        tag[up_to(numbers, 15)] ^= any_bit(numbers);
    }
    tag
}

fn job(numbers: &mut Numbers, kind: Kind, number: u32, assoc: usize, text: usize) -> Job {
    let seed = numbers.next();
    let room = Room::of(seed);
    let (data, bytes) = (room.assoc[..assoc].to_vec(), room.text[..text].to_vec());
    let given = Given { instance: number, key: room.key16(), nonce: room.nonce16(), assoc: data, text: bytes };
    let tag = received(numbers, kind, &given);
    let all = rounds(number, assoc, text);
    let rounds = if matches!(kind, Kind::WrongTag) { all.verify } else { all.of(direction(kind)) };
    Job { kind, given, tag, seed, room, rounds }
}

/// The rounds that are allowed up to each cut.
fn sums(budgets: &[u32]) -> Vec<usize> {
    let mut sum = 0;
    let summed = budgets.iter().map(|budget| {
        sum += *budget as usize;
        sum
    });
    summed.collect()
}

fn check(job: &Job, budgets: &[u32], left: &[Noted]) {
    let out = &job.room.out[..job.given.text.len()];
    let stopped = noted(&job.given, job.direction(), job.tag, out, &sums(budgets));
    assert!(stopped == left, "both ways to a job agree");
    let whole = ended(&job.given, job.direction(), job.tag, out);
    assert!(left.last() == Some(&whole), "a job in slices is the whole job");
}

fn write(file: &mut Written, job: &Job, budgets: &[u32]) {
    let given = &job.given;
    let (assoc, text) = (given.assoc.len(), given.text.len());
    let record = begun(given.instance, job.direction(), given.key, given.nonce, job.tag, assoc as u32, text as u32);
    let lengths = Lengths { key: 16, nonce: 16, assoc, text, out: None, tag: Some(16) };
    let (instance, seed, tag) = (given.instance, job.seed, job.tag);
    let beginning = Beginning { direction: job.direction(), instance, seed, lengths, tag, number: NOT_ENDED, record: &record };
    write_beginning(file, job.kind, &beginning);
    file.pair(budgets.len());
    let mut sliced = Sliced { record, room: job.room.clone() };
    let mut left = Vec::new();
    for budget in budgets {
        let lent = own_lengths(&sliced.record);
        sliced.write(file, &Cut { budget: *budget, lent });
        left.push(Noted { record: sliced.record.clone(), out: sliced.room.out[..text].to_vec() });
    }
    check(job, budgets, &left);
}

/// Budgets that stop at these rounds, in order, then go beyond the end, and two slices after it.
fn stopping_at(rounds: usize, stops: &[usize]) -> Vec<u32> {
    let mut budgets = Vec::new();
    let mut done = 0;
    for stop in stops.iter().filter(|stop| **stop < rounds) {
        budgets.push((*stop - done) as u32);
        done = *stop;
    }
    budgets.push((rounds - done) as u32 + 3);
    budgets.extend([0, 9]);
    budgets
}

/// Zero, one, a few rounds or many, until the job has ended; the last may be any budget that is large enough.
fn random_budgets(numbers: &mut Numbers, rounds: usize) -> Vec<u32> {
    let mut budgets = Vec::new();
    let mut left = rounds;
    while left > 0 {
        let budget = match up_to(numbers, 9) {
            0 => 0,
            1 => 1,
            2 | 3 => up_to(numbers, 30),
            _ => up_to(numbers, rounds / 4 + 2),
        };
        let beyond = one_of(numbers, &[budget as u32, left as u32, u32::MAX]);
        budgets.push(if budget >= left { beyond } else { budget as u32 });
        left -= budget.min(left);
    }
    budgets.extend([1, 0, u32::MAX]);
    budgets
}

/// One round before, at and one round after each change of part.
fn part_edges(job: &Job) -> Vec<usize> {
    let places = places(job.given.instance, job.direction(), job.given.assoc.len(), job.given.text.len());
    let changes = (1..places.len()).filter(|n| places[*n][0] != places[*n - 1][0]);
    let mut stops: Vec<usize> = changes.flat_map(|n| [n - 1, n, n + 1]).collect();
    stops.sort();
    stops
}

fn write_edges(file: &mut Written, numbers: &mut Numbers, kind: Kind, number: u32, assoc: usize, text: usize) {
    let job = job(numbers, kind, number, assoc, text);
    let budgets = stopping_at(job.rounds, &part_edges(&job));
    write(file, &job, &budgets);
}

fn write_every_round(file: &mut Written, numbers: &mut Numbers, kind: Kind, number: u32) {
    let b = block(number);
    let job = job(numbers, kind, number, b, b + 1);
    let stops: Vec<usize> = (0..job.rounds).collect();
    write(file, &job, &stopping_at(job.rounds, &stops));
}

fn write_random(file: &mut Written, numbers: &mut Numbers, kind: Kind, number: u32, assoc: usize, text: usize) {
    let job = job(numbers, kind, number, assoc, text);
    let budgets = random_budgets(numbers, job.rounds);
    write(file, &job, &budgets);
}

/// Openings of Spook that miss by a bit of one byte, of each: of the tag, and of what its inverse must give.
fn write_misses(file: &mut Written, numbers: &mut Numbers) {
    for at in 0..16 {
        let mut job = job(numbers, Kind::WrongTag, SPOOK, 2 * at, 33 - 2 * at);
        let decided = decided(&job.given);
        let (keyed, mut required) = closing(decided.key, &decided.session);
        let mut tag = keyed.encrypted(required);
        tag[at] ^= any_bit(numbers);
        required[at] ^= any_bit(numbers);
        for tag in [tag, keyed.encrypted(required)] {
            job.tag = tag;
            let budgets = stopping_at(job.rounds, &[job.rounds - 1]);
            write(file, &job, &budgets);
        }
    }
}

/// Lengths of jobs that are stopped around every change of part.
fn edge_lengths(number: u32) -> Vec<(usize, usize)> {
    let b = block(number);
    let mut all = vec![(2 * b, b + 3), (b - 1, 0), (0, 0)];
    if number == SPOOK {
        all.extend([(0, 1), (0, b), (0, 2 * b + 1), (1, b - 1), (15, 16), (16, 17), (b, 0), (b + 1, 2 * b)]);
    }
    all
}

pub fn of_instance(number: u32) -> Written {
    let mut file = Written::default();
    let mut numbers = Numbers::new(300 + number as u64);
    let b = block(number);
    for kind in [Kind::Sealing, Kind::Opening, Kind::WrongTag] {
        for (assoc, text) in edge_lengths(number) {
            write_edges(&mut file, &mut numbers, kind, number, assoc, text);
        }
        write_random(&mut file, &mut numbers, kind, number, 256, 4096);
        for _ in 0..RANDOM_JOBS {
            let (assoc, text) = (up_to(&mut numbers, 5 * b), up_to(&mut numbers, 5 * b));
            write_random(&mut file, &mut numbers, kind, number, assoc, text);
        }
    }
    write_every_round(&mut file, &mut numbers, Kind::Sealing, number);
    // Without a long re-keying an opening has few enough rounds for it too; the other instances would take ten times as much of the file.
    if number == SPOOK || instance(number).s_b == 1 {
        write_every_round(&mut file, &mut numbers, Kind::Opening, number);
    }
    if number == SPOOK {
        write_misses(&mut file, &mut numbers);
    }
    file
}
