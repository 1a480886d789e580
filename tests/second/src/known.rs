//! The known answers: each case is sealed, opened, and opened with a damaged tag, by both ways to a job (`paper` and `steps`), which
//! must agree with the file and with one another: stopped on the way, before the last round and at it, which is the whole call.

use crate::calls::{begun, slice, ENDED_WELL, NOT_ENDED, TAG_DIFFERS};
use crate::paper::{noted, Given, Noted};
use crate::plan::rounds;
use crate::record::{OPENING, SEALING};
use crate::threads::by_instance;

/// Of instances 1 to 4; of instance 5 there is none that another made.
const FILES: [&str; 4] = ["isap-a-128a.txt", "isap-a-128.txt", "isap-k-128a.txt", "isap-k-128.txt"];

/// What an output holds before a job.
const BLANK: u8 = 0xAA;

struct Known {
    count: usize,
    given: Given,
    ciphertext: Vec<u8>,
    tag: [u8; 16],
}

pub fn unhex(digits: &str) -> Vec<u8> {
    let pairs = digits.as_bytes().chunks(2).map(|pair| std::str::from_utf8(pair).expect("ASCII digits"));
    pairs.map(|pair| u8::from_str_radix(pair, 16).expect("two hex digits")).collect()
}

pub fn sixteen(bytes: &[u8]) -> [u8; 16] {
    bytes.try_into().expect("16 bytes")
}

/// The lines of a case, `NAME = VALUE`, in the order in which the files have them.
fn parsed(number: u32, case: &str) -> Known {
    let values: Vec<&str> = case.lines().map(|line| line.split_once(" =").expect("NAME = VALUE").1.trim()).collect();
    let [count, key, nonce, text, assoc, sealed]: [&str; 6] = values.try_into().expect("six lines in a case");
    let (key, nonce) = (sixteen(&unhex(key)), sixteen(&unhex(nonce)));
    let sealed = unhex(sealed);
    let (ciphertext, tag) = sealed.split_at(sealed.len() - 16);
    let given = Given { instance: number, key, nonce, assoc: unhex(assoc), text: unhex(text) };
    Known { count: count.parse().expect("a count"), given, ciphertext: ciphertext.to_vec(), tag: sixteen(tag) }
}

/// A job that takes `rounds` rounds, in slices that stop on the way, before the last round and at it, and the same noted along the paper,
/// where the last is the whole job: the number and what is left, if the two agree everywhere.
fn both_ways(case: &Known, given: &Given, direction: u32, tag: [u8; 16], rounds: usize) -> Option<(u32, Noted)> {
    let cut = case.count * 131 % (rounds - 2);
    let mut out = vec![BLANK; given.text.len()];
    let along_the_paper = noted(given, direction, tag, &out, &[cut, cut + 1, rounds - 1, usize::MAX]);
    let (assoc, text) = (given.assoc.len() as u32, given.text.len() as u32);
    let mut record = begun(given.instance, direction, given.key, given.nonce, tag, assoc, text);
    let mut number = NOT_ENDED;
    for (stop, expected) in [cut, cut + 1, rounds - 1, rounds].iter().zip(along_the_paper) {
        let budget = *stop as u32 - record.done;
        number = slice(&mut record, &given.assoc, &given.text, &mut out, budget).0;
        if record != expected.record || out != expected.out {
            return None;
        }
    }
    Some((number, Noted { record, out }))
}

fn sealed(case: &Known, rounds: usize) -> bool {
    let left = both_ways(case, &case.given, SEALING, [0; 16], rounds);
    matches!(left, Some((number, last)) if number == ENDED_WELL && last.out == case.ciphertext && last.record.tag == case.tag)
}

fn opened(case: &Known, tag: [u8; 16], rounds: usize, expected: u32, out: &[u8]) -> bool {
    let given = Given { text: case.ciphertext.clone(), ..case.given.clone() };
    let left = both_ways(case, &given, OPENING, tag, rounds);
    matches!(left, Some((number, last)) if number == expected && last.out == out)
}

/// What fails of a case, by name.
fn failures(case: &Known) -> Vec<&'static str> {
    let text = &case.given.text;
    let rounds = rounds(case.given.instance, case.given.assoc.len(), text.len());
    let mut damaged = case.tag;
    damaged[case.count % 16] ^= 1 << (case.count % 8);
    let checks = [
        ("sealing", sealed(case, rounds.sealing)),
        ("opening", opened(case, case.tag, rounds.opening, ENDED_WELL, text)),
        ("opening with a damaged tag", opened(case, damaged, rounds.verify, TAG_DIFFERS, &vec![BLANK; text.len()])),
    ];
    checks.iter().filter(|(_, holds)| !holds).map(|(name, _)| *name).collect()
}

/// The lines of a file's report, and whether it has a failure.
fn file_report(folder: &str, number: u32, name: &str) -> (String, bool) {
    let content = std::fs::read_to_string(format!("{folder}/{name}")).expect("a file of known answers");
    let cases: Vec<Known> = content.trim().split("\n\n").map(|case| parsed(number, case)).collect();
    let mut lines = format!("known answers: {name}, {} cases\n", cases.len());
    let mut failed = false;
    for case in &cases {
        for name in failures(case) {
            lines += &format!("instance {number}, count {}: {name} differs\n", case.count);
            failed = true;
        }
    }
    (lines, failed)
}

/// The report on all files, and whether there is a failure.
pub fn report(folder: &str) -> (String, bool) {
    let reports = by_instance(|number| FILES.get(number as usize - 1).map(|name| file_report(folder, number, name)));
    let lines = reports.iter().flatten().map(|(lines, _)| lines.as_str()).collect();
    (lines, reports.iter().flatten().any(|(_, failed)| *failed))
}
