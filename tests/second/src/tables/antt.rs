//! A file of antt with the records of jobs, in the layout of `rt fmt`. A string is a number there, its first byte most significant.

use super::Job;
use crate::paper::Noted;
use crate::record::SEALING;

/// Characters of a line: `rt fmt` leaves it to the writer where an expression is broken.
const WIDTH: usize = 150;

const HEAD: &str = "\
-- Jobs of Spook as the second program has them (tests/second, which writes this file): what each is given, and its records.
-- Assumes nothing.
use mathlib.Core.Bool.{true, false}
use mathlib.Core.List.{List, [], ◌∷◌}
use Rattle.bits.specs.BigEndian.{be_bytes}
use Rattle.stopping.specs.Course.{Core}
use Rattle.scheme.specs.Machine.{Machine, Input, given}
use Rattle.s1p_vectors.specs.Table.{line}
";

fn number(bytes: &[u8]) -> String {
    if bytes.iter().all(|byte| *byte == 0) {
        return "0".to_string();
    }
    let digits: String = bytes.iter().map(|byte| format!("{byte:02x}")).collect();
    format!("0x{digits}")
}

fn string(bytes: &[u8]) -> String {
    format!("(be_bytes {} {})", bytes.len(), number(bytes))
}

/// An expression, indented, on as few lines as its words allow.
fn filled(expression: &str) -> String {
    let mut lines = vec![String::from("   ")];
    for word in expression.split(' ') {
        let last = lines.last_mut().expect("a line");
        if last.chars().count() + 1 + word.len() > WIDTH {
            lines.push(format!("    {word}"));
        } else {
            *last += &format!(" {word}");
        }
    }
    lines.join("\n") + "\n"
}

fn input(job: &Job) -> String {
    let given = &job.given;
    let strings = [&given.key[..], &given.nonce, &given.assoc, &given.text].map(string);
    filled(&format!("given {} {}", job.direction == SEALING, strings.join(" ")))
}

/// A record, behind `before`: a line up to its state, then its other strings.
fn line(before: &str, noted: &Noted) -> String {
    let r = &noted.record;
    let state = format!("{before}line {} {} {} {}", noted.out.len(), r.done, r.ending, number(&r.state));
    let others = [&r.session[..], &noted.out, &r.tag].map(number);
    filled(&state) + &filled(&others.join(" "))
}

fn lines(records: &[Noted]) -> String {
    let (first, further) = records.split_first().expect("a step");
    let further: String = further.iter().map(|noted| line("∷ ", noted)).collect();
    format!("{}{further}    ∷ []\n", line("", first))
}

/// What the job is given, its record at the beginning, and those after each step.
fn definitions(job: &Job) -> String {
    let (name, records) = (job.name, job.records());
    [
        format!("\n-- {}\nabbrev pub {name}_input : Input\n{name}_input =\n{}", job.about, input(job)),
        format!("\nabbrev pub {name}_begun : Core Machine\n{name}_begun =\n{}", line("", &records[0])),
        format!("\nunfoldable pub {name}_lines : List (Core Machine)\n{name}_lines =\n{}", lines(&records[1..])),
    ]
    .concat()
}

pub fn file(jobs: &[Job]) -> String {
    jobs.iter().fold(HEAD.to_string(), |file, job| file + &definitions(job))
}
