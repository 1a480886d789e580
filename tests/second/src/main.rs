//! The second program: what the library computes, computed again from the papers, sharing nothing with the library's code.
//! Slow and plain on purpose. It writes the inputs and the answers that the library's test programs are held to.

mod answers;
mod ascon;
mod calls;
mod cases;
mod checks;
mod counters;
mod filling;
mod images;
mod instances;
mod keccak;
mod known;
mod lines;
mod numbers;
mod paper;
mod parcel;
mod parcels;
mod permutations;
mod plan;
mod record;
mod sealed;
mod spook;
mod steps;
mod tables;
mod tasks;
mod threads;
mod written;

use std::io::Write;

const USAGE: &str = "usage: second permutations states|answers, plan rows|many|lengths requests|lines, cases file|summary, \
    parcels cases file|summary, counters, tasks, tables, answers, checks, known FOLDER, sealed FILE, parcels FILE, or images FOLDER";

/// A report; where it tells a failure it goes to the error output and the program fails.
fn passed((report, failed): (String, bool)) -> String {
    if failed {
        eprint!("{report}");
        std::process::exit(1);
    }
    report
}

fn main() {
    let args: Vec<String> = std::env::args().skip(1).collect();
    let words: Vec<&str> = args.iter().map(String::as_str).collect();
    let output = match words.as_slice() {
        ["permutations", "states"] => permutations::states(),
        ["permutations", "answers"] => permutations::answers().into_bytes(),
        ["plan", "rows", "requests"] => plan::rows_requests(),
        ["plan", "rows", "lines"] => plan::rows_lines().into_bytes(),
        ["plan", "many", "requests"] => plan::many_requests(),
        ["plan", "many", "lines"] => plan::many_lines().into_bytes(),
        ["plan", "lengths", "requests"] => plan::lengths_requests(),
        ["plan", "lengths", "lines"] => plan::lengths_lines().into_bytes(),
        ["cases", "file"] => cases::file(),
        ["cases", "summary"] => cases::summary().into_bytes(),
        ["known", folder] => passed(known::report(folder)).into_bytes(),
        ["answers"] => answers::file().into_bytes(),
        ["checks"] => passed(checks::report()).into_bytes(),
        ["parcels", "cases", "file"] => parcels::file(),
        ["parcels", "cases", "summary"] => parcels::summary().into_bytes(),
        ["counters"] => counters::lines().into_bytes(),
        ["tasks"] => tasks::lines().into_bytes(),
        ["tables"] => tables::file().into_bytes(),
        ["sealed", file] => passed(lines::report(file, "sealed", sealed::agrees)).into_bytes(),
        ["parcels", file] => passed(lines::report(file, "parcels", parcels::agrees)).into_bytes(),
        ["images", folder] => passed(images::report(folder)).into_bytes(),
        _ => {
            eprintln!("{USAGE}");
            std::process::exit(2);
        }
    };
    std::io::stdout().write_all(&output).expect("standard output takes the result");
}
