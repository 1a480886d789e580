//! The baseline: ISAP v2.0 and Spook in Rust, made for speed on x86-64, with which bench/run compares the library.
//!
//! `baseline known FOLDER` holds it to the files of answers in FOLDER; `baseline` does the requests of its standard input, as
//! the library's program `measured` does, and prints the same lines.

mod ascon;
mod clyde;
mod instances;
mod isap;
mod keccak;
mod known;
mod requests;
mod shadow;
mod sponge;
mod spook;

fn main() {
    let args: Vec<String> = std::env::args().skip(1).collect();
    match args.iter().map(String::as_str).collect::<Vec<_>>()[..] {
        [] => requests::answer_all(),
        ["known", folder] => known::hold_to(folder),
        _ => {
            eprintln!("usage: baseline [known FOLDER]");
            std::process::exit(2);
        }
    }
}
