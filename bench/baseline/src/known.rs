//! Known answers, in the form of the LWC files: each case is sealed, opened, and refused with another tag.

use crate::instances::{self, Lent};
use std::collections::HashMap;

const FILES: [(u32, &str); 5] = [
    (1, "isap-a-128a.txt"),
    (2, "isap-a-128.txt"),
    (3, "isap-k-128a.txt"),
    (4, "isap-k-128.txt"),
    (5, "spook-128-512-su.txt"),
];
const TAG: usize = 16;

type Case = HashMap<String, String>;

fn bytes_of(hex: &str) -> Vec<u8> {
    (0..hex.len()).step_by(2).map(|i| u8::from_str_radix(&hex[i..i + 2], 16).expect("two hex digits")).collect()
}

fn sixteen(bytes: &[u8]) -> [u8; 16] {
    let mut sixteen = [0; 16];
    sixteen.copy_from_slice(bytes);
    sixteen
}

/// A line `Name = value`.
fn field_of(line: &str) -> Option<(String, String)> {
    line.split_once('=').map(|(name, value)| (name.trim().to_string(), value.trim().to_string()))
}

/// The cases of a file: an empty line stands after each.
fn cases_of(file: &str) -> Vec<Case> {
    let cases = file.split("\n\n").map(|lines| lines.lines().filter_map(field_of).collect());
    cases.filter(|case: &Case| !case.is_empty()).collect()
}

fn is_right(instance: u32, case: &Case) -> bool {
    let field = |name: &str| bytes_of(&case[name]);
    let (text, sealed) = (field("PT"), field("CT"));
    let (cipher, tag) = sealed.split_at(sealed.len() - TAG);
    let lent = Lent { key: &sixteen(&field("Key")), nonce: &sixteen(&field("Nonce")), assoc: &field("AD") };
    let mut made = vec![0; text.len()];
    let made_tag = instances::seal(instance, &lent, &text, &mut made);
    let mut opened = vec![0; text.len()];
    let accepted = instances::open(instance, &lent, cipher, &sixteen(tag), &mut opened);
    let mut other = sixteen(tag);
    other[TAG - 1] ^= 1;
    let refused = !instances::open(instance, &lent, cipher, &other, &mut vec![0; text.len()]);
    made == cipher && made_tag == tag && accepted && opened == text && refused
}

/// Says how many cases of each file are right; ends the program if one is not, or if a file has none.
pub fn hold_to(folder: &str) {
    for (instance, name) in FILES {
        let path = format!("{}/{}", folder, name);
        let file = std::fs::read_to_string(&path).unwrap_or_else(|error| panic!("{}: {}", path, error));
        let cases = cases_of(&file);
        let right = cases.iter().filter(|case| is_right(instance, case)).count();
        println!("{}: {} of {} cases right", name, right, cases.len());
        if right == 0 || right < cases.len() {
            std::process::exit(1);
        }
    }
}
