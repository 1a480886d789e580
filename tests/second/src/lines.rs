//! Files that a host wrote of what the library gave in random calls, a line each, to be held against what the second program gives.

use crate::known::unhex;

/// A line's bytes in hex; `-` stands for none.
pub fn bytes(word: &str) -> Vec<u8> {
    if word == "-" {
        return Vec::new();
    }
    unhex(word)
}

/// The six words of a line.
pub fn six(line: &str) -> [&str; 6] {
    let words: Vec<&str> = line.split(' ').collect();
    words.try_into().expect("six words in a line")
}

/// The report on a file, and whether there is a failure: a line that differs, or none at all.
pub fn report(path: &str, name: &str, agrees: fn(&str) -> bool) -> (String, bool) {
    let content = std::fs::read_to_string(path).expect("a file that the host wrote");
    let differing: Vec<usize> = content.lines().enumerate().filter(|(_, line)| !agrees(line)).map(|(i, _)| i + 1).collect();
    let count = content.lines().count();
    let lines: String = differing.iter().map(|number| format!("line {number} differs\n")).collect();
    (format!("{name}: {count} lines, {} differ\n{lines}", differing.len()), count == 0 || !differing.is_empty())
}
