//! Helpers for the tests.
//!
//! Texts are written with capital letters for common terms, since no form
//! has any: A, B, C are constants, X, Y, Z the variables 0, 1, 2. Symbol 3
//! takes one term, symbol 4 takes two.

#![allow(dead_code)]

use second::{check, Verdict};

/// The sym lines that [`answer`] puts first.
pub const SYMBOLS: &str = "(sym 0)\n(sym 0)\n(sym 0)\n(sym 1)\n(sym 2)\n";

/// The number of the first line after the sym lines.
pub const FIRST: usize = 6;

pub fn expand(text: &str) -> String {
    text.replace('A', "(f 0)")
        .replace('B', "(f 1)")
        .replace('C', "(f 2)")
        .replace('X', "(v 0)")
        .replace('Y', "(v 1)")
        .replace('Z', "(v 2)")
}

/// The program's answer to a text, given as it stands.
pub fn raw(text: impl AsRef<[u8]>) -> String {
    check(text.as_ref()).to_string()
}

/// The program's answer to some lines after the sym lines.
pub fn answer(lines: &[&str]) -> String {
    let body: String = lines.iter().map(|line| expand(line) + "\n").collect();
    raw(SYMBOLS.to_string() + &body)
}

/// The number by which the last of some lines is refused, 0 if it passes. The
/// lines before it must pass.
pub fn last(inputs: &[&str], line: &str) -> u8 {
    let mut lines = inputs.to_vec();
    lines.push(line);
    let body: String = lines.iter().map(|line| expand(line) + "\n").collect();
    match check((SYMBOLS.to_string() + &body).as_bytes()).verdict {
        Verdict::Refused { number, line } => {
            assert_eq!(line, FIRST + inputs.len(), "refused by {number}: {body}");
            number
        }
        _ => 0,
    }
}

/// Asserts [`last`] for several last lines.
pub fn cases(inputs: &[&str], expected: &[(u8, &str)]) {
    for (number, line) in expected {
        assert_eq!(last(inputs, line), *number, "{line}");
    }
}
