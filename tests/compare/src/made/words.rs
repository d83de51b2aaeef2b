//! Each word of the text form with a letter too few, too many or another one.

use super::{after_symbols, Made, SYMBOLS};

/// Lines that are forms, in which each word stands.
const LINES: [&str; 8] = [
    "(sym 0)",
    "(in (or (+ (eq A X)) (- (mem A B)) (+ (sub A B)) (- (obj A))))",
    "(in (or (+ (sv A A () A)) (+ (si A A () A))))",
    "(in (or (+ (mv A A () none)) (+ (mi A A () none))))",
    "(in (or (+ (st A A () none)) (+ (mt A A () none))))",
    "(in (or (+ (mol A (sv A () A) (si A () A) (mv A () none)))))",
    "(in (or (- (mol A (mi A () none) (st A () none) (mt A () none)))))",
    "(by refl 0 0 0 0 0 (let A) (let) (or (+ (sub A A))))",
];
/// The words that stand in no line above.
const RULES: [&str; 13] = [
    "res", "fac", "par", "acy", "tra", "inc", "inh", "inp", "out", "sca", "eli", "mer", "pro",
];

pub fn texts() -> Vec<Made> {
    let mut lines: Vec<String> = LINES.map(str::to_string).to_vec();
    // Steps that lack a parent, so that only their form is looked at.
    lines.extend(RULES.map(|rule| format!("(by {rule} 9 0 9 0 0 (let) (let) (or))")));
    lines.iter().flat_map(|line| misspelt(line)).collect()
}

/// A line with each of its words misspelt.
fn misspelt(line: &str) -> Vec<Made> {
    let expected = format!("refused 2 {}", SYMBOLS.len() + 1);
    let mut made = Vec::new();
    for (start, word) in words_of(line) {
        let (last, cut) = (word.len() - 1, &word[..word.len() - 1]);
        let next = char::from(word.as_bytes()[last] + 1);
        let capital = word[..1].to_uppercase() + &word[1..];
        // The letters A, B, C, X and Y stand for terms.
        let capital = capital.replace(['A', 'B', 'C', 'X', 'Y'], "Z");
        for other in [
            cut.to_string(),
            format!("{word}{}", &word[last..]),
            format!("{cut}{next}"),
            capital,
        ] {
            let line = format!("{}{other}{}", &line[..start], &line[start + word.len()..]);
            made.push(Made {
                text: after_symbols(&[line]),
                expected: expected.clone(),
            });
        }
    }
    made
}

/// The words of small letters in a line, with their places.
fn words_of(line: &str) -> Vec<(usize, &str)> {
    let mut words = Vec::new();
    let mut start = 0;
    for piece in line.split(|letter: char| !letter.is_ascii_lowercase()) {
        if !piece.is_empty() {
            words.push((start, piece));
        }
        start += piece.len() + 1;
    }
    words
}
