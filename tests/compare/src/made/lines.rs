//! Sym and in lines that fail two checks, and lines with no symbol of K = 0.

use super::{after_symbols, row, text, Made, SYMBOLS};

/// A by line that passes.
const STEP: &str = "(by refl 0 0 0 0 0 (let A) (let) (or (+ (sub A A))))";
/// Literals that fail check 5, and literals that fail check 6.
const PAST_LIMIT: [&str; 3] = [
    "(+ (obj (v 32)))",
    "(- (mt A A (A A A A A A A A A) none))",
    "(+ (mol A (sv A () A) (mv A (A A A A A A A A A) none)))",
];
const BAD_SYMBOL: [&str; 3] = [
    "(- (obj (f 5)))",
    "(+ (mv A A ((f 3 A A)) none))",
    "(- (mol A (sv A () A) (mv A () (f 5))))",
];

pub fn texts() -> Vec<Made> {
    [sym_lines(), in_lines(), without_constant()].concat()
}

/// The last of some lines after the sym lines is refused by a number.
fn refused(number: u8, lines: &[&str]) -> Made {
    let lines: Vec<String> = lines.iter().map(|line| line.to_string()).collect();
    Made {
        text: after_symbols(&lines),
        expected: format!("refused {number} {}", SYMBOLS.len() + lines.len()),
    }
}

fn sym_lines() -> Vec<Made> {
    let full = vec!["(sym 0)"; 256 - SYMBOLS.len()];
    let mut made = Vec::new();
    for before in [&[][..], &["(in (or))"], &[STEP], &["(in (or))", STEP]] {
        let order = !before.is_empty();
        let lines = |last| [before, &[last]].concat();
        let full_lines = |last| [&full, before, &[last]].concat();
        made.push(refused(2, &lines("(sym 09)")));
        made.push(refused(2, &lines("(sym 65536)")));
        made.push(refused(2, &full_lines("(sym 0 )")));
        made.push(refused(if order { 3 } else { 5 }, &lines("(sym 9)")));
        made.push(refused(if order { 3 } else { 5 }, &lines("(sym 65535)")));
        made.push(refused(if order { 3 } else { 5 }, &full_lines("(sym 0)")));
        made.push(refused(if order { 3 } else { 5 }, &full_lines("(sym 9)")));
    }
    made
}

/// In lines that fail any of 2, 3, 5 and 6, in either order within the line.
fn in_lines() -> Vec<Made> {
    let many = vec!["(+ (obj A))"; 33].join(" ");
    let mut made = Vec::new();
    for limit in [
        &[][..],
        &PAST_LIMIT[..1],
        &PAST_LIMIT[1..2],
        &PAST_LIMIT[2..],
        &[many.as_str()],
    ] {
        for symbol in [
            &[][..],
            &BAD_SYMBOL[..1],
            &BAD_SYMBOL[1..2],
            &BAD_SYMBOL[2..],
        ] {
            for clause in [[limit, symbol].concat(), [symbol, limit].concat()] {
                let clause: Vec<String> = clause.iter().map(|item| item.to_string()).collect();
                let line = row("in", &[row("or", &clause)]);
                let broken = line.replace("(in ", "(in  ");
                made.push(refused(2, &[&broken]));
                made.push(refused(2, &[STEP, &broken]));
                made.push(refused(3, &[STEP, &line]));
                if !limit.is_empty() {
                    made.push(refused(5, &[&line]));
                } else if !symbol.is_empty() {
                    made.push(refused(6, &[&line]));
                }
            }
        }
    }
    made
}

/// In and by lines that fail check 4 and others. Variables are the only terms
/// that fail no check after it.
fn without_constant() -> Vec<Made> {
    let mut lines = vec![
        "(in (or))".to_string(),
        "(in (or (+ (obj X))))".into(),
        "(by refl 0 0 0 0 0 (let X) (let) (or (+ (sub X X))))".into(),
        "(by refl 0 0 0 0 1 (let X) (let) (or (+ (sub X X))))".into(),
        "(by refl 0 0 0 0 0 (let) (let) (or (+ (sub X X))))".into(),
        "(by refl 0 0 0 0 0 (let X) (let) (or))".into(),
        "(by res 0 0 0 0 0 (let) (let) (or))".into(),
        "(by eli 0 0 1 0 0 (let) (let X) (or))".into(),
    ];
    for literal in [PAST_LIMIT, BAD_SYMBOL].concat() {
        lines.push(format!("(in (or {literal}))"));
        lines.push(format!("(by refl 0 0 0 0 0 (let X) (let) (or {literal}))"));
    }
    for term in ["(v 32)", "(f 5)"] {
        lines.push(format!(
            "(by refl 0 0 0 0 0 (let {term}) (let) (or (+ (sub X X))))"
        ));
        lines.push(format!(
            "(by refl 0 0 0 0 0 (let X) (let {term}) (or (+ (sub X X))))"
        ));
    }
    let mut made = Vec::new();
    for symbols in [&[][..], &["(sym 1)"], &["(sym 8)", "(sym 2)"]] {
        let symbols: Vec<String> = symbols.iter().map(|line| line.to_string()).collect();
        for line in &lines {
            for (number, line) in [(4, line.clone()), (2, line.replace("(or", "(or "))] {
                made.push(Made {
                    text: text(&[&symbols[..], &[line]].concat()),
                    expected: format!("refused {number} {}", symbols.len() + 1),
                });
            }
        }
    }
    made
}
