//! Texts that are made for an answer: lines that fail two checks, steps that
//! are right or wrong in one place, and refutations that rest on some inputs.
//! Pairs of a base and a job too ([`jobs`]).
//!
//! They are written with capital letters for common terms, since no form has
//! any: A, B, C are the constants 0, 1, 2, and X, Y the variables 0, 1. Symbol
//! 3 takes one term, symbol 4 takes two.

mod bare;
pub mod jobs;
mod lines;
mod literals;
mod molecules;
mod rests;
mod steps;
mod terms;
mod words;

/// A text with the answer that it is made to get, without its last line end.
#[derive(Clone, Debug)]
pub struct Made {
    pub text: Vec<u8>,
    pub expected: String,
}

/// Refutations, made for the inputs that they rest on.
pub fn refutations() -> Vec<Made> {
    rests::texts()
}

/// All the others, in a fixed order.
pub fn made() -> Vec<Made> {
    [
        words::texts(),
        lines::texts(),
        steps::texts(),
        literals::texts(),
        terms::texts(),
        bare::texts(),
        molecules::texts(),
    ]
    .concat()
}

/// The sym lines that most of the texts begin with.
const SYMBOLS: [&str; 5] = ["(sym 0)", "(sym 0)", "(sym 0)", "(sym 1)", "(sym 2)"];

/// The text of some lines, with the letters written out.
fn text(lines: &[String]) -> Vec<u8> {
    let mut text = lines.join("\n") + "\n";
    let letters = [
        ('A', "(f 0)"),
        ('B', "(f 1)"),
        ('C', "(f 2)"),
        ('X', "(v 0)"),
        ('Y', "(v 1)"),
    ];
    for (letter, term) in letters {
        text = text.replace(letter, term);
    }
    text.into_bytes()
}

/// A text of sym lines and some more.
fn after_symbols(lines: &[String]) -> Vec<u8> {
    let symbols = SYMBOLS.map(str::to_string);
    text(&[&symbols, lines].concat())
}

/// Input clauses and a step, made to be refused there by a number or to be
/// accepted.
fn step(inputs: &[String], step: String, refused: Option<u8>, accepted: &str) -> Made {
    let inputs = inputs.iter().map(|clause| format!("(in {clause})"));
    let lines: Vec<String> = inputs.chain([step]).collect();
    Made {
        text: after_symbols(&lines),
        expected: match refused {
            Some(number) => format!("refused {number} {}", SYMBOLS.len() + lines.len()),
            None => accepted.into(),
        },
    }
}

/// Items between brackets behind a word: `(WORD ITEM ...)`.
fn row(word: &str, items: &[String]) -> String {
    let items: String = items.iter().map(|item| format!(" {item}")).collect();
    format!("({word}{items})")
}

/// The literals of a clause, given one after another.
pub(crate) fn literals(clause: &str) -> Vec<String> {
    let marked = clause.replace(" (+ ", "|(+ ").replace(" (- ", "|(- ");
    let literals = marked.split('|').filter(|literal| !literal.is_empty());
    literals.map(str::to_string).collect()
}

/// The words of a line.
fn words(line: &str) -> Vec<String> {
    line.split_whitespace().map(str::to_string).collect()
}
