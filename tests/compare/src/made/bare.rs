//! Steps on signatures with none, which inh and inp pass on and out refuses.

use super::{step, Made};

/// An atom's object and method, and its arguments.
type Call = [&'static str; 2];

/// A rule that passes a signature on, K, and the call before and after, by
/// [`DOWN`].
type Passing = (&'static str, usize, [Call; 2]);

const PASSING: [Passing; 7] = [
    ("inh", 0, [["A C", ""], ["B C", ""]]),
    ("inh", 0, [["A A", "A B"], ["B A", "A B"]]),
    ("inp", 0, [["C C", "A"], ["C C", "B"]]),
    ("inp", 0, [["A A", "A A"], ["A A", "B A"]]),
    ("inp", 1, [["A A", "A A"], ["A A", "A B"]]),
    (
        "inp",
        0,
        [["C C", "A A A A A A A A"], ["C C", "B A A A A A A A"]],
    ),
    (
        "inp",
        7,
        [["C C", "A A A A A A A A"], ["C C", "A A A A A A A B"]],
    ),
];

/// The links from A down to B, for inh and inp, and up to B, for out.
const DOWN: &str = "(sub B A)";
const UP: &str = "(sub A B)";

pub fn texts() -> Vec<Made> {
    let mut all = Vec::new();
    for row in &PASSING {
        all.extend(["st", "mt"].map(|word| passing(row, word)).concat());
        all.extend(["mv", "mi"].map(|word| no_signature(row, word)).concat());
    }
    all.extend(["st", "mt", "mv", "mi"].map(widening).concat());
    all
}

/// A positive literal.
fn positive(word: &str, [object, arguments]: Call, result: &str) -> String {
    format!("(+ ({word} {object} ({arguments}) {result}))")
}

/// A step from a literal to a new one by a link.
fn by(
    (rule, k): (&str, usize),
    old: &str,
    link: &str,
    new: &str,
    refused: impl Into<Option<u8>>,
) -> Made {
    let inputs = [
        format!("(or (- (obj C)) {old})"),
        format!("(or (+ {link}))"),
    ];
    let line = format!("(by {rule} 0 1 1 0 {k} (let) (let) (or {new} (- (obj C))))");
    step(&inputs, line, refused.into(), "open 3")
}

/// A signature with none passed on: as it must be, and wrong in one place.
fn passing(&(rule, k, calls): &Passing, word: &str) -> Vec<Made> {
    let [old, new] = calls.map(|call| positive(word, call, "none"));
    let [old_term, new_term] = calls.map(|call| positive(word, call, "A"));
    let negative = old.replace("(+ ", "(- ");
    let at = (rule, k);
    let mut all = vec![
        by(at, &old, DOWN, &new, None),
        by(at, &old, UP, &new, 10),
        // A term in place of none, and none in place of a term.
        by(at, &old, DOWN, &new_term, 11),
        by(at, &old_term, DOWN, &new, 11),
        by(at, &old, DOWN, &old, 11),
        by(at, &negative, DOWN, &new, 9),
    ];
    if rule == "inp" {
        // Behind the last argument there is nothing.
        let [[_, arguments], _] = calls;
        let end = arguments.split(' ').count();
        all.push(by((rule, end), &old, DOWN, &new, 9));
    }
    all
}

/// The same on a value with none and with a term, which isn't a signature.
fn no_signature(&(rule, k, calls): &Passing, word: &str) -> Vec<Made> {
    let with = |result: &str| {
        let [old, new] = calls.map(|call| positive(word, call, result));
        by((rule, k), &old, DOWN, &new, 9)
    };
    ["none", "A"].map(with).to_vec()
}

/// out by none, whatever the claim makes of it; and on a value with a term.
fn widening(word: &str) -> Vec<Made> {
    let old = |result: &str| positive(word, ["C C", "A"], result);
    let mut all = Vec::new();
    for link in [UP, DOWN] {
        for (argument, result) in [("A", "none"), ("A", "B"), ("B", "none")] {
            let new = positive(word, ["C C", argument], result);
            all.push(by(("out", 0), &old("none"), link, &new, 9));
        }
    }
    if matches!(word, "mv" | "mi") {
        all.push(by(("out", 0), &old("A"), UP, &old("B"), 9));
    }
    all
}
