//! The inputs that a refutation rests on. V30: "the input clauses from which its
//! first empty clause descends."

mod common;

use common::answer;
use second::{Answer, Verdict};

/// The answer's second line.
fn rests(lines: &[&str]) -> String {
    let answer = answer(lines);
    let (first, second) = answer.split_once('\n').unwrap_or((&answer, ""));
    assert!(first.starts_with("refuted "), "{first}");
    second.to_string()
}

#[test]
fn one_of_three_inputs_is_not_used() {
    let unused = "(in (or (+ (obj C))))";
    let (minus, plus) = ("(in (or (- (mem A B))))", "(in (or (+ (mem A B))))");
    for (inputs, step, line) in [
        ([unused, minus, plus], "1 0 2 0 0", "rests 1 2"),
        ([minus, unused, plus], "0 0 2 0 0", "rests 0 2"),
        ([minus, plus, unused], "0 0 1 0 0", "rests 0 1"),
        // The parents' order is not the list's.
        ([plus, unused, minus], "2 0 0 0 0", "rests 0 2"),
    ] {
        let step = format!("(by res {step} (let) (let) (or))");
        assert_eq!(rests(&[&inputs[..], &[&step]].concat()), line);
    }
}

#[test]
fn an_empty_input_rests_on_itself_alone() {
    let other = "(in (or (- (obj A))))";
    let eli = "(by eli 0 0 0 0 0 (let) (let) (or))";
    assert_eq!(rests(&["(in (or))"]), "rests 0");
    assert_eq!(rests(&[other, "(in (or))", other]), "rests 1");
    assert_eq!(rests(&[other, other, "(in (or))"]), "rests 2");
    assert_eq!(rests(&[other, "(in (or))", "(in (or))", other]), "rests 1");
    // Steps behind it, an empty clause among them, change nothing.
    assert_eq!(rests(&[other, "(in (or))", eli]), "rests 1");
    assert_eq!(rests(&["(in (or))", other, other]), "rests 0");
}

/// For each rule inputs from 1 on and steps that end in the empty clause. Clause
/// 0 is an input that no step uses, and the unused numbers of a step name it.
const RULES: [(&str, &[&str], &str); 16] = [
    (
        "refl",
        &[
            "(in (or (- (sub A A))))",
            "(by refl 0 0 0 0 0 (let A) (let) (or (+ (sub A A))))",
            "(by res 1 0 2 0 0 (let) (let) (or))",
        ],
        "rests 1",
    ),
    (
        "res",
        &[
            "(in (or (- (mem A B))))",
            "(in (or (+ (mem A B))))",
            "(by res 1 0 2 0 0 (let) (let) (or))",
        ],
        "rests 1 2",
    ),
    (
        "fac",
        &[
            "(in (or (- (mem A B)) (- (mem A B))))",
            "(in (or (+ (mem A B))))",
            "(by fac 1 0 0 1 0 (let) (let) (or (- (mem A B))))",
            "(by res 3 0 2 0 0 (let) (let) (or))",
        ],
        "rests 1 2",
    ),
    (
        "par",
        &[
            "(in (or (- (mem B C))))",
            "(in (or (+ (mem A C))))",
            "(in (or (+ (eq A B))))",
            "(by par 2 0 3 0 0 (let) (let) (or (+ (mem B C))))",
            "(by res 1 0 4 0 0 (let) (let) (or))",
        ],
        "rests 1 2 3",
    ),
    (
        "acy",
        &[
            "(in (or (- (eq A B))))",
            "(in (or (+ (sub A B))))",
            "(in (or (+ (sub B A))))",
            "(by acy 2 0 3 0 0 (let) (let) (or (+ (eq A B))))",
            "(by res 1 0 4 0 0 (let) (let) (or))",
        ],
        "rests 1 2 3",
    ),
    (
        "tra",
        &[
            "(in (or (- (sub A C))))",
            "(in (or (+ (sub A B))))",
            "(in (or (+ (sub B C))))",
            "(by tra 2 0 3 0 0 (let) (let) (or (+ (sub A C))))",
            "(by res 1 0 4 0 0 (let) (let) (or))",
        ],
        "rests 1 2 3",
    ),
    (
        "inc",
        &[
            "(in (or (- (mem A C))))",
            "(in (or (+ (mem A B))))",
            "(in (or (+ (sub B C))))",
            "(by inc 2 0 3 0 0 (let) (let) (or (+ (mem A C))))",
            "(by res 1 0 4 0 0 (let) (let) (or))",
        ],
        "rests 1 2 3",
    ),
    (
        "inh",
        &[
            "(in (or (- (st B C () C))))",
            "(in (or (+ (st A C () C))))",
            "(in (or (+ (sub B A))))",
            "(by inh 2 0 3 0 0 (let) (let) (or (+ (st B C () C))))",
            "(by res 1 0 4 0 0 (let) (let) (or))",
        ],
        "rests 1 2 3",
    ),
    (
        "inp",
        &[
            "(in (or (- (mt C C (B) C))))",
            "(in (or (+ (mt C C (A) C))))",
            "(in (or (+ (sub B A))))",
            "(by inp 2 0 3 0 0 (let) (let) (or (+ (mt C C (B) C))))",
            "(by res 1 0 4 0 0 (let) (let) (or))",
        ],
        "rests 1 2 3",
    ),
    (
        "inh by none",
        &[
            "(in (or (- (mt B C (A) none))))",
            "(in (or (+ (mt A C (A) none))))",
            "(in (or (+ (sub B A))))",
            "(by inh 2 0 3 0 0 (let) (let) (or (+ (mt B C (A) none))))",
            "(by res 1 0 4 0 0 (let) (let) (or))",
        ],
        "rests 1 2 3",
    ),
    (
        "inp by none",
        &[
            "(in (or (- (st C C (C B) none))))",
            "(in (or (+ (st C C (C A) none))))",
            "(in (or (+ (sub B A))))",
            "(by inp 2 0 3 0 1 (let) (let) (or (+ (st C C (C B) none))))",
            "(by res 1 0 4 0 0 (let) (let) (or))",
        ],
        "rests 1 2 3",
    ),
    (
        "out",
        &[
            "(in (or (- (st C C () B))))",
            "(in (or (+ (st C C () A))))",
            "(in (or (+ (sub A B))))",
            "(by out 2 0 3 0 0 (let) (let) (or (+ (st C C () B))))",
            "(by res 1 0 4 0 0 (let) (let) (or))",
        ],
        "rests 1 2 3",
    ),
    (
        "sca",
        &[
            "(in (or (- (eq A B))))",
            "(in (or (+ (sv C C () A))))",
            "(in (or (+ (sv C C () B))))",
            "(by sca 2 0 3 0 0 (let) (let) (or (+ (eq A B))))",
            "(by res 1 0 4 0 0 (let) (let) (or))",
        ],
        "rests 1 2 3",
    ),
    (
        "eli",
        &[
            "(in (or (- (obj A))))",
            "(by eli 1 0 0 0 0 (let) (let) (or))",
        ],
        "rests 1",
    ),
    (
        "mer",
        &[
            "(in (or (- (mol A (sv B () C) (mv C (B) none)))))",
            "(in (or (+ (mv A C (B) B))))",
            "(in (or (+ (sv A B () C))))",
            "(by mer 2 0 3 0 0 (let) (let) (or (+ (mol A (mv C (B) B) (sv B () C)))))",
            "(by res 1 0 4 0 0 (let) (let) (or))",
        ],
        "rests 1 2 3",
    ),
    (
        "pro",
        &[
            "(in (or (- (mv A C () none))))",
            "(in (or (+ (mol A (sv B () C) (mv C () C)))))",
            "(by pro 2 0 0 0 1 (let) (let) (or (+ (mv A C () C))))",
            "(by res 1 0 3 0 0 (let) (let) (or))",
        ],
        "rests 1 2",
    ),
];

#[test]
fn each_rule_passes_on_what_its_used_parents_rest_on() {
    for (rule, lines, line) in RULES {
        let unused = &["(in (or (+ (obj C))))"];
        assert_eq!(rests(&[unused, lines].concat()), line, "{rule}");
    }
}

#[test]
fn a_parent_used_twice_is_named_once() {
    // By two steps.
    let two = [
        "(in (or (- (sub A C)) (- (sub B C))))",
        "(in (or (+ (sub X C))))",
        "(by res 0 0 1 0 0 (let) (let A) (or (- (sub B C))))",
        "(by res 2 0 1 0 0 (let) (let B) (or))",
    ];
    assert_eq!(rests(&two), "rests 0 1");
    // As A and as B of one step.
    let itself = [
        "(in (or (+ (obj C))))",
        "(in (or (+ (sub A A))))",
        "(in (or (- (eq A A))))",
        "(by acy 1 0 1 0 0 (let) (let) (or (+ (eq A A))))",
        "(by res 2 0 3 0 0 (let) (let) (or))",
    ];
    assert_eq!(rests(&itself), "rests 1 2");
}

#[test]
fn the_first_empty_clause_counts() {
    let lines = [
        "(in (or (- (obj A))))",
        "(in (or (- (obj B))))",
        "(by eli 1 0 0 0 0 (let) (let) (or))",
        "(by eli 0 0 0 0 0 (let) (let) (or))",
    ];
    assert_eq!(answer(&lines), "refuted 4 2\nrests 1");
    // A step behind it uses both inputs.
    let lines = [
        "(in (or (- (obj A)) (- (mem A B))))",
        "(in (or (- (obj B))))",
        "(in (or (+ (mem A B))))",
        "(by eli 1 0 0 0 0 (let) (let) (or))",
        "(by res 0 1 2 0 0 (let) (let) (or (- (obj A))))",
        "(by eli 4 0 0 0 0 (let) (let) (or))",
    ];
    assert_eq!(answer(&lines), "refuted 6 3\nrests 1");
}

#[test]
fn a_diamond_has_both_its_sides() {
    // Clauses 6 and 7 both use 5, and 8 uses both.
    let lines = [
        "(in (or (+ (sub A B)) (+ (sub A B))))",
        "(in (or (+ (sub B C))))",
        "(in (or (+ (sub C A))))",
        "(in (or (+ (obj C))))",
        "(in (or (- (sub A B))))",
        "(by fac 0 0 0 1 0 (let) (let) (or (+ (sub A B))))",
        "(by tra 5 0 1 0 0 (let) (let) (or (+ (sub A C))))",
        "(by tra 2 0 5 0 0 (let) (let) (or (+ (sub C B))))",
        "(by tra 6 0 7 0 0 (let) (let) (or (+ (sub A B))))",
        "(by res 4 0 8 0 0 (let) (let) (or))",
    ];
    assert_eq!(rests(&lines), "rests 0 1 2 4");
}

/// A chain of steps, numbered from 4 on: the first from clause 0, each of the
/// others from the one before, and all from clause 2.
fn chain(count: usize) -> Vec<String> {
    let before = [0].into_iter().chain(4..).take(count);
    before
        .map(|number| format!("(by tra {number} 0 2 0 0 (let) (let) (or (+ (sub A B))))"))
        .collect()
}

#[test]
fn a_long_chain_reaches_its_first_clause() {
    let inputs = [
        "(in (or (+ (sub A B))))",
        "(in (or (+ (obj C))))",
        "(in (or (+ (sub B B))))",
        "(in (or (- (sub A B))))",
    ];
    for count in [1, 2, 100, 1_013] {
        let chain = chain(count);
        let last = format!("(by res 3 0 {} 0 0 (let) (let) (or))", 3 + count);
        let mut lines = inputs.to_vec();
        lines.extend(chain.iter().map(String::as_str));
        lines.push(&last);
        assert_eq!(rests(&lines), "rests 0 2 3", "{count}");
    }
}

#[test]
fn steps_that_are_not_used_bring_nothing() {
    let lines = [
        "(in (or (+ (sub A B))))",
        "(in (or (+ (sub B C))))",
        "(in (or (- (obj A))))",
        "(by tra 0 0 1 0 0 (let) (let) (or (+ (sub A C))))",
        "(by refl 0 0 0 0 0 (let A) (let) (or (+ (sub A A))))",
        "(by eli 2 0 0 0 0 (let) (let) (or))",
        "(by tra 0 0 1 0 0 (let) (let) (or (+ (sub A C))))",
    ];
    assert_eq!(rests(&lines), "rests 2");
}

#[test]
fn numbers_rise_past_nine() {
    let mut lines = vec!["(in (or (+ (obj C))))"; 9];
    lines.push("(in (or (+ (mem A B))))");
    lines.push("(in (or (- (mem A B))))");
    lines.push("(by res 10 0 9 0 0 (let) (let) (or))");
    assert_eq!(rests(&lines), "rests 9 10");
    let mut lines = vec!["(in (or (+ (obj C))))"; 1_018];
    lines.push("(in (or))");
    assert_eq!(rests(&lines), "rests 1018");
}

#[test]
fn only_a_refuted_answer_has_a_second_line() {
    assert_eq!(answer(&["(in (or (- (obj A))))"]), "open 1");
    assert_eq!(answer(&["(in (or))", "(in (or) )"]), "refused 2 7");
    let rests = Vec::new();
    let verdict = Verdict::Refuted { count: 1, first: 0 };
    let none = Answer { verdict, rests };
    assert_eq!(none.to_string(), "refuted 1 0\nrests");
}
