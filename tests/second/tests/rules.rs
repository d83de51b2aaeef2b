//! Each rule: accepted, and refused by each number it can be refused by.

mod common;

use common::{answer, cases};

#[test]
fn refl() {
    cases(
        &["(in (or (+ (obj X))))"],
        &[
            (0, "(by refl 0 0 0 0 0 (let A) (let) (or (+ (sub A A))))"),
            (0, "(by refl 0 0 0 0 0 (let Y) (let) (or (+ (sub Y Y))))"),
            (
                0,
                "(by refl 0 0 0 0 0 (let (f 4 X Z)) (let) (or (+ (sub (f 4 X Z) (f 4 X Z)))))",
            ),
            (8, "(by refl 1 0 0 0 0 (let A) (let) (or (+ (sub A A))))"),
            (
                8,
                "(by refl 65535 0 0 0 0 (let A) (let) (or (+ (sub A A))))",
            ),
            (8, "(by refl 0 1 0 0 0 (let A) (let) (or (+ (sub A A))))"),
            (
                8,
                "(by refl 0 0 65535 0 0 (let A) (let) (or (+ (sub A A))))",
            ),
            (8, "(by refl 0 0 0 1 0 (let A) (let) (or (+ (sub A A))))"),
            (8, "(by refl 0 0 0 0 1 (let A) (let) (or (+ (sub A A))))"),
            (8, "(by refl 0 0 0 0 0 (let) (let) (or (+ (sub A A))))"),
            (8, "(by refl 0 0 0 0 0 (let A A) (let) (or (+ (sub A A))))"),
            (8, "(by refl 0 0 0 0 0 (let A) (let A) (or (+ (sub A A))))"),
            (8, "(by refl 0 0 0 0 0 (let) (let A) (or (+ (sub A A))))"),
            (11, "(by refl 0 0 0 0 0 (let A) (let) (or (+ (sub A B))))"),
            (11, "(by refl 0 0 0 0 0 (let A) (let) (or (+ (sub B A))))"),
            (11, "(by refl 0 0 0 0 0 (let A) (let) (or (+ (sub B B))))"),
            (11, "(by refl 0 0 0 0 0 (let A) (let) (or (+ (eq A A))))"),
            (11, "(by refl 0 0 0 0 0 (let A) (let) (or (- (sub A A))))"),
            (11, "(by refl 0 0 0 0 0 (let A) (let) (or))"),
            (
                11,
                "(by refl 0 0 0 0 0 (let A) (let) (or (+ (sub A A)) (+ (obj X))))",
            ),
        ],
    );
}

#[test]
fn res() {
    let inputs = [
        "(in (or (+ (obj Y)) (- (mem X A)) (- (obj X))))",
        "(in (or (- (obj X)) (+ (mem B X)) (+ (eq X X))))",
    ];
    let claim = "(or (+ (obj C)) (- (obj B)) (- (obj A)) (+ (eq A A)))";
    let step = |start: &str| format!("(by res {start} {claim})");
    cases(
        &inputs,
        &[
            (0, &step("0 1 1 1 0 (let B C) (let A)")),
            (7, &step("2 1 1 1 0 (let B C) (let A)")),
            (7, &step("0 1 2 1 0 (let B C) (let A)")),
            (8, &step("0 1 1 1 1 (let B C) (let A)")),
            (8, &step("0 1 1 1 0 (let B) (let A)")),
            (8, &step("0 1 1 1 0 (let B C C) (let A)")),
            (8, &step("0 1 1 1 0 (let B C) (let)")),
            (8, &step("0 1 1 1 0 (let B C) (let A A)")),
            (9, &step("0 0 1 1 0 (let B C) (let A)")),
            (9, &step("0 3 1 1 0 (let B C) (let A)")),
            (9, &step("0 65535 1 1 0 (let B C) (let A)")),
            (9, &step("0 1 1 0 0 (let B C) (let A)")),
            (9, &step("0 1 1 3 0 (let B C) (let A)")),
            (9, &step("1 1 0 1 0 (let A) (let B C)")),
            (10, &step("0 1 1 1 0 (let C C) (let A)")),
            (10, &step("0 1 1 1 0 (let B C) (let B)")),
            (10, &step("0 1 1 2 0 (let B C) (let A)")),
            (10, &step("0 2 1 1 0 (let B C) (let A)")),
            (11, "(by res 0 1 1 1 0 (let B C) (let A) (or))"),
            // B's literals before A's, one missing, one more, one filled
            // otherwise, one not filled.
            (
                11,
                "(by res 0 1 1 1 0 (let B C) (let A) (or (- (obj A)) (+ (eq A A)) (+ (obj C)) (- (obj B))))",
            ),
            (
                11,
                "(by res 0 1 1 1 0 (let B C) (let A) (or (+ (obj C)) (- (obj B)) (- (obj A))))",
            ),
            (
                11,
                "(by res 0 1 1 1 0 (let B C) (let A) (or (+ (obj C)) (- (obj B)) (- (obj A)) (+ (eq A A)) (+ (obj C))))",
            ),
            (
                11,
                "(by res 0 1 1 1 0 (let B C) (let A) (or (+ (obj C)) (- (obj B)) (- (obj B)) (+ (eq A A))))",
            ),
            (
                11,
                "(by res 0 1 1 1 0 (let B C) (let A) (or (+ (obj Y)) (- (obj B)) (- (obj A)) (+ (eq A A))))",
            ),
        ],
    );
}

#[test]
fn res_covering() {
    for arrow in ["mv", "mi", "st", "mt"] {
        let negative = |result: &str| format!("(in (or (- ({arrow} A B (C) {result}))))");
        let positive = |result: &str| format!("(in (or (+ ({arrow} A B (C) {result}))))");
        let step = "(by res 0 0 1 0 0 (let) (let) (or))";
        for (number, first, second) in [
            (0, "none", "none"),
            (0, "none", "A"),
            (0, "none", "(f 4 A B)"),
            (0, "A", "A"),
            (10, "A", "B"),
            (10, "A", "none"),
        ] {
            cases(&[&negative(first), &positive(second)], &[(number, step)]);
        }
        // A shorter call, and another arrow.
        let short = format!("(in (or (+ ({arrow} A B () A))))");
        cases(&[&negative("none"), &short], &[(10, step)]);
        let other = if arrow == "mv" { "mi" } else { "mv" };
        let other = format!("(in (or (+ ({other} A B (C) A))))");
        cases(&[&negative("none"), &other], &[(10, step)]);
    }
    // An argument isn't taken for the result.
    cases(
        &[
            "(in (or (- (mv A B (C) none))))",
            "(in (or (+ (mv A B () C))))",
        ],
        &[(10, "(by res 0 0 1 0 0 (let) (let) (or))")],
    );
}

#[test]
fn res_with_itself() {
    // Each copy has its own list and loses its own literal.
    let input = "(in (or (- (mem X A)) (+ (mem Y A))))";
    cases(
        &[input],
        &[
            (
                0,
                "(by res 0 0 0 1 0 (let A B) (let C A) (or (+ (mem B A)) (- (mem C A))))",
            ),
            (
                10,
                "(by res 0 0 0 1 0 (let A B) (let A B) (or (+ (mem B A)) (- (mem A A))))",
            ),
            (
                9,
                "(by res 0 0 0 0 0 (let A B) (let C A) (or (+ (mem B A)) (+ (mem A A))))",
            ),
            (
                9,
                "(by res 0 1 0 0 0 (let A B) (let B A) (or (- (mem A A)) (+ (mem A A))))",
            ),
        ],
    );
}

#[test]
fn fac() {
    let inputs = ["(in (or (+ (mem X A)) (- (obj Y)) (+ (mem B Y)) (- (obj X))))"];
    let claim = "(or (+ (mem B A)) (- (obj A)) (- (obj B)))";
    let step = |start: &str| format!("(by fac {start} {claim})");
    cases(
        &inputs,
        &[
            (0, &step("0 0 0 2 0 (let B A) (let)")),
            (7, &step("1 0 0 2 0 (let B A) (let)")),
            (8, &step("0 0 1 2 0 (let B A) (let)")),
            (8, &step("0 0 0 2 1 (let B A) (let)")),
            (8, &step("0 0 0 2 0 (let B) (let)")),
            (8, &step("0 0 0 2 0 (let B A A) (let)")),
            (8, &step("0 0 0 2 0 (let B A) (let A)")),
            (9, &step("0 0 0 0 0 (let B A) (let)")),
            (9, &step("0 0 0 1 0 (let B A) (let)")),
            (9, &step("0 1 0 2 0 (let B A) (let)")),
            (9, &step("0 0 0 4 0 (let B A) (let)")),
            (9, &step("0 4 0 2 0 (let B A) (let)")),
            (9, &step("0 4 0 4 0 (let B A) (let)")),
            (10, &step("0 0 0 2 0 (let A A) (let)")),
            (10, &step("0 0 0 2 0 (let B B) (let)")),
            // The copy at 2 goes, so the order is the same either way, but
            // with I and J changed over the one at 0 goes.
            (11, &step("0 2 0 0 0 (let B A) (let)")),
            (
                0,
                "(by fac 0 2 0 0 0 (let B A) (let) (or (- (obj A)) (+ (mem B A)) (- (obj B))))",
            ),
            (11, "(by fac 0 0 0 2 0 (let B A) (let) (or (+ (mem B A))))"),
            (
                11,
                "(by fac 0 0 0 2 0 (let B A) (let) (or (+ (mem B Y)) (- (obj A)) (- (obj B))))",
            ),
            (10, "(by fac 0 1 0 3 0 (let B A) (let) (or))"),
            (
                0,
                "(by fac 0 1 0 3 0 (let C C) (let) (or (+ (mem C A)) (+ (mem B C)) (- (obj C))))",
            ),
        ],
    );
}

#[test]
fn fac_covering() {
    // Positive: literal J, the stronger one, goes.
    cases(
        &["(in (or (+ (st A B () X)) (+ (st A B () none))))"],
        &[
            (
                0,
                "(by fac 0 1 0 0 0 (let C) (let) (or (+ (st A B () none))))",
            ),
            (
                11,
                "(by fac 0 1 0 0 0 (let C) (let) (or (+ (st A B () C))))",
            ),
            (
                10,
                "(by fac 0 0 0 1 0 (let C) (let) (or (+ (st A B () C))))",
            ),
        ],
    );
    // Negative: literal I, the weaker one, goes.
    cases(
        &["(in (or (- (st A B () X)) (- (st A B () none))))"],
        &[
            (0, "(by fac 0 1 0 0 0 (let C) (let) (or (- (st A B () C))))"),
            (
                11,
                "(by fac 0 1 0 0 0 (let C) (let) (or (- (st A B () none))))",
            ),
            (
                10,
                "(by fac 0 0 0 1 0 (let C) (let) (or (- (st A B () none))))",
            ),
        ],
    );
    // Equal literals; the order tells which one went.
    cases(
        &["(in (or (- (obj A)) (+ (eq A B)) (- (obj A))))"],
        &[
            (
                0,
                "(by fac 0 0 0 2 0 (let) (let) (or (+ (eq A B)) (- (obj A))))",
            ),
            (
                11,
                "(by fac 0 0 0 2 0 (let) (let) (or (- (obj A)) (+ (eq A B))))",
            ),
            (
                0,
                "(by fac 0 2 0 0 0 (let) (let) (or (- (obj A)) (+ (eq A B))))",
            ),
        ],
    );
}

#[test]
fn par() {
    // Occurrences: 0 (f 4 X B), 1 X, 2 B, 3 Y, 4 C.
    let inputs = [
        "(in (or (+ (obj Y)) (- (mv (f 4 X B) Y (C) none))))",
        "(in (or (+ (eq X (f 3 X))) (+ (obj X))))",
    ];
    let claim = "(or (- (mv (f 4 A (f 3 B)) A (C) none)) (+ (obj A)) (+ (obj B)))";
    let step = |start: &str| format!("(by par {start} {claim})");
    cases(
        &inputs,
        &[
            (0, &step("0 1 1 0 2 (let A A) (let B)")),
            (7, &step("2 1 1 0 2 (let A A) (let B)")),
            (7, &step("0 1 2 0 2 (let A A) (let B)")),
            (8, &step("0 1 1 0 2 (let A) (let B)")),
            (8, &step("0 1 1 0 2 (let A A) (let)")),
            (9, &step("0 2 1 0 2 (let A A) (let B)")),
            (9, &step("0 1 1 1 2 (let A A) (let B)")),
            (9, &step("0 1 1 2 2 (let A A) (let B)")),
            (9, &step("0 1 1 0 5 (let A A) (let B)")),
            (9, &step("0 1 1 0 65535 (let A A) (let B)")),
            (10, &step("0 1 1 0 2 (let A A) (let A)")),
            (10, &step("0 1 1 0 1 (let A A) (let B)")),
            (11, &step("0 1 1 0 1 (let A A) (let A)")),
            (11, "(by par 0 1 1 0 2 (let A A) (let B) (or))"),
            // The other side replaced too, or not at all; the sign changed.
            (
                11,
                "(by par 0 1 1 0 2 (let A A) (let B) (or (- (mv (f 4 A B) A (C) none)) (+ (obj A)) (+ (obj B))))",
            ),
            (
                11,
                "(by par 0 1 1 0 2 (let A A) (let B) (or (+ (mv (f 4 A (f 3 B)) A (C) none)) (+ (obj A)) (+ (obj B))))",
            ),
            // The new literal comes first.
            (
                11,
                "(by par 0 1 1 0 2 (let A A) (let B) (or (+ (obj A)) (- (mv (f 4 A (f 3 B)) A (C) none)) (+ (obj B))))",
            ),
            // A whole term, a variable, an argument.
            (
                0,
                "(by par 0 1 1 0 0 (let A A) (let (f 4 A B)) (or (- (mv (f 3 (f 4 A B)) A (C) none)) (+ (obj A)) (+ (obj (f 4 A B)))))",
            ),
            (
                0,
                "(by par 0 1 1 0 3 (let A (f 3 X)) (let (f 3 X)) (or (- (mv (f 4 A B) (f 3 (f 3 X)) (C) none)) \
                 (+ (obj (f 3 X))) (+ (obj (f 3 X)))))",
            ),
            (
                0,
                "(by par 0 1 1 0 4 (let A A) (let C) (or (- (mv (f 4 A B) A ((f 3 C)) none)) (+ (obj A)) (+ (obj C))))",
            ),
            // A literal of either sign.
            (
                0,
                "(by par 0 0 1 0 0 (let A B) (let B) (or (+ (obj (f 3 B))) (- (mv (f 4 A B) B (C) none)) (+ (obj B))))",
            ),
        ],
    );
}

#[test]
fn par_counts_before_filling() {
    // Occurrence 1 is B both times; after filling it would be 2.
    let inputs = ["(in (or (+ (mem X B))))", "(in (or (+ (eq B C))))"];
    cases(
        &inputs,
        &[
            (
                0,
                "(by par 0 0 1 0 1 (let (f 3 B)) (let) (or (+ (mem (f 3 B) C))))",
            ),
            (
                9,
                "(by par 0 0 1 0 2 (let (f 3 B)) (let) (or (+ (mem (f 3 B) C))))",
            ),
            // The B inside the list can't be reached.
            (
                11,
                "(by par 0 0 1 0 1 (let (f 3 B)) (let) (or (+ (mem (f 3 C) B))))",
            ),
            (
                10,
                "(by par 0 0 1 0 0 (let (f 3 B)) (let) (or (+ (mem (f 3 C) B))))",
            ),
        ],
    );
    // An equality can be its own subject, and the result term is counted.
    cases(
        &["(in (or (+ (eq A B)) (+ (sv A A (A) A))))"],
        &[
            (0, "(by par 0 0 0 0 0 (let) (let) (or (+ (eq B B)) (+ (sv A A (A) A)) (+ (sv A A (A) A))))"),
            (0, "(by par 0 1 0 0 3 (let) (let) (or (+ (sv A A (A) B)) (+ (eq A B)) (+ (sv A A (A) A))))"),
            (9, "(by par 0 1 0 0 4 (let) (let) (or (+ (sv A A (A) B)) (+ (eq A B)) (+ (sv A A (A) A))))"),
        ],
    );
}

#[test]
fn acy() {
    let inputs = [
        "(in (or (+ (sub X B)) (- (obj X))))",
        "(in (or (+ (obj A)) (+ (sub B X))))",
        "(in (or (- (sub B A)) (+ (eq B A))))",
    ];
    let claim = "(or (+ (eq A B)) (- (obj A)) (+ (obj A)))";
    let step = |start: &str| format!("(by acy {start} {claim})");
    cases(
        &inputs,
        &[
            (0, &step("0 0 1 1 0 (let A) (let A)")),
            (7, &step("3 0 1 1 0 (let A) (let A)")),
            (7, &step("0 0 3 1 0 (let A) (let A)")),
            (8, &step("0 0 1 1 1 (let A) (let A)")),
            (8, &step("0 0 1 1 0 (let) (let A)")),
            (8, &step("0 0 1 1 0 (let A) (let)")),
            (9, &step("0 1 1 1 0 (let A) (let A)")),
            (9, &step("0 2 1 1 0 (let A) (let A)")),
            (9, &step("0 0 1 0 0 (let A) (let A)")),
            (9, &step("0 0 1 2 0 (let A) (let A)")),
            (9, &step("0 0 2 0 0 (let A) (let)")),
            (9, &step("0 0 2 1 0 (let A) (let)")),
            (9, &step("2 1 0 0 0 (let) (let A)")),
            (10, &step("0 0 1 1 0 (let C) (let A)")),
            (10, &step("0 0 1 1 0 (let A) (let C)")),
            (10, &step("0 0 0 0 0 (let A) (let A)")),
            (
                11,
                "(by acy 0 0 1 1 0 (let A) (let A) (or (+ (eq B A)) (- (obj A)) (+ (obj A))))",
            ),
            (
                11,
                "(by acy 0 0 1 1 0 (let A) (let A) (or (- (eq A B)) (- (obj A)) (+ (obj A))))",
            ),
            (
                11,
                "(by acy 0 0 1 1 0 (let A) (let A) (or (+ (sub A B)) (- (obj A)) (+ (obj A))))",
            ),
            (
                11,
                "(by acy 0 0 1 1 0 (let A) (let A) (or (- (obj A)) (+ (obj A)) (+ (eq A B))))",
            ),
            (
                11,
                "(by acy 0 0 1 1 0 (let A) (let A) (or (+ (eq A B)) (+ (obj A)) (- (obj A))))",
            ),
        ],
    );
    // A clause with itself, both times at the same position.
    cases(
        &["(in (or (+ (sub X Y)) (+ (mem X Y))))"],
        &[(
            0,
            "(by acy 0 0 0 0 0 (let A B) (let B A) (or (+ (eq A B)) (+ (mem A B)) (+ (mem B A))))",
        )],
    );
}

#[test]
fn tra_and_inc() {
    for (rule, word) in [("tra", "sub"), ("inc", "mem")] {
        let inputs = [
            &format!("(in (or (+ (obj C)) (+ ({word} A X)) (- ({word} A X))))"),
            "(in (or (+ (sub B Y)) (- (sub B Y)) (+ (eq B Y))))",
        ];
        let rest = "(+ (obj C)) (- (W A B)) (- (sub B C)) (+ (eq B C))".replace('W', word);
        let step = |start: &str| format!("(by {rule} {start} (or (+ ({word} A C)) {rest}))");
        cases(
            &inputs,
            &[
                (0, &step("0 1 1 0 0 (let B) (let A C)")),
                (7, &step("2 1 1 0 0 (let B) (let A C)")),
                (7, &step("0 1 2 0 0 (let B) (let A C)")),
                (8, &step("0 1 1 0 1 (let B) (let A C)")),
                (8, &step("0 1 1 0 0 (let) (let A C)")),
                (8, &step("0 1 1 0 0 (let B) (let C)")),
                (9, &step("0 0 1 0 0 (let B) (let A C)")),
                (9, &step("0 2 1 0 0 (let B) (let A C)")),
                (9, &step("0 3 1 0 0 (let B) (let A C)")),
                (9, &step("0 1 1 1 0 (let B) (let A C)")),
                (9, &step("0 1 1 2 0 (let B) (let A C)")),
                (9, &step("0 1 1 3 0 (let B) (let A C)")),
                (10, &step("0 1 1 0 0 (let A) (let A C)")),
                (11, &step("0 1 1 0 0 (let B) (let A A)")),
            ],
        );
        let claim = |new: &str| {
            let new = new.replace('W', word);
            format!("(by {rule} 0 1 1 0 0 (let B) (let A C) (or {new}))")
        };
        cases(
            &inputs,
            &[
                (0, &claim(&format!("(+ (W A C)) {rest}"))),
                (11, &claim(&format!("(+ (W C A)) {rest}"))),
                (11, &claim(&format!("(+ (W A B)) {rest}"))),
                (11, &claim(&format!("(- (W A C)) {rest}"))),
                (11, &claim(&format!("(+ (eq A C)) {rest}"))),
                (11, &claim(&rest)),
                (11, &claim("(+ (W A C))")),
            ],
        );
    }
    // inc takes mem first and sub second, tra sub both times.
    let inputs = ["(in (or (+ (mem A B))))", "(in (or (+ (sub B C))))"];
    cases(
        &inputs,
        &[
            (0, "(by inc 0 0 1 0 0 (let) (let) (or (+ (mem A C))))"),
            (9, "(by inc 1 0 0 0 0 (let) (let) (or (+ (mem A C))))"),
            (9, "(by tra 0 0 1 0 0 (let) (let) (or (+ (sub A C))))"),
            (9, "(by inc 1 0 1 0 0 (let) (let) (or (+ (sub A C))))"),
            (9, "(by inc 0 0 0 0 0 (let) (let) (or (+ (sub A C))))"),
        ],
    );
}

/// The cases that inh, inp and out have in common. The signature is
/// `(ARROW A B (A C) A)`, filled; `good` and `turned` are the link as the rule
/// wants it and turned round, `new` the new atom.
fn signature_rule(rule: &str, k: usize, good: &str, turned: &str, new: &str) {
    for arrow in ["st", "mt"] {
        let inputs = [
            &format!("(in (or (- (obj X)) (+ ({arrow} X B (X C) X))))"),
            &format!("(in (or (+ {good}) (+ {turned}) (- {good}) (+ (eq A B))))"),
            &format!("(in (or (- ({arrow} A B (A C) A)) (- ({arrow} A B (A C) none))))"),
            "(in (or (+ (mv A B (A C) A)) (+ (sv A B (A C) A)) (+ (obj A))))",
        ];
        let new = new.replace("ARROW", arrow);
        let rest = format!("(- (obj A)) (+ {turned}) (- {good}) (+ (eq A B))");
        let step = |start: &str| format!("(by {rule} {start} (or (+ {new}) {rest}))");
        let other_k = 1 - k.min(1);
        let unused_k = if rule == "inp" { 9 } else { 8 };
        cases(
            &inputs,
            &[
                (0, &step(&format!("0 1 1 0 {k} (let A) (let)"))),
                (7, &step(&format!("4 1 1 0 {k} (let A) (let)"))),
                (7, &step(&format!("0 1 4 0 {k} (let A) (let)"))),
                (unused_k, &step("0 1 1 0 2 (let A) (let)")),
                (8, &step(&format!("0 1 1 0 {k} (let) (let)"))),
                (8, &step(&format!("0 1 1 0 {k} (let A) (let A)"))),
                (9, &step(&format!("0 0 1 0 {k} (let A) (let)"))),
                (9, &step(&format!("0 2 1 0 {k} (let A) (let)"))),
                (9, &step(&format!("0 1 1 2 {k} (let A) (let)"))),
                (9, &step(&format!("0 1 1 3 {k} (let A) (let)"))),
                (9, &step(&format!("0 1 1 4 {k} (let A) (let)"))),
                // Negative literals, other arrows.
                (9, &step(&format!("2 0 1 0 {k} (let) (let)"))),
                (9, &step(&format!("2 1 1 0 {k} (let) (let)"))),
                (9, &step(&format!("3 0 1 0 {k} (let) (let)"))),
                (9, &step(&format!("3 1 1 0 {k} (let) (let)"))),
                (9, &step(&format!("3 2 1 0 {k} (let) (let)"))),
                (10, &step(&format!("0 1 1 1 {k} (let A) (let)"))),
                (10, &step(&format!("0 1 1 0 {k} (let B) (let)"))),
            ],
        );
        if rule == "inp" {
            cases(
                &inputs,
                &[(10, &step(&format!("0 1 1 0 {other_k} (let A) (let)")))],
            );
        }
        let claim =
            |literals: &str| format!("(by {rule} 0 1 1 0 {k} (let A) (let) (or {literals}))");
        cases(
            &inputs,
            &[
                (0, &claim(&format!("(+ {new}) {rest}"))),
                (11, &claim(&format!("(- {new}) {rest}"))),
                (11, &claim(&format!("(+ ({arrow} A B (A C) A)) {rest}"))),
                (
                    11,
                    &claim(&format!("(+ ({arrow} D B (D C) D)) {rest}").replace('D', "(f 2)")),
                ),
                (11, &claim(&rest)),
                (11, &claim(&format!("{rest} (+ {new})"))),
                (11, &claim(&format!("(+ {new})"))),
            ],
        );
        let other = if arrow == "st" { "mt" } else { "st" };
        let changed = new.replace(arrow, other);
        cases(&inputs, &[(11, &claim(&format!("(+ {changed}) {rest}")))]);
    }
}

#[test]
fn inh() {
    signature_rule("inh", 0, "(sub B A)", "(sub A B)", "(ARROW B B (A C) A)");
}

#[test]
fn inp() {
    signature_rule("inp", 0, "(sub B A)", "(sub A B)", "(ARROW A B (B C) A)");
    // The other argument.
    let inputs = ["(in (or (+ (st A B (A C) A))))", "(in (or (+ (sub X C))))"];
    cases(
        &inputs,
        &[
            (
                0,
                "(by inp 0 0 1 0 1 (let) (let B) (or (+ (st A B (A B) A))))",
            ),
            (
                10,
                "(by inp 0 0 1 0 0 (let) (let B) (or (+ (st A B (B C) A))))",
            ),
            (
                9,
                "(by inp 0 0 1 0 2 (let) (let B) (or (+ (st A B (A C) B))))",
            ),
            (
                9,
                "(by inp 0 0 1 0 65535 (let) (let B) (or (+ (st A B (A C) B))))",
            ),
            (
                11,
                "(by inp 0 0 1 0 1 (let) (let B) (or (+ (st A B (B C) A))))",
            ),
        ],
    );
    // No argument at all.
    cases(
        &["(in (or (+ (st A B () A))))", "(in (or (+ (sub X A))))"],
        &[(9, "(by inp 0 0 1 0 0 (let) (let B) (or (+ (st A B () A))))")],
    );
}

#[test]
fn out() {
    signature_rule("out", 0, "(sub A B)", "(sub B A)", "(ARROW A B (A C) B)");
}

/// Links for signatures with none, as clauses 0 to 3.
const LINKS: [&str; 4] = [
    "(in (or (+ (sub B A))))",
    "(in (or (+ (sub A B))))",
    "(in (or (+ (sub B C))))",
    "(in (or (+ (sub C B))))",
];

/// Steps on the literal `(WORD A B (A C) RESULT)`, filled, with this sign, each
/// by a link, given as B J K, to a new atom, in which ARROW is the word.
fn bare(rule: &str, sign: char, word: &str, result: &str, expected: &[(u8, &str, &str)]) {
    let signature = format!("(in (or (- (obj X)) ({sign} ({word} X B (X C) {result}))))");
    let inputs = [&LINKS[..], &[&signature]].concat();
    for (number, link, new) in expected {
        let new = new.replace("ARROW", word);
        let step = format!("(by {rule} 4 1 {link} (let A) (let) (or (+ {new}) (- (obj A))))");
        cases(&inputs, &[(*number, &step)]);
    }
}

#[test]
fn inh_and_inp_take_none_and_keep_it() {
    for word in ["st", "mt"] {
        bare(
            "inh",
            '+',
            word,
            "none",
            &[
                (0, "0 0 0", "(ARROW B B (A C) none)"),
                (10, "1 0 0", "(ARROW B B (A C) none)"),
                (10, "2 0 0", "(ARROW B B (A C) none)"),
                (8, "0 0 1", "(ARROW B B (A C) none)"),
                (9, "0 1 0", "(ARROW B B (A C) none)"),
                (11, "0 0 0", "(ARROW A B (A C) none)"),
                (11, "0 0 0", "(ARROW B B (B C) none)"),
                (11, "0 0 0", "(ARROW B B (A C) A)"),
                (11, "0 0 0", "(ARROW B B (A) C)"),
            ],
        );
        bare(
            "inp",
            '+',
            word,
            "none",
            &[
                (0, "0 0 0", "(ARROW A B (B C) none)"),
                (0, "2 0 1", "(ARROW A B (A B) none)"),
                (10, "1 0 0", "(ARROW A B (B C) none)"),
                (10, "3 0 1", "(ARROW A B (A B) none)"),
                (10, "2 0 0", "(ARROW A B (B C) none)"),
                (10, "0 0 1", "(ARROW A B (A B) none)"),
                (9, "2 0 2", "(ARROW A B (A B) none)"),
                (9, "2 0 65535", "(ARROW A B (A B) none)"),
                (11, "0 0 0", "(ARROW B B (A C) none)"),
                (11, "0 0 0", "(ARROW A B (B C) A)"),
                (11, "2 0 1", "(ARROW A B (A B) A)"),
                (11, "2 0 1", "(ARROW A B (A) B)"),
            ],
        );
        // A term result isn't dropped for none, though it gives none (H8).
        let dropped = [(11, "0 0 0", "(ARROW B B (A C) none)")];
        bare("inh", '+', word, "A", &dropped);
        let dropped = [(11, "2 0 1", "(ARROW A B (A B) none)")];
        bare("inp", '+', word, "A", &dropped);
    }
    // No argument at all.
    for word in ["st", "mt"] {
        let signature = format!("(in (or (+ ({word} A B () none))))");
        let step = |rule: &str, new: &str| {
            format!("(by {rule} 0 0 1 0 0 (let) (let B) (or (+ ({word} {new} B () none))))")
        };
        cases(
            &[&signature, "(in (or (+ (sub X A))))"],
            &[(0, &step("inh", "B")), (9, &step("inp", "A"))],
        );
    }
}

#[test]
fn out_needs_a_term() {
    for word in ["st", "mt"] {
        // By no link, and whatever the claim makes of none.
        for link in ["0 0 0", "1 0 0", "2 0 0", "3 0 0"] {
            for new in ["(A C) none", "(A C) A", "(A C) B", "(A) B", "(A B) none"] {
                let new = format!("(ARROW A B {new})");
                bare("out", '+', word, "none", &[(9, link, &new)]);
            }
        }
        bare(
            "out",
            '+',
            word,
            "A",
            &[
                (0, "1 0 0", "(ARROW A B (A C) B)"),
                (11, "1 0 0", "(ARROW A B (A C) none)"),
            ],
        );
    }
}

#[test]
fn only_positive_signatures_are_passed() {
    let rows = [
        ("inh", "0 0 0", "(ARROW B B (A C) RESULT)"),
        ("inp", "0 0 0", "(ARROW A B (B C) RESULT)"),
        ("inp", "2 0 1", "(ARROW A B (A B) RESULT)"),
        ("out", "1 0 0", "(ARROW A B (A C) RESULT)"),
    ];
    for (rule, link, new) in rows {
        for result in ["none", "A"] {
            let new = new.replace("RESULT", result);
            for word in ["mv", "mi"] {
                bare(rule, '+', word, result, &[(9, link, &new)]);
            }
            for word in ["mv", "mi", "st", "mt"] {
                bare(rule, '-', word, result, &[(9, link, &new)]);
            }
        }
    }
}

#[test]
fn sca() {
    for arrow in ["sv", "si"] {
        let other = if arrow == "sv" { "si" } else { "sv" };
        let inputs: [&str; 3] = [
            &format!("(in (or (+ (obj X)) (+ ({arrow} A X (X C) (f 3 X))) (- ({arrow} A X (X C) A))))"),
            &format!("(in (or (+ ({arrow} A B (Y C) Y)) (- (obj Y)) (+ (mv A B (B C) B))))"),
            &format!("(in (or (+ ({other} A B (B C) B)) (+ ({arrow} A B (B) C)) (+ ({arrow} A B (B C C) B)) (+ ({arrow} A B () B))))"),
        ];
        let claim = format!(
            "(or (+ (eq (f 3 B) B)) (+ (obj B)) (- ({arrow} A B (B C) A)) (- (obj B)) (+ (mv A B (B C) B)))"
        );
        let step = |start: &str| format!("(by sca {start} {claim})");
        cases(
            &inputs,
            &[
                (0, &step("0 1 1 0 0 (let B) (let C B)")),
                (7, &step("3 1 1 0 0 (let B) (let C B)")),
                (7, &step("0 1 3 0 0 (let B) (let C B)")),
                (8, &step("0 1 1 0 1 (let B) (let C B)")),
                (8, &step("0 1 1 0 0 (let) (let C B)")),
                (8, &step("0 1 1 0 0 (let B) (let B)")),
                (9, &step("0 0 1 0 0 (let B) (let C B)")),
                (9, &step("0 2 1 0 0 (let B) (let C B)")),
                (9, &step("0 3 1 0 0 (let B) (let C B)")),
                (9, &step("0 1 1 1 0 (let B) (let C B)")),
                (9, &step("0 1 1 2 0 (let B) (let C B)")),
                (9, &step("0 1 1 3 0 (let B) (let C B)")),
                (10, &step("0 1 1 0 0 (let C) (let C B)")),
                (10, &step("0 1 1 0 0 (let B) (let C C)")),
                (10, &step("0 1 2 0 0 (let B) (let)")),
                (10, &step("0 1 2 1 0 (let B) (let)")),
                (10, &step("0 1 2 2 0 (let B) (let)")),
                (10, &step("0 1 2 3 0 (let B) (let)")),
            ],
        );
        let turned = claim.replace("(eq (f 3 B) B)", "(eq B (f 3 B))");
        let negative = claim.replace("(+ (eq", "(- (eq");
        let start = "(by sca 0 1 1 0 0 (let B) (let C B)";
        cases(
            &inputs,
            &[
                (11, &format!("{start} {turned})")),
                (11, &format!("{start} {negative})")),
                (11, &format!("{start} (or))")),
            ],
        );
    }
}

#[test]
fn eli() {
    let inputs = ["(in (or (+ (mem X Y)) (- (obj (f 3 X))) (+ (obj X)) (- (mem X X))))"];
    let claim = "(or (+ (mem A B)) (+ (obj A)) (- (mem A A)))";
    let step = |start: &str| format!("(by eli {start} {claim})");
    cases(
        &inputs,
        &[
            (0, &step("0 1 0 0 0 (let A B) (let)")),
            (7, &step("1 1 0 0 0 (let A B) (let)")),
            (8, &step("0 1 1 0 0 (let A B) (let)")),
            (8, &step("0 1 0 1 0 (let A B) (let)")),
            (8, &step("0 1 0 0 1 (let A B) (let)")),
            (8, &step("0 1 0 0 0 (let A) (let)")),
            (8, &step("0 1 0 0 0 (let A B C) (let)")),
            (8, &step("0 1 0 0 0 (let A B) (let A)")),
            (9, &step("0 0 0 0 0 (let A B) (let)")),
            (9, &step("0 2 0 0 0 (let A B) (let)")),
            (9, &step("0 3 0 0 0 (let A B) (let)")),
            (9, &step("0 4 0 0 0 (let A B) (let)")),
            (11, &step("0 1 0 0 0 (let B B) (let)")),
            (
                11,
                "(by eli 0 1 0 0 0 (let A B) (let) (or (+ (mem A B)) (- (mem A A)) (+ (obj A))))",
            ),
            (11, "(by eli 0 1 0 0 0 (let A B) (let) (or))"),
        ],
    );
}

#[test]
fn missing_variables_take_any_term() {
    // The parent has variables 0 and 2 only; its list still has three terms.
    let inputs = ["(in (or (- (obj X)) (+ (obj Z))))"];
    cases(
        &inputs,
        &[
            (0, "(by eli 0 0 0 0 0 (let A B C) (let) (or (+ (obj C))))"),
            (
                0,
                "(by eli 0 0 0 0 0 (let A (f 4 X (v 31)) C) (let) (or (+ (obj C))))",
            ),
            (8, "(by eli 0 0 0 0 0 (let A C) (let) (or (+ (obj C))))"),
            (8, "(by eli 0 0 0 0 0 (let A B C C) (let) (or (+ (obj C))))"),
        ],
    );
}

#[test]
fn filled_terms_may_be_deeper_than_written_ones() {
    let tower = |bottom: &str| "(f 3 ".repeat(15) + bottom + &")".repeat(15);
    let inputs = [
        format!("(in (or (- (obj {})) (+ (obj X))))", tower("X")),
        format!("(in (or (+ (obj {}))))", tower("X")),
    ];
    let inputs: Vec<&str> = inputs.iter().map(String::as_str).collect();
    let step = |first: &str, second: &str| {
        format!("(by res 0 0 1 0 0 (let {first}) (let {second}) (or (+ (obj {first}))))")
    };
    cases(
        &inputs,
        &[
            (0, &step(&tower("A"), &tower("A"))),
            (10, &step(&tower("A"), &tower("B"))),
            (0, &step(&tower("X"), &tower("X"))),
            (10, &step(&tower("X"), &tower("Y"))),
        ],
    );
}

#[test]
fn claims_serve_as_parents() {
    assert_eq!(
        answer(&[
            "(in (or (+ (sub A B))))",
            "(in (or (+ (sub B C))))",
            "(in (or (- (sub A C))))",
            "(by tra 0 0 1 0 0 (let) (let) (or (+ (sub A C))))",
            "(by res 2 0 3 0 0 (let) (let) (or))",
            "(by res 2 0 3 0 0 (let) (let) (or))",
        ]),
        "refuted 6 4\nrests 0 1 2"
    );
}

/// Asserts the number by which res refuses the first atom, negative, against
/// the second, and by which fac refuses them, of either sign.
fn fits(first: &str, second: &str, number: u8) {
    let units = [
        &format!("(in (or (- {first})))")[..],
        &format!("(in (or (+ {second})))"),
        &format!("(in (or (+ {first}) (+ {second})))"),
        &format!("(in (or (- {first}) (- {second})))"),
    ];
    cases(
        &units,
        &[
            (number, "(by res 0 0 1 0 0 (let) (let) (or))"),
            (
                number,
                &format!("(by fac 2 0 0 1 0 (let) (let) (or (+ {first})))"),
            ),
            (
                number,
                &format!("(by fac 3 0 0 1 0 (let) (let) (or (- {second})))"),
            ),
        ],
    );
}

/// The molecule of object A and these parts, or the arrow atom of one part.
fn of_a(parts: &[&str]) -> String {
    match parts {
        [part] => part.replacen(' ', " A ", 1),
        _ => format!("(mol A {})", parts.join(" ")),
    }
}

#[test]
fn molecules_fit_into_molecules() {
    let (p, q, r) = ("(sv B () C)", "(mv B (C) A)", "(st C (A B) none)");
    let q_none = "(mv B (C) none)";
    let rows: &[(&[&str], &[&str], u8)] = &[
        (&[p, q], &[p, q], 0),
        // The part that covers stands at another place, or covers two.
        (&[p, q], &[q, p], 0),
        (&[p, q], &[r, q, p], 0),
        (&[p, p], &[q, p], 0),
        (&[q, p, q, p], &[p, q], 0),
        (&[p, q], &[p, r], 10),
        (&[q, p], &[p, r], 10),
        (&[p, q, r], &[p, q], 10),
        (&[r, p, q], &[p, q], 10),
        (&[p, q], &[p, p], 10),
        // A term covers none, wherever it is, but none covers no term.
        (&[p, q_none], &[p, q], 0),
        (&[q_none, p], &[p, q], 0),
        (&[q, q_none], &[p, q], 0),
        (&[p, q], &[p, q_none], 10),
        (&[q, p], &[p, q_none], 10),
        (&[p, q], &[q_none, p, q], 0),
        (&[q_none, p], &[q_none, p], 0),
        // Arrow atoms as molecules of one part.
        (&[p], &[p, q], 0),
        (&[q], &[p, q], 0),
        (&[q_none], &[p, q], 0),
        (&[q], &[p, q_none], 10),
        (&[r], &[p, q], 10),
        (&[p, p], &[p], 0),
        (&[p, q], &[p], 10),
        (&[p, q], &[q], 10),
        (&[q_none, q], &[q], 0),
        (&[q, q_none], &[q_none], 10),
        (&[p], &[p], 0),
        (&[p], &[q], 10),
    ];
    for (first, second, number) in rows {
        let (first, second) = (of_a(first), of_a(second));
        fits(&first, &second, *number);
        // The objects differ.
        fits(&first.replacen(" A ", " B ", 1), &second, 10);
        fits(&first, &second.replacen(" A ", " B ", 1), 10);
    }
}

#[test]
fn a_part_that_differs_in_one_place_covers_nothing() {
    let part = "(mt A (B C) A)";
    for other in [
        "(st A (B C) A)",
        "(mv A (B C) A)",
        "(mi A (B C) A)",
        "(sv A (B C) A)",
        "(mt B (B C) A)",
        "(mt A (C C) A)",
        "(mt A (B B) A)",
        "(mt A (C B) A)",
        "(mt A (B) A)",
        "(mt A (B C A) A)",
        "(mt A (B C A) none)",
        "(mt A (B) C)",
        "(mt A () A)",
        "(mt A (B C) B)",
    ] {
        for (first, second) in [(part, other), (other, part)] {
            fits(
                &of_a(&["(sv A () A)", first]),
                &of_a(&["(sv A () A)", second]),
                10,
            );
            fits(&of_a(&[first]), &of_a(&["(sv A () A)", second]), 10);
            fits(&of_a(&["(sv A () A)", first]), &of_a(&[second]), 10);
        }
    }
    // Each part of X has one of Y: halves of two don't cover it.
    fits(
        &of_a(&["(sv A () A)", "(mv A (B) C)"]),
        &of_a(&["(sv A () A)", "(mv A (B) A)", "(mv A (C) C)"]),
        10,
    );
    // A bracket's end counts: the same terms, cut otherwise.
    fits(
        &of_a(&["(mv A (B) C)", "(mv A () none)"]),
        &of_a(&["(mv A () none)", "(mv A () B)", "(mv C () none)"]),
        10,
    );
}

#[test]
fn a_molecule_fits_into_no_other_atom() {
    let molecule = "(mol A (sv B () C) (mv B (C) none))";
    for other in ["(eq A B)", "(mem A B)", "(sub A B)", "(obj A)"] {
        fits(molecule, other, 10);
        fits(other, molecule, 10);
    }
    // Only the atoms are compared; the signs are the rule's shape.
    cases(
        &[&format!("(in (or (+ {molecule}) (- {molecule})))")],
        &[
            (
                0,
                &format!("(by res 0 1 0 0 0 (let) (let) (or (+ {molecule}) (- {molecule})))"),
            ),
            (9, "(by res 0 0 0 0 0 (let) (let) (or))"),
            (9, "(by res 0 1 0 1 0 (let) (let) (or))"),
            (9, "(by res 0 0 0 1 0 (let) (let) (or))"),
            (9, "(by fac 0 0 0 1 0 (let) (let) (or))"),
            (9, "(by fac 0 1 0 0 0 (let) (let) (or))"),
            (9, "(by fac 0 0 0 0 0 (let) (let) (or))"),
        ],
    );
}

#[test]
fn sixteen_parts_fit_into_one_another() {
    let part = |n: usize| {
        format!(
            "(mv A ({}) {})",
            "B ".repeat(n % 8) + "C",
            ["A", "C"][n / 8]
        )
    };
    let all: Vec<String> = (0..16).map(part).collect();
    let all: Vec<&str> = all.iter().map(String::as_str).collect();
    let turned: Vec<&str> = all.iter().rev().copied().collect();
    fits(&of_a(&all), &of_a(&turned), 0);
    fits(&of_a(&turned), &of_a(&all), 0);
    for part in &all {
        let many = [*part; 16];
        fits(&of_a(&[part]), &of_a(&turned), 0);
        fits(&of_a(&many), &of_a(&turned), 0);
        fits(&of_a(&many), &of_a(&[part]), 0);
        fits(&of_a(&all), &of_a(&many), 10);
        let others: Vec<&str> = all.iter().filter(|other| *other != part).copied().collect();
        fits(&of_a(&all), &of_a(&others), 10);
        fits(&of_a(&others), &of_a(&all), 0);
    }
}

#[test]
fn molecules_fit_once_filled() {
    let inputs = [
        "(in (or (- (mol X (sv Y () Z) (mv B (X) none))) (+ (obj Y))))",
        "(in (or (+ (mol (f 3 X) (mv B (Y) (f 3 Y)) (mv A () A) (sv A () X)))))",
        "(in (or (- (mol A (sv B () C) (mv B (C) none)))))",
        "(in (or (+ (mol X (mv Y (Z) X) (sv B () C)))))",
    ];
    let f = |terms: &str| terms.replace('T', "(f 3 A)");
    cases(
        &inputs,
        &[
            (
                0,
                &f("(by res 0 0 1 0 0 (let T A A) (let A T) (or (+ (obj A))))"),
            ),
            (
                10,
                &f("(by res 0 0 1 0 0 (let A A A) (let A T) (or (+ (obj A))))"),
            ),
            (
                10,
                &f("(by res 0 0 1 0 0 (let T B A) (let A T) (or (+ (obj B))))"),
            ),
            (
                10,
                &f("(by res 0 0 1 0 0 (let T A B) (let A T) (or (+ (obj A))))"),
            ),
            (
                10,
                &f("(by res 0 0 1 0 0 (let T A A) (let B T) (or (+ (obj A))))"),
            ),
            (
                10,
                &f("(by res 0 0 1 0 0 (let T A A) (let A A) (or (+ (obj A))))"),
            ),
            (
                11,
                &f("(by res 0 0 1 0 0 (let T A A) (let A T) (or (+ (obj Y))))"),
            ),
            // Variables on one side only.
            (0, "(by res 2 0 3 0 0 (let) (let A B C) (or))"),
            (10, "(by res 2 0 3 0 0 (let) (let B B C) (or))"),
            (10, "(by res 2 0 3 0 0 (let) (let A C C) (or))"),
            (10, "(by res 2 0 3 0 0 (let) (let A B B) (or))"),
        ],
    );
    // fac has one list for both; which of the two goes is by the sign alone.
    let (one, two) = (
        "(mol X (mv B (Y) none) (sv X () Y))",
        "(mol A (sv A () X) (mv B (A) C))",
    );
    let filled = "(mol A (mv B (A) none) (sv A () A))";
    let two_filled = "(mol A (sv A () A) (mv B (A) C))";
    cases(
        &[
            &format!("(in (or (+ {one}) (- (obj Y)) (+ {two})))"),
            &format!("(in (or (- {one}) (+ (obj Y)) (- {two})))"),
        ],
        &[
            (
                0,
                &format!("(by fac 0 0 0 2 0 (let A A) (let) (or (+ {filled}) (- (obj A))))"),
            ),
            (
                11,
                &format!("(by fac 0 0 0 2 0 (let A A) (let) (or (- (obj A)) (+ {two_filled})))"),
            ),
            (
                10,
                &format!("(by fac 0 2 0 0 0 (let A A) (let) (or (- (obj A)) (+ {two_filled})))"),
            ),
            (
                10,
                &format!("(by fac 0 0 0 2 0 (let A B) (let) (or (+ {filled}) (- (obj B))))"),
            ),
            (
                0,
                &format!("(by fac 1 0 0 2 0 (let A A) (let) (or (+ (obj A)) (- {two_filled})))"),
            ),
            (
                11,
                &format!("(by fac 1 0 0 2 0 (let A A) (let) (or (- {filled}) (+ (obj A))))"),
            ),
            (
                10,
                &format!("(by fac 1 2 0 0 0 (let A A) (let) (or (- {filled}) (+ (obj A))))"),
            ),
        ],
    );
}

#[test]
fn par_counts_through_a_molecule() {
    // 0 (f 3 X), 1 X, 2 B, 3 A, 4 (f 4 C X), 5 C, 6 X, 7 Y, 8 A, 9 A, 10 X
    let molecule = "(mol (f 3 X) (mv B (A (f 4 C X)) none) (si Y () A) (st A (X) none))";
    let equality = "(in (or (+ (eq X (f 3 C))) (+ (obj X))))";
    let filled = |new: &str| new.replace('X', "B").replace('Y', "A");
    let terms = [
        "(f 3 B)",
        "B",
        "B",
        "A",
        "(f 4 C B)",
        "C",
        "B",
        "A",
        "A",
        "A",
        "B",
    ];
    let news = [
        "(mol D (mv B (A (f 4 C X)) none) (si Y () A) (st A (X) none))",
        "(mol (f 3 D) (mv B (A (f 4 C X)) none) (si Y () A) (st A (X) none))",
        "(mol (f 3 X) (mv D (A (f 4 C X)) none) (si Y () A) (st A (X) none))",
        "(mol (f 3 X) (mv B (D (f 4 C X)) none) (si Y () A) (st A (X) none))",
        "(mol (f 3 X) (mv B (A D) none) (si Y () A) (st A (X) none))",
        "(mol (f 3 X) (mv B (A (f 4 D X)) none) (si Y () A) (st A (X) none))",
        "(mol (f 3 X) (mv B (A (f 4 C D)) none) (si Y () A) (st A (X) none))",
        "(mol (f 3 X) (mv B (A (f 4 C X)) none) (si D () A) (st A (X) none))",
        "(mol (f 3 X) (mv B (A (f 4 C X)) none) (si Y () D) (st A (X) none))",
        "(mol (f 3 X) (mv B (A (f 4 C X)) none) (si Y () A) (st D (X) none))",
        "(mol (f 3 X) (mv B (A (f 4 C X)) none) (si Y () A) (st A (D) none))",
    ];
    for sign in ["+", "-"] {
        let input = format!("(in (or (- (obj Y)) ({sign} {molecule})))");
        let step = |k: usize, term: &str, new: &str| {
            let new = filled(new).replace('D', "(f 3 C)");
            format!(
                "(by par 0 1 1 0 {k} (let B A) (let {term}) (or ({sign} {new}) (- (obj A)) (+ (obj {term}))))"
            )
        };
        let inputs = [&input[..], equality];
        for (k, (term, new)) in terms.iter().zip(news).enumerate() {
            cases(&inputs, &[(0, &step(k, term, new))]);
            for (other, wrong) in terms.iter().zip(news) {
                // A number that names another occurrence.
                if wrong != new {
                    cases(&inputs, &[(11, &step(k, term, wrong))]);
                }
                if other != term {
                    cases(&inputs, &[(10, &step(k, other, new))]);
                }
            }
        }
        cases(
            &inputs,
            &[
                (9, &step(11, "B", news[10])),
                (9, &step(65_535, "B", news[10])),
                (11, &step(10, "B", &news[10].replacen("none", "A", 1))),
            ],
        );
    }
    // The object stands once, and is replaced for all atoms at once.
    let inputs = [
        "(in (or (+ (mol A (sv A () A) (sv A () A)))))",
        "(in (or (+ (eq A B))))",
    ];
    let step = |k: usize, new: &str| format!("(by par 0 0 1 0 {k} (let) (let) (or (+ {new})))");
    cases(
        &inputs,
        &[
            (0, &step(0, "(mol B (sv A () A) (sv A () A))")),
            (0, &step(1, "(mol A (sv B () A) (sv A () A))")),
            (0, &step(2, "(mol A (sv A () B) (sv A () A))")),
            (0, &step(3, "(mol A (sv A () A) (sv B () A))")),
            (0, &step(4, "(mol A (sv A () A) (sv A () B))")),
            (9, &step(5, "(mol A (sv A () A) (sv A () B))")),
            (11, &step(3, "(mol B (sv A () A) (sv A () A))")),
            (11, &step(0, "(mol B (sv B () B) (sv B () B))")),
        ],
    );
    // The equality can't be a molecule.
    cases(&inputs, &[(9, "(by par 1 0 0 0 0 (let) (let) (or))")]);
}

#[test]
fn other_rules_refuse_a_molecule() {
    for (first, second) in [("st", "mt"), ("sv", "sv"), ("sv", "si"), ("mv", "mi")] {
        let molecule = format!("(mol A ({first} A (A) A) ({second} A (A) A))");
        let inputs = [
            &format!("(in (or (+ {molecule})))")[..],
            &format!("(in (or (- {molecule})))"),
            "(in (or (+ (sub A A))))",
            "(in (or (+ (mem A A))))",
            "(in (or (+ (st A A (A) A))))",
            "(in (or (+ (sv A A (A) A))))",
            "(in (or (+ (eq A A))))",
        ];
        let rules = [
            ("acy", 2, 2, "(+ (eq A A))"),
            ("tra", 2, 2, "(+ (sub A A))"),
            ("inc", 3, 2, "(+ (mem A A))"),
            ("inh", 4, 2, "(+ (st A A (A) A))"),
            ("inp", 4, 2, "(+ (st A A (A) A))"),
            ("out", 4, 2, "(+ (st A A (A) A))"),
            ("sca", 5, 5, "(+ (eq A A))"),
            ("par", 6, 6, "(+ (eq A A))"),
        ];
        for (rule, a, b, claim) in rules {
            let step =
                |a: usize, b: usize| format!("(by {rule} {a} 0 {b} 0 0 (let) (let) (or {claim}))");
            cases(
                &inputs,
                &[(0, &step(a, b)), (9, &step(a, 0)), (9, &step(a, 1))],
            );
            if rule != "par" {
                cases(
                    &inputs,
                    &[(9, &step(0, b)), (9, &step(1, b)), (9, &step(0, 0))],
                );
            }
        }
        for number in [0, 1] {
            let step = format!("(by eli {number} 0 0 0 0 (let) (let) (or))");
            cases(&inputs, &[(9, &step)]);
        }
    }
}

#[test]
fn mer() {
    let inputs = [
        "(in (or (- (obj Y)) (+ (mol X (mv B (Y) none) (sv A () X))) (- (sv A B () C))))",
        "(in (or (+ (si (f 3 Y) B () X)) (+ (mem Y X)) (- (mol Y (sv A () A) (sv A () A)))))",
    ];
    let rest = "(- (obj C)) (- (sv A B () C)) (+ (mem A B)) (- (mol A (sv A () A) (sv A () A)))";
    let new = "(mol D (mv B (C) none) (sv A () D) (si B () B))";
    let filled = |text: &str| text.replace('D', "(f 3 A)");
    let step = |start: &str| filled(&format!("(by mer {start} (or (+ {new}) {rest}))"));
    cases(
        &inputs,
        &[
            (0, &step("0 1 1 0 0 (let D C) (let B A)")),
            (7, &step("2 1 1 0 0 (let D C) (let B A)")),
            (7, &step("0 1 2 0 0 (let D C) (let B A)")),
            (8, &step("0 1 1 0 1 (let D C) (let B A)")),
            (8, &step("0 1 1 0 0 (let D) (let B A)")),
            (8, &step("0 1 1 0 0 (let D C C) (let B A)")),
            (8, &step("0 1 1 0 0 (let D C) (let B)")),
            (8, &step("0 1 1 0 0 (let D C) (let B A A)")),
            (9, &step("0 0 1 0 0 (let D C) (let B A)")),
            (9, &step("0 2 1 0 0 (let D C) (let B A)")),
            (9, &step("0 3 1 0 0 (let D C) (let B A)")),
            (9, &step("0 1 1 1 0 (let D C) (let B A)")),
            (9, &step("0 1 1 2 0 (let D C) (let B A)")),
            (9, &step("0 1 1 3 0 (let D C) (let B A)")),
            (9, &step("1 1 0 1 0 (let B A) (let D C)")),
            (10, &step("0 1 1 0 0 (let A C) (let B A)")),
            (10, &step("0 1 1 0 0 (let D C) (let B B)")),
            (11, &step("0 1 1 0 0 (let D A) (let B A)")),
            (11, &step("0 1 1 0 0 (let D C) (let A A)")),
            // The parents' order is that of the parts.
            (11, &step("1 0 0 1 0 (let B A) (let D C)")),
        ],
    );
    let claim = |text: &str| {
        filled(&format!(
            "(by mer 0 1 1 0 0 (let D C) (let B A) (or {text}))"
        ))
    };
    let other = |new: &str| claim(&format!("(+ {new}) {rest}"));
    cases(
        &inputs,
        &[
            (0, &other(new)),
            (
                11,
                &other("(mol D (si B () B) (mv B (C) none) (sv A () D))"),
            ),
            (
                11,
                &other("(mol D (sv A () D) (mv B (C) none) (si B () B))"),
            ),
            (11, &other("(mol D (mv B (C) none) (sv A () D))")),
            (11, &other("(mol D (mv B (C) none) (si B () B))")),
            (
                11,
                &other("(mol D (mv B (C) none) (sv A () D) (si B () B) (si B () B))"),
            ),
            (
                11,
                &other("(mol A (mv B (C) none) (sv A () D) (si B () B))"),
            ),
            (11, &other("(mol D (mv B (C) C) (sv A () D) (si B () B))")),
            (11, &other("(mol D (mv B () none) (sv A () D) (si B () B))")),
            (
                11,
                &other("(mol D (mi B (C) none) (sv A () D) (si B () B))"),
            ),
            (
                11,
                &other("(mol D (mv B (C) none) (sv A () D) (sv B () B))"),
            ),
            (11, &other("(si D B () B)")),
            (11, &claim(&format!("(- {new}) {rest}"))),
            (11, &claim(&format!("{rest} (+ {new})"))),
            (11, &claim(rest)),
            (11, &claim(&format!("(+ {new})"))),
        ],
    );
}

#[test]
fn mer_of_arrow_atoms_and_molecules() {
    let sides: [&[&str]; 4] = [
        &["(sv B () C)"],
        &["(mt C (A) none)"],
        &["(sv B () C)", "(mv A (B C) none)"],
        &["(si A () B)", "(si A () B)", "(mi B () A)"],
    ];
    for first in sides {
        for second in sides {
            let inputs = [
                &format!("(in (or (+ {}) (- {})))", of_a(first), of_a(first))[..],
                &format!("(in (or (+ {}) (- {})))", of_a(second), of_a(second)),
            ];
            let new = of_a(&[first, second].concat());
            let rest = format!("(- {}) (- {})", of_a(first), of_a(second));
            let step =
                |start: &str| format!("(by mer {start} 0 (let) (let) (or (+ {new}) {rest}))");
            cases(
                &inputs,
                &[
                    (0, &step("0 0 1 0")),
                    (9, &step("0 1 1 0")),
                    (9, &step("0 0 1 1")),
                    (9, &step("0 1 1 1")),
                ],
            );
        }
    }
    // A clause with itself, both times at the same position.
    cases(
        &["(in (or (+ (sv X B () Y)) (- (obj Y))))", "(in (or (+ (obj A)) (+ (eq A A))))"],
        &[
            (
                0,
                "(by mer 0 0 0 0 0 (let A B) (let A C) (or (+ (mol A (sv B () B) (sv B () C))) (- (obj B)) (- (obj C))))",
            ),
            (
                10,
                "(by mer 0 0 0 0 0 (let A B) (let B C) (or (+ (mol A (sv B () B) (sv B () C))) (- (obj B)) (- (obj C))))",
            ),
            (9, "(by mer 0 0 1 0 0 (let A B) (let) (or))"),
            (9, "(by mer 1 0 0 0 0 (let) (let A B) (or))"),
            (9, "(by mer 1 1 0 0 0 (let) (let A B) (or))"),
        ],
    );
}

#[test]
fn mer_to_sixteen_parts_and_more() {
    for (first, second) in [
        (8, 8),
        (15, 1),
        (1, 15),
        (14, 2),
        (8, 9),
        (16, 1),
        (1, 16),
        (16, 16),
    ] {
        let parts = |count: usize, part: &'static str| vec![part; count];
        let (one, other) = (
            parts(first, "(sv B () C)"),
            parts(second, "(mv C (A) none)"),
        );
        let all = [&one[..], &other[..]].concat();
        let inputs = [
            &format!("(in (or (+ {})))", of_a(&one))[..],
            &format!("(in (or (+ {})))", of_a(&other)),
        ];
        let step =
            |parts: &[&str]| format!("(by mer 0 0 1 0 0 (let) (let) (or (+ {})))", of_a(parts));
        let number = if first + second <= 16 { 0 } else { 5 };
        cases(
            &inputs,
            &[
                (number, &step(&all)),
                (11, &step(&all[..16.min(all.len() - 1)])),
            ],
        );
        cases(&inputs, &[(11, "(by mer 0 0 1 0 0 (let) (let) (or))")]);
    }
}

#[test]
fn pro() {
    let inputs = [
        "(in (or (- (obj Y)) (+ (mol X (mv B (Y) none) (sv A () (f 3 X)) (st X (A Y) B))) (+ (sv A A () A))))",
        "(in (or (- (mol A (sv A () A) (sv A () A))) (+ (mem A A))))",
    ];
    let news = [
        "(mv C B (A) none)",
        "(sv C A () (f 3 C))",
        "(st C C (A A) B)",
    ];
    let rest = "(- (obj A)) (+ (sv A A () A))";
    let step = |start: &str, new: &str| format!("(by pro {start} (or (+ {new}) {rest}))");
    for (k, new) in news.iter().enumerate() {
        let by = |start: &str| step(&start.replace('K', &k.to_string()), new);
        cases(
            &inputs,
            &[
                (0, &by("0 1 0 0 K (let C A) (let)")),
                (7, &by("2 1 0 0 K (let C A) (let)")),
                (8, &by("0 1 1 0 K (let C A) (let)")),
                (8, &by("0 1 0 1 K (let C A) (let)")),
                (8, &by("0 1 0 0 K (let C) (let)")),
                (8, &by("0 1 0 0 K (let C A A) (let)")),
                (8, &by("0 1 0 0 K (let C A) (let A)")),
                (9, &by("0 0 0 0 K (let C A) (let)")),
                (9, &by("0 2 0 0 K (let C A) (let)")),
                (9, &by("0 3 0 0 K (let C A) (let)")),
                (9, &by("1 0 0 0 K (let) (let)")),
                (9, &by("1 1 0 0 K (let) (let)")),
                (9, &by("1 2 0 0 K (let) (let)")),
                (11, &by("0 1 0 0 K (let A A) (let)")),
                (11, &by("0 1 0 0 K (let C B) (let)")),
            ],
        );
        for (other, wrong) in news.iter().enumerate() {
            if other != k {
                cases(
                    &inputs,
                    &[(11, &step(&format!("0 1 0 0 {k} (let C A) (let)"), wrong))],
                );
            }
        }
    }
    let claim = |claim: &str| format!("(by pro 0 1 0 0 0 (let C A) (let) (or {claim}))");
    cases(
        &inputs,
        &[
            (9, &step("0 1 0 0 3 (let C A) (let)", news[2])),
            (9, &step("0 1 0 0 65535 (let C A) (let)", news[2])),
            (0, &claim(&format!("(+ {}) {rest}", news[0]))),
            (11, &claim(&format!("(- {}) {rest}", news[0]))),
            (11, &claim(&format!("{rest} (+ {})", news[0]))),
            (11, &claim(&format!("(+ (mv C B (A) A)) {rest}"))),
            (11, &claim(&format!("(+ (mv C B () none)) {rest}"))),
            (11, &claim(&format!("(+ (mi C B (A) none)) {rest}"))),
            (11, &claim(&format!("(+ (mv A B (A) none)) {rest}"))),
            (
                11,
                &claim(&format!(
                    "(+ (mol C (mv B (A) none) (mv B (A) none))) {rest}"
                )),
            ),
            (
                11,
                &claim(&format!(
                    "(+ (mol C (mv B (A) none) (sv A () (f 3 C)) (st C (A A) B))) {rest}"
                )),
            ),
            (11, &claim(rest)),
            (11, &claim(&format!("(+ {})", news[0]))),
        ],
    );
}

#[test]
fn pro_of_the_first_and_the_last_of_sixteen_parts() {
    for count in [2, 3, 15, 16] {
        let parts: Vec<String> = (0..count)
            .map(|n| format!("(mv A ({}) none)", vec!["B"; n % 8].join(" ")))
            .collect();
        let parts: Vec<&str> = parts.iter().map(String::as_str).collect();
        let input = format!("(in (or (+ {})))", of_a(&parts));
        for k in 0..count + 2 {
            let part = parts[k.min(count - 1)];
            let step = format!(
                "(by pro 0 0 0 0 {k} (let) (let) (or (+ {})))",
                of_a(&[part])
            );
            cases(&[&input], &[(if k < count { 0 } else { 9 }, &step)]);
        }
    }
    // An arrow atom has no part to be taken out, and other atoms have none.
    for atom in [
        "(sv A B () C)",
        "(mv A B (A) none)",
        "(mem A B)",
        "(eq A B)",
        "(obj A)",
    ] {
        for k in [0, 1] {
            let step = format!("(by pro 0 0 0 0 {k} (let) (let) (or (+ {atom})))");
            cases(&[&format!("(in (or (+ {atom})))")], &[(9, &step)]);
        }
    }
}

#[test]
fn a_molecule_gives_its_atoms_back() {
    assert_eq!(
        answer(&[
            "(in (or (+ (st A B () none))))",
            "(in (or (+ (sv X C (B) X))))",
            "(in (or (- (mol A (sv C (B) A) (st B () none)))))",
            "(by mer 0 0 1 0 0 (let) (let A) (or (+ (mol A (st B () none) (sv C (B) A)))))",
            "(by pro 3 0 0 0 1 (let) (let) (or (+ (sv A C (B) A))))",
            "(by res 2 0 3 0 0 (let) (let) (or))",
        ]),
        "refuted 6 5\nrests 0 1 2"
    );
}
