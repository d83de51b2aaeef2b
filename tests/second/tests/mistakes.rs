//! C12: "Mistakes met in the trade", each against a text that shows it.

mod common;

use common::{answer, cases};

#[test]
fn arguments_compared_up_to_the_shorter_list() {
    for (first, second) in [("A", "A B"), ("A B", "A"), ("", "A"), ("A", "")] {
        cases(
            &[
                &format!("(in (or (- (mv A A ({first}) none))))"),
                &format!("(in (or (+ (mv A A ({second}) none))))"),
                &format!("(in (or (+ (sv A A ({first}) A))))"),
                &format!("(in (or (+ (sv A A ({second}) A))))"),
            ],
            &[
                (10, "(by res 0 0 1 0 0 (let) (let) (or))"),
                (10, "(by sca 2 0 3 0 0 (let) (let) (or (+ (eq A A))))"),
            ],
        );
    }
    // Nor are the terms of an applied symbol.
    cases(
        &[
            "(in (or (- (obj (f 4 A B)))))",
            "(in (or (+ (obj (f 4 A C)))))",
        ],
        &[(10, "(by res 0 0 1 0 0 (let) (let) (or))")],
    );
}

#[test]
fn one_list_filling_both_parents() {
    let inputs = ["(in (or (+ (mem X A))))", "(in (or (- (mem B X))))"];
    cases(
        &inputs,
        &[
            (0, "(by res 1 0 0 0 0 (let A) (let B) (or))"),
            (10, "(by res 1 0 0 0 0 (let B) (let A) (or))"),
            (10, "(by res 1 0 0 0 0 (let A) (let A) (or))"),
        ],
    );
}

#[test]
fn none_taken_to_cover_a_term() {
    for arrow in ["mv", "mi", "st", "mt"] {
        cases(
            &[
                &format!("(in (or (- ({arrow} A A () A))))"),
                &format!("(in (or (+ ({arrow} A A () none))))"),
            ],
            &[(10, "(by res 0 0 1 0 0 (let) (let) (or))")],
        );
    }
}

#[test]
fn wrong_literal_dropped_in_negative_fac() {
    let inputs = ["(in (or (- (mv A A () none)) (- (mv A A () B))))"];
    cases(
        &inputs,
        &[
            (0, "(by fac 0 0 0 1 0 (let) (let) (or (- (mv A A () B))))"),
            (
                11,
                "(by fac 0 0 0 1 0 (let) (let) (or (- (mv A A () none))))",
            ),
        ],
    );
}

#[test]
fn inp_with_the_sub_link_turned_round() {
    for result in ["A", "none"] {
        let step =
            |b: usize| format!("(by inp 0 0 {b} 0 0 (let) (let) (or (+ (st A A (C) {result}))))");
        cases(
            &[
                &format!("(in (or (+ (st A A (B) {result}))))"),
                "(in (or (+ (sub C B))))",
                "(in (or (+ (sub B C))))",
            ],
            &[(0, &step(1)), (10, &step(2))],
        );
    }
}

#[test]
fn sca_between_sv_and_si() {
    let inputs = ["(in (or (+ (sv A A () B))))", "(in (or (+ (si A A () C))))"];
    cases(
        &inputs,
        &[
            (10, "(by sca 0 0 1 0 0 (let) (let) (or (+ (eq B C))))"),
            (10, "(by sca 1 0 0 0 0 (let) (let) (or (+ (eq C B))))"),
        ],
    );
}

#[test]
fn only_the_first_step_looked_at() {
    let good = "(by refl 0 0 0 0 0 (let A) (let) (or (+ (sub A A))))";
    let bad = "(by refl 0 0 0 0 0 (let A) (let) (or))";
    assert_eq!(answer(&[good, good, bad]), "refused 11 8");
    assert_eq!(answer(&[good, good, good]), "open 3");
}
