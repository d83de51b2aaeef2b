//! The corners C1 to C10, and C11: "Further corners".

mod common;

use common::raw;
use second::generate::limits::limit_text;
use second::generate::random::Random;
use second::{check, Verdict};

const C1: &str = "\
(sym 0)
(sym 0)
(sym 0)
(in (or (+ (mem (f 0) (f 1)))))
(in (or (+ (sub (f 1) (f 2)))))
(in (or (- (mem (v 0) (f 2)))))
(by inc 0 0 1 0 0 (let) (let) (or (+ (mem (f 0) (f 2)))))
(by res 2 0 3 0 0 (let (f 0)) (let) (or))
";

#[test]
fn c1_the_text_above() {
    assert_eq!(raw(C1), "refuted 5 4\nrests 0 1 2");
}

#[test]
fn c2_another_list() {
    assert_eq!(
        raw(C1.replace("(let (f 0))", "(let (f 1))")),
        "refused 10 8"
    );
}

#[test]
fn c3_empty_text() {
    assert_eq!(raw(""), "refused 4 0");
}

#[test]
fn c4_only_sym_lines() {
    assert_eq!(raw("(sym 0)\n(sym 0)\n(sym 0)\n"), "open 0");
}

#[test]
fn c5_no_constant() {
    assert_eq!(raw("(sym 1)\n(in (or))\n"), "refused 4 2");
}

#[test]
fn c6_empty_input() {
    assert_eq!(raw("(sym 0)\n(in (or))\n"), "refuted 1 0\nrests 0");
}

#[test]
fn c7_arguments_of_another_number() {
    let text = "\
(sym 0)
(in (or (+ (sv (f 0) (f 0) ((f 0)) (f 0)))))
(in (or (+ (sv (f 0) (f 0) ((f 0) (f 0)) (f 0)))))
(by sca 0 0 1 0 0 (let) (let) (or (+ (eq (f 0) (f 0)))))
";
    assert_eq!(raw(text), "refused 10 4");
}

#[test]
fn c8_term_result_covers_none() {
    let text = "\
(sym 0)
(in (or (+ (mv (f 0) (f 0) () (f 0)))))
(in (or (- (mv (f 0) (f 0) () none))))
(by res 1 0 0 0 0 (let) (let) (or))
";
    assert_eq!(raw(text), "refuted 3 2\nrests 0 1");
}

#[test]
fn c9_none_covers_no_term_result() {
    let text = "\
(sym 0)
(in (or (- (mv (f 0) (f 0) () (f 0)))))
(in (or (+ (mv (f 0) (f 0) () none))))
(by res 0 0 1 0 0 (let) (let) (or))
";
    assert_eq!(raw(text), "refused 10 4");
}

#[test]
fn c10_each_parent_has_its_own_list() {
    let text = "\
(sym 0)
(sym 0)
(in (or (+ (mem (v 0) (f 0)))))
(in (or (- (mem (f 1) (v 0)))))
(by res 1 0 0 0 0 (let (f 0)) (let (f 1)) (or))
";
    assert_eq!(raw(text), "refuted 3 2\nrests 0 1");
}

#[test]
fn further_symbols() {
    assert_eq!(raw("(sym 0)\n".repeat(256)), "open 0");
    assert_eq!(raw("(sym 0)\n".repeat(257)), "refused 5 257");
}

#[test]
fn further_variables() {
    assert_eq!(raw("(sym 0)\n(in (or (+ (obj (v 31)))))\n"), "open 1");
    assert_eq!(raw("(sym 0)\n(in (or (+ (obj (v 32)))))\n"), "refused 5 2");
}

#[test]
fn further_depth() {
    let text = |depth: usize| {
        let (open, close) = ("(f 1 ".repeat(depth - 1), ")".repeat(depth - 1));
        format!("(sym 0)\n(sym 1)\n(in (or (+ (obj {open}(f 0){close}))))\n")
    };
    assert_eq!(raw(text(16)), "open 1");
    assert_eq!(raw(text(17)), "refused 2 3");
    assert_eq!(raw(text(5_000)), "refused 2 3");
}

#[test]
fn further_bytes() {
    // The text of this kind is made to have exactly so many bytes.
    for seed in 0..20 {
        let within = limit_text(&mut Random::new(seed), 12, false).text;
        assert_eq!(within.len(), 65_535);
        assert!(matches!(check(&within).verdict, Verdict::Open { .. }));
        let past = limit_text(&mut Random::new(seed), 12, true).text;
        assert_eq!(past.len(), 65_536);
        assert_eq!(raw(past), "refused 1 0");
    }
    assert_eq!(raw("x".repeat(65_535)), "refused 2 1");
    assert_eq!(raw("x".repeat(65_536)), "refused 1 0");
}
