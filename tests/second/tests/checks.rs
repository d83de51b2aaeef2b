//! Checks 1 to 8 one by one, their order, and the limits.

mod common;

use common::{answer, cases, last, raw, SYMBOLS};

#[test]
fn check_1_lines() {
    let lines = |count: usize| "(sym 0)\n".to_string() + &"(in (or))\n".repeat(count - 1);
    assert_eq!(raw(lines(1_024)), "refuted 1023 0\nrests 0");
    assert_eq!(raw(lines(1_025)), "refused 1 0");
    // An unended rest is one more line.
    assert_eq!(raw(lines(1_023) + "x"), "refused 2 1024");
    assert_eq!(raw(lines(1_024) + "x"), "refused 1 0");
    // Check 1 comes before any line is read.
    assert_eq!(raw("x\n".to_string() + &lines(1_024)), "refused 1 0");
    assert_eq!(raw("\n".repeat(1_024)), "refused 2 1");
    assert_eq!(raw("\n".repeat(1_025)), "refused 1 0");
}

#[test]
fn check_2_lines() {
    for text in [
        "\n",
        "x",
        "x\n",
        "(sym 0)",
        "(sym 0) \n",
        " (sym 0)\n",
        "(sym 0)\r\n",
        "(sym  0)\n",
        "(sym\t0)\n",
        "( sym 0)\n",
        "(sym 0 )\n",
        "(sym 0)(sym 0)\n",
        "(sym 0))\n",
        "((sym 0)\n",
        "(sym)\n",
        "(sym )\n",
        "(sym 0 0)\n",
        "(sym 00)\n",
        "(sym 01)\n",
        "(sym 65536)\n",
        "(sym 70000)\n",
        "(sym 99999999999999999999999999)\n",
        "(sym -1)\n",
        "(sym +1)\n",
        "(sym x)\n",
        "(Sym 0)\n",
        "(symbol 0)\n",
        "sym 0\n",
        "(sym 0\n",
        "(in)\n",
        "(by)\n",
        "()\n",
        "(\n",
        "\0\n",
        "\u{ff}\n",
    ] {
        assert_eq!(raw(text), "refused 2 1", "{text:?}");
    }
    assert_eq!(raw("(sym 0)\n\n"), "refused 2 2");
    assert_eq!(raw("(sym 0)\n(sym 0)"), "refused 2 2");
    assert_eq!(raw("(sym 0)\n "), "refused 2 2");
}

#[test]
fn check_2_inputs() {
    for line in [
        "(in (or)",
        "(in  (or))",
        "(in (or ))",
        "(in ( or))",
        "(in (and))",
        "(in (or) (or))",
        "(in (or (+ (obj A)) ))",
        "(in (or  (+ (obj A))))",
        "(in (or(+ (obj A))))",
        "(in (or (+ (obj A))(- (obj A))))",
        "(in (or (* (obj A))))",
        "(in (or (+(obj A))))",
        "(in (or (+  (obj A))))",
        "(in (or (+ (obj A) )))",
        "(in (or (+ (obj A) (obj A))))",
        "(in (or (obj A)))",
        "(in (or (+ (obj))))",
        "(in (or (+ (obj A A))))",
        "(in (or (+ (eq A))))",
        "(in (or (+ (eq A A A))))",
        "(in (or (+ (mem A  A))))",
        "(in (or (+ (isa A A))))",
        "(in (or (+ (objx A))))",
        "(in (or (+ (obj a))))",
        "(in (or (+ (obj none))))",
        "(in (or (+ (sub A none))))",
        "(in (or (+ (sv A A () none))))",
        "(in (or (+ (si A A (A) none))))",
        "(in (or (+ (mv A A A))))",
        "(in (or (+ (mv A A A A))))",
        "(in (or (+ (mv A A ()))))",
        "(in (or (+ (mv A A ( ) A))))",
        "(in (or (+ (mv A A (A ) A))))",
        "(in (or (+ (mv A A ( A) A))))",
        "(in (or (+ (mv A A (A  A) A))))",
        "(in (or (+ (mv A A (A)A))))",
        "(in (or (+ (mv A A(A) A))))",
        "(in (or (+ (mv A A (none) A))))",
        "(in (or (+ (mv none A () A))))",
        "(in (or (+ (mv A A () nonex))))",
        "(in (or (+ (mv A A () none none))))",
        "(in (or (+ (mv A A () (none)))))",
        "(in (or (+ (mv A A () A A))))",
        "(in (or (+ (obj (v)))))",
        "(in (or (+ (obj (v )))))",
        "(in (or (+ (obj (v 0 )))))",
        "(in (or (+ (obj (v 00)))))",
        "(in (or (+ (obj (v 65536)))))",
        "(in (or (+ (obj (v 0 A)))))",
        "(in (or (+ (obj (f)))))",
        "(in (or (+ (obj (f A)))))",
        "(in (or (+ (obj (f 3A)))))",
        "(in (or (+ (obj (f 3  A)))))",
        "(in (or (+ (obj (f 3 A )))))",
        "(in (or (+ (obj (f 03 A)))))",
        "(in (or (+ (obj (f 65536)))))",
        "(in (or (+ (obj (g 3 A)))))",
        "(in (or (+ (obj (fx 3 A)))))",
    ] {
        assert_eq!(last(&[], line), 2, "{line}");
    }
    for line in [
        "(in (or))",
        "(in (or (+ (obj A)) (- (eq X A)) (+ (mem A Y)) (- (sub (f 3 Z) A))))",
        "(in (or (+ (sv A A () A)) (+ (si A A (A) A)) (+ (mv A A (A X) none))))",
        "(in (or (+ (mi A A () none)) (+ (st A A () none)) (+ (mt A A (A) none))))",
        "(in (or (+ (mv A A () A)) (+ (mi A A () A)) (+ (st A A () A)) (+ (mt A A () A))))",
    ] {
        assert_eq!(last(&[], line), 0, "{line}");
    }
}

#[test]
fn check_2_molecules() {
    for atom in [
        "(mol)",
        "(mol A)",
        // One part.
        "(mol A (sv A () A))",
        "(mol A (mv A (A) none))",
        "(mol A A A)",
        "(mol A (sv A () A) A)",
        "(mol A A (sv A () A))",
        "(mol A (sv A () A) none)",
        "(mol A (sv A () A) ())",
        "(mol A () (sv A () A))",
        "(mol (sv A () A) (sv A () A))",
        "(mol (sv A () A) A (sv A () A))",
        "(mol none (sv A () A) (sv A () A))",
        // Parts that have an object, or lack something.
        "(mol A (sv A () A) (sv A A () A))",
        "(mol A (sv A A () A) (sv A () A))",
        "(mol A (sv A () A) (sv () A))",
        "(mol A (sv A () A) (sv A A))",
        "(mol A (sv A () A) (sv A ()))",
        "(mol A (sv A () A) (sv A () A A))",
        "(mol A (sv A () A) (sv A ( ) A))",
        "(mol A (sv A () A) (sv A (A ) A))",
        "(mol A (sv A () A) (sv A (none) A))",
        "(mol A (sv A () A) (sv none () A))",
        "(mol A (sv A () none) (sv A () A))",
        "(mol A (sv A () A) (si A (A) none))",
        "(mol A (mv A () none none) (sv A () A))",
        // Words that no part begins with.
        "(mol A (sv A () A) (sw A () A))",
        "(mol A (sv A () A) (eq A A))",
        "(mol A (sv A () A) (obj A))",
        "(mol A (sv A () A) (A () A))",
        "(mol A (sv A () A) (mol A () A))",
        // One inside another.
        "(mol A (sv A () A) (mol A (sv A () A) (sv A () A)))",
        "(mol (mol A (sv A () A) (sv A () A)) (sv A () A) (sv A () A))",
        // Spaces and brackets.
        "(mol  A (sv A () A) (sv A () A))",
        "(mol A  (sv A () A) (sv A () A))",
        "(mol A (sv A () A)  (sv A () A))",
        "(mol A (sv A () A)(sv A () A))",
        "(mol A(sv A () A) (sv A () A))",
        "(mol A (sv A () A) (sv A () A) )",
        "(mol A ( sv A () A) (sv A () A))",
        "(mol A (sv A () A ) (sv A () A))",
        "(mol A (sv  A () A) (sv A () A))",
        "(mol A ((sv A () A) (sv A () A)))",
        "(mol A (sv A () A) (sv A () A)",
        "(mols A (sv A () A) (sv A () A))",
        "(mo A (sv A () A) (sv A () A))",
        "(Mol A (sv A () A) (sv A () A))",
        "(sv A (sv A () A) (sv A () A))",
    ] {
        for sign in ["+", "-"] {
            let line = format!("(in (or ({sign} {atom})))");
            assert_eq!(last(&[], &line), 2, "{line}");
        }
    }
    // A part too deep, and one that is no form behind one past every limit.
    let deep = "(f 3 ".repeat(16) + "A" + &")".repeat(16);
    for part in [
        format!("(sv {deep} () A)"),
        format!("(sv A ({deep}) A)"),
        format!("(mv A () {deep})"),
    ] {
        let line = format!("(in (or (+ (mol A (mv A () none) {part}))))");
        assert_eq!(last(&[], &line), 2, "{line}");
    }
    let many = " (sv A (A A A A A A A A A) (v 99))".repeat(17);
    for (number, part) in [(2, "(sv A () none)"), (2, "(sv A ()"), (5, "(sv A () A)")] {
        let line = format!("(in (or (+ (mol A{many} {part}))))");
        assert_eq!(last(&[], &line), number, "{line}");
    }
    for line in [
        "(in (or (+ (mol A (sv A () A) (sv A () A)))))",
        "(in (or (- (mol X (mv (f 3 Z) () none) (mi A (A X) none) (mv Y (B) C)))))",
        "(in (or (+ (mol A (st A () none) (mt A (A) none))) (- (mol A (si B () C) (sv B () C)))))",
    ] {
        assert_eq!(last(&[], line), 0, "{line}");
    }
}

#[test]
fn check_2_steps() {
    for line in [
        "(by)",
        "(by refl)",
        "(by refl 0 0 0 0 (let X) (let) (or (+ (sub X X))))",
        "(by refl 0 0 0 0 0 0 (let X) (let) (or (+ (sub X X))))",
        "(by refl 0 0 0 0 00 (let X) (let) (or (+ (sub X X))))",
        "(by refl 0 0 0 0 65536 (let X) (let) (or (+ (sub X X))))",
        "(by refl 0 0 0 0 x (let X) (let) (or (+ (sub X X))))",
        "(by  refl 0 0 0 0 0 (let X) (let) (or (+ (sub X X))))",
        "(by refl 0 0 0 0  0 (let X) (let) (or (+ (sub X X))))",
        "(by refl 0 0 0 0 0(let X) (let) (or (+ (sub X X))))",
        "(by refl 0 0 0 0 0 (let X)(let) (or (+ (sub X X))))",
        "(by refl 0 0 0 0 0 (let X) (let)(or (+ (sub X X))))",
        "(by refl 0 0 0 0 0 (let X) (or (+ (sub X X))))",
        "(by refl 0 0 0 0 0 (let X) (let) (let) (or (+ (sub X X))))",
        "(by refl 0 0 0 0 0 (let X) (let))",
        "(by refl 0 0 0 0 0 (let X) (let) (or (+ (sub X X))) (or))",
        "(by refl 0 0 0 0 0 (let X ) (let) (or (+ (sub X X))))",
        "(by refl 0 0 0 0 0 (let  X) (let) (or (+ (sub X X))))",
        "(by refl 0 0 0 0 0 (let X) (let ) (or (+ (sub X X))))",
        "(by refl 0 0 0 0 0 (let none) (let) (or (+ (sub X X))))",
        "(by refl 0 0 0 0 0 (lets X) (let) (or (+ (sub X X))))",
        "(by ref 0 0 0 0 0 (let X) (let) (or (+ (sub X X))))",
        "(by reflx 0 0 0 0 0 (let X) (let) (or (+ (sub X X))))",
        "(by REFL 0 0 0 0 0 (let X) (let) (or (+ (sub X X))))",
        "(by mol 0 0 0 0 0 (let X) (let) (or (+ (sub X X))))",
        "(by me 0 0 0 0 0 (let X) (let) (or (+ (sub X X))))",
        "(by pros 0 0 0 0 0 (let X) (let) (or (+ (sub X X))))",
        "(by 0 0 0 0 0 (let X) (let) (or (+ (sub X X))))",
    ] {
        assert_eq!(last(&[], line), 2, "{line}");
    }
    let line = "(by refl 0 0 0 0 0 (let X) (let) (or (+ (sub X X))))";
    assert_eq!(last(&[], line), 0);
}

#[test]
fn check_3_order_of_lines() {
    let refl = "(by refl 0 0 0 0 0 (let A) (let) (or (+ (sub A A))))";
    assert_eq!(last(&["(in (or))"], "(sym 0)"), 3);
    assert_eq!(last(&[refl], "(sym 0)"), 3);
    assert_eq!(last(&[refl], "(in (or))"), 3);
    assert_eq!(last(&["(in (or))", refl], "(in (or))"), 3);
    assert_eq!(last(&["(in (or))"], "(in (or))"), 0);
    assert_eq!(last(&["(in (or))", refl], refl), 0);
}

#[test]
fn check_4_constants() {
    assert_eq!(raw("(in (or))\n"), "refused 4 1");
    assert_eq!(raw("(sym 1)\n"), "refused 4 0");
    assert_eq!(raw("(sym 1)\n(sym 0)\n"), "open 0");
    assert_eq!(raw("(sym 8)\n(in (or))\n(sym 0)\n"), "refused 4 2");
    let refl = "(by refl 0 0 0 0 0 (let (v 0)) (let) (or (+ (sub (v 0) (v 0)))))\n";
    assert_eq!(raw(refl), "refused 4 1");
    assert_eq!(raw(format!("(sym 2)\n{refl}")), "refused 4 2");
    assert_eq!(raw(format!("(sym 0)\n{refl}")), "open 1");
}

#[test]
fn check_5_symbols() {
    assert_eq!(raw("(sym 0)\n(sym 8)\n"), "open 0");
    assert_eq!(raw("(sym 0)\n(sym 9)\n"), "refused 5 2");
    assert_eq!(raw("(sym 0)\n(sym 10)\n"), "refused 5 2");
    assert_eq!(raw("(sym 65535)\n"), "refused 5 1");
    assert_eq!(raw("(sym 0)\n".repeat(256) + "(sym 9)\n"), "refused 5 257");
    // After an in line a 257th sym line fails check 3 first.
    let full = "(sym 0)\n".repeat(256) + "(in (or))\n";
    assert_eq!(raw(full.clone() + "(sym 0)\n"), "refused 3 258");
    assert_eq!(raw(full + "(sym 9)\n"), "refused 3 258");
}

#[test]
fn check_5_clauses() {
    let arguments = |count: usize| vec!["A"; count].join(" ");
    for arrow in ["sv", "si", "mv", "mi", "st", "mt"] {
        for (count, number) in [(8, 0), (9, 5), (400, 5)] {
            let line = format!("(in (or (+ ({arrow} A A ({}) A))))", arguments(count));
            assert_eq!(last(&[], &line), number);
        }
    }
    // In each part, whatever the others have.
    for part in 0..3 {
        for (count, number) in [(8, 0), (9, 5), (400, 5)] {
            let mut counts = [0, 8, 1];
            counts[part] = count;
            let parts = counts.map(|count| format!(" (mv A ({}) none)", arguments(count)));
            let line = format!("(in (or (+ (mol A{}))))", parts.concat());
            assert_eq!(last(&[], &line), number);
        }
    }
    for (count, number) in [
        (1, 2),
        (2, 0),
        (15, 0),
        (16, 0),
        (17, 5),
        (18, 5),
        (1_000, 5),
    ] {
        for part in ["(sv A () A)", "(mt B (A X) none)"] {
            let parts = format!(" {part}").repeat(count);
            let line = format!("(in (or (- (obj A)) (+ (mol A{parts}))))");
            assert_eq!(last(&[], &line), number, "{line}");
        }
    }
    // The parts of two molecules aren't counted together.
    let parts = " (sv A () A)".repeat(16);
    let line = format!("(in (or{}))", format!(" (+ (mol A{parts}))").repeat(32));
    assert_eq!(last(&[], &line), 0);
    for (count, number) in [(32, 0), (33, 5), (1_000, 5)] {
        let line = format!("(in (or{}))", " (+ (obj A))".repeat(count));
        assert_eq!(last(&[], &line), number);
    }
    for (variable, number) in [(31, 0), (32, 5), (65_535, 5), (65_536, 2)] {
        for place in [
            "(obj V)",
            "(eq A (f 3 V))",
            "(mv A A (A V) none)",
            "(sv A A () V)",
            "(mol V (sv A () A) (sv A () A))",
            "(mol A (sv A () A) (sv A () V))",
            "(mol A (mv A (V) none) (sv A () A))",
        ] {
            let place = place.replace('V', &format!("(v {variable})"));
            let line = format!("(in (or (- (obj A)) (+ {place})))");
            assert_eq!(last(&[], &line), number, "{line}");
        }
    }
}

#[test]
fn check_5_steps() {
    let input = "(in (or (- (obj (v 31))) (+ (obj A))))";
    let eli = |terms: usize, second: &str, claim: &str| {
        let first = vec!["A"; terms].join(" ");
        format!("(by eli 0 0 0 0 0 (let {first}) {second} {claim})")
    };
    let claim = "(or (+ (obj A)))";
    cases(
        &[input],
        &[
            (0, &eli(32, "(let)", claim)),
            (8, &eli(31, "(let)", claim)),
            (5, &eli(33, "(let)", claim)),
            (8, &eli(32, "(let A)", claim)),
            (5, &eli(32, "(let (v 32))", claim)),
            (5, &eli(32, "(let)", "(or (+ (obj (v 32))))")),
            (11, &eli(32, "(let)", "(or (+ (obj (v 31))))")),
            (
                5,
                &eli(32, "(let)", &format!("(or{})", " (+ (obj A))".repeat(33))),
            ),
            (
                11,
                &eli(32, "(let)", &format!("(or{})", " (+ (obj A))".repeat(32))),
            ),
        ],
    );
    // A list that must be empty is no exception.
    let list = "(let".to_string() + &" A".repeat(33) + ")";
    let line = format!("(by eli 9 0 0 0 0 (let) {list} (or))");
    assert_eq!(last(&[input], &line), 5);
}

#[test]
fn check_6_symbols() {
    for (number, term) in [
        (0, "(f 3 A)"),
        (0, "(f 4 A (f 3 X))"),
        (6, "(f 5)"),
        (6, "(f 255)"),
        (6, "(f 256)"),
        (6, "(f 65535)"),
        (6, "(f 0 A)"),
        (6, "(f 3)"),
        (6, "(f 3 A A)"),
        (6, "(f 4 A)"),
        (6, "(f 4 A A A)"),
        (6, "(f 3 A A A A A A A A A)"),
        (6, "(f 3 (f 3 (f 3)))"),
    ] {
        for place in [
            "(obj T)",
            "(sub A T)",
            "(mi A A (T) none)",
            "(st T A () A)",
            "(mol T (sv A () A) (sv A () A))",
            "(mol A (sv T () A) (sv A () A))",
            "(mol A (sv A () A) (mv A (A T) none))",
        ] {
            let line = format!("(in (or (- {})))", place.replace('T', term));
            assert_eq!(last(&[], &line), number, "{line}");
        }
        let step = format!("(by refl 0 0 0 0 0 (let {term}) (let) (or (+ (sub {term} {term}))))");
        assert_eq!(last(&[], &step), number, "{step}");
        if number == 6 {
            // In the claim alone, and in the list that must be empty.
            for step in [
                format!("(by refl 0 0 0 0 0 (let A) (let) (or (+ (sub A {term}))))"),
                format!("(by refl 0 0 0 0 0 (let A) (let {term}) (or (+ (sub A A))))"),
            ] {
                assert_eq!(last(&[], &step), 6, "{step}");
            }
        }
    }
}

#[test]
fn checks_7_and_8_in_order() {
    let inputs = ["(in (or (- (obj X))))", "(in (or (+ (obj Y))))"];
    cases(
        &inputs,
        &[
            (0, "(by res 0 0 1 0 0 (let A) (let C A) (or))"),
            (7, "(by res 2 0 1 0 0 (let A) (let C A) (or))"),
            (7, "(by res 0 0 2 0 0 (let A) (let C A) (or))"),
            (7, "(by res 0 0 65535 0 0 (let A) (let C A) (or))"),
            // Both parents are tested before any part of 8.
            (7, "(by res 0 0 2 0 1 (let) (let) (or))"),
            (7, "(by eli 2 0 7 7 7 (let) (let A) (or))"),
            // An unused parent number is only tested by 8.
            (8, "(by eli 0 0 65535 0 0 (let A) (let) (or))"),
            (8, "(by eli 0 0 0 1 0 (let A) (let) (or))"),
            (8, "(by eli 0 0 0 0 1 (let A) (let) (or))"),
            (8, "(by eli 0 0 0 0 0 (let A) (let A) (or))"),
            (8, "(by pro 0 0 1 0 0 (let A) (let) (or))"),
            (8, "(by pro 0 0 0 1 0 (let A) (let) (or))"),
            (9, "(by pro 0 0 0 0 1 (let A) (let) (or))"),
            (8, "(by mer 0 0 1 0 1 (let A) (let C A) (or))"),
            (9, "(by mer 0 0 1 0 0 (let A) (let C A) (or))"),
            (8, "(by eli 0 9 0 0 1 (let A) (let) (or))"),
            (0, "(by eli 0 0 0 0 0 (let A) (let) (or))"),
        ],
    );
}

#[test]
fn order_over_the_whole_line() {
    let inputs = ["(in (or (- (obj X))))"];
    let long = "A ".repeat(33);
    cases(
        &inputs,
        &[
            // 2 at the very end comes before all others.
            (2, "(by eli 9 9 9 9 9 (let (v 99) (f 99)) (let) (or) )"),
            (
                2,
                "(by eli 9 9 9 9 9 (let (v 99) (f 99)) (let) (or (+ (sv A A () none))))",
            ),
            // 5 late in the line comes before 6 early in it.
            (
                5,
                "(by eli 9 9 9 9 9 (let (f 99)) (let) (or (+ (obj (v 99)))))",
            ),
            (
                5,
                &format!("(by eli 9 9 9 9 9 (let (f 99)) (let {long}A) (or))"),
            ),
            // 6 before 7, 7 before 8, and so on.
            (6, "(by eli 9 9 9 9 9 (let) (let) (or (+ (obj (f 99)))))"),
            (7, "(by eli 9 9 9 9 9 (let) (let) (or (+ (obj A))))"),
            (8, "(by eli 0 9 0 0 9 (let A) (let) (or (+ (obj A))))"),
            (9, "(by eli 0 9 0 0 0 (let A) (let) (or (+ (obj A))))"),
            (11, "(by eli 0 0 0 0 0 (let A) (let) (or (+ (obj A))))"),
        ],
    );
    // 2 before 3, 3 before 4, 4 before 5.
    assert_eq!(raw("(sym 0)\n(in (or))\n(sym 00)\n"), "refused 2 3");
    assert_eq!(raw("(sym 1)\n(in (or (+ (obj (v 99)))))\n"), "refused 4 2");
    assert_eq!(raw("(sym 1)\n(in (or (+ (obj (f 99)))))\n"), "refused 4 2");
    let refl = "(by refl 0 0 0 0 0 (let A) (let) (or (+ (sub A A))))";
    assert_eq!(last(&[refl], "(in (or (+ (obj (v 99)))))"), 3);
    // The first failing line counts, whatever comes later.
    assert_eq!(
        raw("(sym 0)\n(in (or (+ (obj (f 1)))))\nx\n"),
        "refused 6 2"
    );
    assert_eq!(raw("(sym 0)\n(sym 9)\nx\n"), "refused 5 2");
}

#[test]
fn verdict_counts_clauses() {
    let refl = "(by refl 0 0 0 0 0 (let A) (let) (or (+ (sub A A))))";
    assert_eq!(raw(SYMBOLS), "open 0");
    assert_eq!(answer(&[refl]), "open 1");
    assert_eq!(answer(&["(in (or (+ (obj A))))", refl]), "open 2");
    assert_eq!(
        answer(&["(in (or (+ (obj A))))", "(in (or))", "(in (or))", refl]),
        "refuted 4 1\nrests 1"
    );
    // An empty clause doesn't end the reading.
    assert_eq!(answer(&["(in (or))", "x"]), "refused 2 7");
}

#[test]
fn any_bytes_get_a_verdict() {
    for byte in 0..=255u8 {
        assert_eq!(raw([byte]), "refused 2 1");
        assert_eq!(raw([byte, b'\n']), "refused 2 1");
        // In place of each byte of a good line.
        let line = b"(sym 0)\n";
        for place in 0..line.len() {
            let mut text = line.to_vec();
            text[place] = byte;
            raw(text);
        }
    }
}
