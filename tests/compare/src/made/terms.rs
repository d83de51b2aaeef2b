//! Steps whose agreement holds, or fails at one pair of terms.

use super::{after_symbols, row, Made, SYMBOLS};

/// Two terms that are compared, one in each literal; X is a variable of the
/// literal's own, which is filled.
#[derive(Clone, Copy, PartialEq, Eq)]
struct Pair {
    terms: [&'static str; 2],
    fillings: [&'static str; 2],
}

const fn pair(first: &'static str, second: &'static str) -> Pair {
    filled(first, "C", second, "C")
}

const fn filled(
    first: &'static str,
    first_filling: &'static str,
    second: &'static str,
    second_filling: &'static str,
) -> Pair {
    Pair {
        terms: [first, second],
        fillings: [first_filling, second_filling],
    }
}

/// Equal and different terms, as they stand and by what fills them. The first
/// pair is equal.
const PAIRS: [Pair; 13] = [
    pair("B", "B"),
    pair("A", "B"),
    pair("(f 3 A)", "(f 3 A)"),
    pair("(f 3 A)", "(f 3 B)"),
    pair("(f 3 A)", "A"),
    pair("A", "(f 3 A)"),
    pair("(f 4 A B)", "(f 4 B A)"),
    pair("(f 4 A (f 3 B))", "(f 4 A (f 3 C))"),
    filled("X", "A", "A", "C"),
    filled("X", "B", "A", "C"),
    filled("A", "C", "X", "B"),
    filled("X", "A", "X", "B"),
    filled("(f 3 X)", "(f 3 A)", "X", "(f 3 (f 3 A))"),
];

/// A rule, the literals at I and at J, in which P and Q are the terms that are
/// compared, the claim, with those of the first literal, and K.
type Row = (&'static str, [&'static str; 2], &'static str, usize);

const ROWS: [Row; 26] = [
    ("res", ["(- (mem P Q))", "(+ (mem P Q))"], "", 0),
    ("res", ["(- (sv C P () Q))", "(+ (sv C P () Q))"], "", 0),
    (
        "res",
        ["(- (mi P C (A Q) none))", "(+ (mi P C (A Q) A))"],
        "",
        0,
    ),
    (
        "fac",
        ["(+ (sub P Q))", "(+ (sub P Q))"],
        "(+ (sub P Q))",
        0,
    ),
    (
        "fac",
        ["(+ (mt P C (Q) none))", "(+ (mt P C (Q) A))"],
        "(+ (mt P C (Q) none))",
        0,
    ),
    (
        "par",
        ["(- (obj (f 3 P)))", "(+ (eq P C))"],
        "(- (obj (f 3 C)))",
        1,
    ),
    (
        "par",
        ["(+ (st A B (C P) A))", "(+ (eq P C))"],
        "(+ (st A B (C C) A))",
        3,
    ),
    ("acy", ["(+ (sub P Q))", "(+ (sub Q P))"], "(+ (eq P Q))", 0),
    (
        "tra",
        ["(+ (sub A P))", "(+ (sub P C))"],
        "(+ (sub A C))",
        0,
    ),
    (
        "inc",
        ["(+ (mem A P))", "(+ (sub P C))"],
        "(+ (mem A C))",
        0,
    ),
    (
        "inh",
        ["(+ (st P A () B))", "(+ (sub C P))"],
        "(+ (st C A () B))",
        0,
    ),
    (
        "inh",
        ["(+ (mt P A (A) B))", "(+ (sub C P))"],
        "(+ (mt C A (A) B))",
        0,
    ),
    (
        "inh",
        ["(+ (mt P A (A) none))", "(+ (sub C P))"],
        "(+ (mt C A (A) none))",
        0,
    ),
    (
        "inp",
        ["(+ (st A A (P B) C))", "(+ (sub C P))"],
        "(+ (st A A (C B) C))",
        0,
    ),
    (
        "inp",
        ["(+ (mt A A (B P) C))", "(+ (sub C P))"],
        "(+ (mt A A (B C) C))",
        1,
    ),
    (
        "inp",
        ["(+ (st A A (B P) none))", "(+ (sub C P))"],
        "(+ (st A A (B C) none))",
        1,
    ),
    (
        "out",
        ["(+ (st A A (B) P))", "(+ (sub P C))"],
        "(+ (st A A (B) C))",
        0,
    ),
    (
        "out",
        ["(+ (mt A A () P))", "(+ (sub P C))"],
        "(+ (mt A A () C))",
        0,
    ),
    (
        "sca",
        ["(+ (sv P A (Q) B))", "(+ (sv P A (Q) C))"],
        "(+ (eq B C))",
        0,
    ),
    (
        "sca",
        ["(+ (si A P (B Q) B))", "(+ (si A P (B Q) C))"],
        "(+ (eq B C))",
        0,
    ),
    (
        "res",
        [
            "(- (mol P (sv A () B) (mv C (Q) none)))",
            "(+ (mol P (mv C (Q) A) (sv A () B)))",
        ],
        "",
        0,
    ),
    (
        "res",
        [
            "(- (si P C () Q))",
            "(+ (mol P (mv B () none) (si C () Q)))",
        ],
        "",
        0,
    ),
    (
        "fac",
        [
            "(+ (mol P (mi Q () B) (st B () none)))",
            "(+ (mol P (st B () C) (mi Q () B)))",
        ],
        "(+ (mol P (mi Q () B) (st B () none)))",
        0,
    ),
    (
        "par",
        ["(- (mol A (sv B () C) (mv P () none)))", "(+ (eq P C))"],
        "(- (mol A (sv B () C) (mv C () none)))",
        3,
    ),
    (
        "par",
        ["(+ (mol P (sv B () C) (mv B () none)))", "(+ (eq P C))"],
        "(+ (mol C (sv B () C) (mv B () none)))",
        0,
    ),
    (
        "mer",
        [
            "(+ (mv P A () none))",
            "(+ (mol P (sv A () B) (st C () C)))",
        ],
        "(+ (mol P (mv A () none) (sv A () B) (st C () C)))",
        0,
    ),
];

pub fn texts() -> Vec<Made> {
    let mut made = Vec::new();
    for row in &ROWS {
        let two = row.1[0].contains('Q');
        for pair in PAIRS {
            made.push(step(row, [pair, PAIRS[0]]));
            if two && pair != PAIRS[0] {
                made.push(step(row, [PAIRS[0], pair]));
                made.push(step(row, [pair, pair]));
            }
        }
    }
    made
}

/// A step by the rule in which these pairs stand at P and at Q.
fn step(&(rule, literals, claim, k): &Row, pairs: [Pair; 2]) -> Made {
    let sides = Sides {
        alone: rule == "fac",
        pairs,
    };
    let written = [0, 1].map(|side| sides.written(literals[side], side));
    let (inputs, numbers, lists) = match sides.alone {
        true => (vec![written.join(" ")], "0 0 0 1", [&[0, 1][..], &[]]),
        false => (written.to_vec(), "0 0 1 0", [&[0][..], &[1]]),
    };
    let [first, second] = lists.map(|list| sides.list(list));
    let claim = put(claim, |place| sides.filled(0, place));
    let mut lines: Vec<String> = (inputs.iter())
        .map(|clause| format!("(in (or {clause}))"))
        .collect();
    let line = format!("(by {rule} {numbers} {k} {first} {second} (or {claim}))");
    lines.push(line.replace("(or )", "(or)"));
    let clauses = lines.len();
    let expected = match (sides.agree(), claim.is_empty()) {
        (false, _) => format!("refused 10 {}", SYMBOLS.len() + clauses),
        (true, false) => format!("open {clauses}"),
        // Only res claims nothing, from both inputs.
        (true, true) => format!("refuted {clauses} {}\nrests 0 1", clauses - 1),
    };
    Made {
        text: after_symbols(&lines),
        expected,
    }
}

/// The pairs at P and at Q, of the literal at I (side 0) and at J (side 1).
struct Sides {
    /// Both literals are in A, as for fac.
    alone: bool,
    pairs: [Pair; 2],
}

impl Sides {
    /// The number of the variable at a place; in one clause they all differ.
    fn variable(&self, side: usize, place: usize) -> usize {
        place + if self.alone { 2 * side } else { 0 }
    }

    fn written(&self, literal: &str, side: usize) -> String {
        put(literal, |place| {
            let variable = format!("(v {})", self.variable(side, place));
            self.pairs[place].terms[side].replace('X', &variable)
        })
    }

    fn filled(&self, side: usize, place: usize) -> String {
        let Pair { terms, fillings } = self.pairs[place];
        terms[side].replace('X', fillings[side])
    }

    fn agree(&self) -> bool {
        (0..2).all(|place| self.filled(0, place) == self.filled(1, place))
    }

    /// The list of a clause that has the literals of these sides.
    fn list(&self, sides: &[usize]) -> String {
        let mut entries = Vec::new();
        for (side, place) in sides.iter().flat_map(|&side| [(side, 0), (side, 1)]) {
            if self.pairs[place].terms[side].contains('X') {
                // Any term stands for a variable that isn't there.
                entries.resize(self.variable(side, place), "C".to_string());
                entries.push(self.pairs[place].fillings[side].into());
            }
        }
        row("let", &entries)
    }
}

/// A literal with the terms at P and at Q.
fn put(literal: &str, term: impl Fn(usize) -> String) -> String {
    literal.replace('P', &term(0)).replace('Q', &term(1))
}
