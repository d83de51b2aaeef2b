//! Molecules: their forms and limits, which fit into which, par at each place of
//! one, and mer and pro.

use super::{after_symbols, step, Made, SYMBOLS};

pub fn texts() -> Vec<Made> {
    [
        forms(),
        limits(),
        fitting(),
        filled(),
        filled_by_one_list(),
        sixteen(),
        signs_and_claims(),
        occurrences(),
        object(),
        merged(),
        merged_to_the_limit(),
        projected(),
    ]
    .concat()
}

/// The atom of these parts with object A: an arrow atom of one, a molecule of
/// more.
fn of_a(parts: &[&str]) -> String {
    match parts {
        [part] => part.replacen(' ', " A ", 1),
        _ => format!("(mol A {})", parts.join(" ")),
    }
}

/// A clause of one literal.
fn unit(sign: char, atom: &str) -> String {
    format!("(or ({sign} {atom}))")
}

// ----- forms and limits -----

/// A clause of a molecule and another literal, in an in line and claimed by a
/// step that is otherwise right up to check 11, made to be refused by a number,
/// or to be read.
fn read(atom: &str, refused: Option<u8>) -> Vec<Made> {
    let clause = format!("(or (- (obj A)) (+ {atom}))");
    let claim = format!("(by refl 0 0 0 0 0 (let A) (let) {clause})");
    let lines = [format!("(in {clause})"), claim];
    let accepted = [
        "open 1".to_string(),
        format!("refused 11 {}", SYMBOLS.len() + 1),
    ];
    let made = lines
        .into_iter()
        .zip(accepted)
        .map(|(line, accepted)| Made {
            text: after_symbols(&[line]),
            expected: match refused {
                Some(number) => format!("refused {number} {}", SYMBOLS.len() + 1),
                None => accepted,
            },
        });
    made.collect()
}

/// Molecules that are forms, and some that aren't: with fewer than two parts,
/// with something else for a part, and one inside another.
fn forms() -> Vec<Made> {
    let part = "(sv B () C)";
    let right = [
        format!("(mol A {part} {part})"),
        format!("(mol X {part} (mv Y (A X) none) (mi A () none))"),
        "(mol (f 3 X) (st (f 3 A) (B) none) (mt Y (B C) (f 4 A X)))".into(),
        "(mol A (si A () A) (sv A (A A A A A A A A) A) (mv A () A))".into(),
    ];
    let molecule = &right[0];
    let wrong = [
        "(mol)".to_string(),
        "(mol A)".into(),
        format!("(mol A {part})"),
        "(mol A (mv B () none))".into(),
        format!("(mol {part} {part})"),
        format!("(mol A {part} A)"),
        format!("(mol A A {part})"),
        format!("(mol A {part} none)"),
        format!("(mol A none {part})"),
        format!("(mol A {part} ())"),
        format!("(mol A {part} {part} none)"),
        format!("(mol A {part} {part} A)"),
        format!("(mol A {part} {part} ())"),
        format!("(mol A none {part} {part})"),
        format!("(mol A A {part} {part})"),
        format!("(mol none {part} {part})"),
        // With its own object, with too few items or too many.
        format!("(mol A {part} (sv A B () C))"),
        format!("(mol A (sv A B () C) {part})"),
        format!("(mol A {part} (sv () C))"),
        format!("(mol A {part} (sv B C))"),
        format!("(mol A {part} (sv B ()))"),
        format!("(mol A {part} (sv B () C C))"),
        format!("(mol A {part} (sv B (none) C))"),
        format!("(mol A {part} (sv none () C))"),
        format!("(mol A {part} (sv B () none))"),
        format!("(mol A (si B () none) {part})"),
        format!("(mol A (mv B () none none) {part})"),
        // Atoms that are no parts, and words that are none.
        format!("(mol A {part} (eq B C))"),
        format!("(mol A (mem B C) {part})"),
        format!("(mol A {part} (obj B))"),
        format!("(mol A {part} (mol B () C))"),
        format!("(mol A {part} (ss B () C))"),
        format!("(mol A {part} (B () C))"),
        format!("(mol A {part} {molecule})"),
        format!("(mol A {molecule} {part})"),
        format!("(mol {molecule} {part} {part})"),
        format!("(mol A ({part} {part}))"),
        // Spaces and brackets.
        format!("(mol A {part}{part})"),
        format!("(mol A {part}  {part})"),
        format!("(mol A  {part} {part})"),
        format!("(mol  A {part} {part})"),
        format!("(mol A{part} {part})"),
        format!("(mol A {part} {part} )"),
        format!("(mol A {part} ( sv B () C))"),
        format!("(mol A {part} (sv B () C ))"),
        format!("(mol A {part} (sv B ()C))"),
        format!("(mol A {part} (sv B() C))"),
        format!("(mol A {part} {part}"),
        format!("(mol A {part} {part}))"),
        format!("mol A {part} {part}"),
        format!("(sv A {part} {part})"),
        format!("(sv A B () C {part})"),
    ];
    let right = right.iter().flat_map(|atom| read(atom, None));
    right
        .chain(wrong.iter().flat_map(|atom| read(atom, Some(2))))
        .collect()
}

/// 2 to 16 parts and more; 8 arguments and 9 in one of the parts; variables and
/// symbols in one; and parts behind those past a limit that are no form.
fn limits() -> Vec<Made> {
    let mut all = Vec::new();
    for (count, refused) in [
        (1, Some(2)),
        (2, None),
        (3, None),
        (15, None),
        (16, None),
        (17, Some(5)),
        (18, Some(5)),
    ] {
        for part in ["(sv A () B)", "(mt A (X) none)"] {
            let parts = format!(" {part}").repeat(count);
            all.extend(read(&format!("(mol C{parts})"), refused));
        }
    }
    // Counts that a byte would take for 1, 2 and 16.
    for count in [257, 258, 272] {
        let parts = " (mv A () none)".repeat(count);
        all.push(read(&format!("(mol C{parts})"), Some(5)).swap_remove(0));
    }
    let many = " (sv A () B)".repeat(17);
    for (tail, refused) in [("(sv A () none)", 2), ("A", 2), ("(mv A (f 9) none)", 2)] {
        all.extend(read(&format!("(mol C{many} {tail})"), Some(refused)));
    }
    // 5 comes before 6, wherever they stand.
    for tail in ["(sv (f 9) () B)", "(sv A () (v 32))"] {
        all.extend(read(&format!("(mol C {tail}{many})"), Some(5)));
    }
    let wide = |count: usize| format!("(mv A ({}) none)", vec!["B"; count].join(" "));
    for (term, refused) in [("(v 31)", None), ("(v 32)", Some(5)), ("(f 5)", Some(6))] {
        for place in 0..4 {
            let [object, method, argument, result] =
                [0, 1, 2, 3].map(|at| if at == place { term } else { "A" });
            for count in [0, 1, 14] {
                let others = " (sv B () C)".repeat(count);
                let part = format!("(mt {method} ({argument}) {result})");
                all.extend(read(
                    &format!("(mol {object}{others} {part} (si A () A))"),
                    refused,
                ));
            }
        }
    }
    for (count, refused) in [(8, None), (9, Some(5)), (10, Some(5))] {
        for place in 0..3 {
            let parts = [0, 1, 2].map(|at| wide(if at == place { count } else { 8 }));
            all.extend(read(&format!("(mol C {})", parts.join(" ")), refused));
        }
    }
    all
}

// ----- fits into -----

/// Parts of the atom at I and of the one at J, and whether it fits into it.
type Row = (&'static [&'static str], &'static [&'static str], bool);

const P: &str = "(sv B () C)";
const Q: &str = "(mv B (C) A)";
const Q_NONE: &str = "(mv B (C) none)";
const R: &str = "(st C (A B) none)";

const ROWS: [Row; 32] = [
    (&[P, Q], &[P, Q], true),
    (&[P, Q], &[Q, P], true),
    (&[P, Q], &[R, P, Q], true),
    (&[P, Q], &[Q, R, P], true),
    (&[Q, P, R], &[R, Q, P], true),
    // Parts that are covered by the same one.
    (&[P, P], &[Q, P], true),
    (&[Q, P, Q, P], &[P, Q], true),
    // A part that none covers: the first, the last, one in the middle.
    (&[P, Q], &[Q, R], false),
    (&[Q, P], &[Q, R], false),
    (&[Q, P, R], &[Q, R], false),
    (&[P, Q, R], &[P, Q], false),
    (&[P, Q], &[P, P], false),
    (&[P, Q], &[Q, Q], false),
    // Terms cover none, and none covers no term.
    (&[P, Q_NONE], &[P, Q], true),
    (&[Q_NONE, P], &[P, Q], true),
    (&[Q_NONE, P], &[P, Q_NONE], true),
    (&[Q, Q_NONE], &[P, Q], true),
    (&[P, Q], &[P, Q_NONE], false),
    (&[Q, P], &[P, Q_NONE], false),
    (&[P, Q], &[Q_NONE, P, Q], true),
    // An arrow atom on one side.
    (&[P], &[P, Q], true),
    (&[P], &[Q, R, P], true),
    (&[Q_NONE], &[P, Q], true),
    (&[Q], &[P, Q_NONE], false),
    (&[R], &[P, Q], false),
    (&[P, P], &[P], true),
    (&[Q_NONE, Q], &[Q], true),
    (&[Q, Q_NONE], &[Q_NONE], false),
    (&[P, Q], &[P], false),
    (&[P, Q], &[Q], false),
    (&[P, P, P], &[P, Q], true),
    (&[P, Q, P], &[P, Q], true),
];

/// A part, and others that differ from it in one place or in the number of their
/// arguments.
const PART: &str = "(mt A (B C) A)";
const OTHERS: [&str; 12] = [
    "(st A (B C) A)",
    "(mv A (B C) A)",
    "(mi A (B C) A)",
    "(mt C (B C) A)",
    "(mt A (C C) A)",
    "(mt A (B B) A)",
    "(mt A (C B) A)",
    "(mt A (B C) C)",
    "(mt A (B) A)",
    "(mt A (B C A) A)",
    "(mt A (B C A) none)",
    "(mt A (B) C)",
];

fn fitting() -> Vec<Made> {
    let mut all = Vec::new();
    for (first, second, fits) in ROWS {
        let (first, second) = (of_a(first), of_a(second));
        let refused = if fits { None } else { Some(10) };
        all.extend(fitted(&first, &second, refused));
        // Objects that differ.
        all.push(resolved(
            &first.replacen(" A ", " B ", 1),
            &second,
            Some(10),
        ));
        all.push(resolved(
            &first,
            &second.replacen(" A ", " B ", 1),
            Some(10),
        ));
    }
    for other in OTHERS {
        for (one, other) in [(PART, other), (other, PART)] {
            all.push(resolved(&of_a(&[P, one]), &of_a(&[P, other]), Some(10)));
            all.push(resolved(&of_a(&[one]), &of_a(&[other, P]), Some(10)));
            all.push(resolved(&of_a(&[one, P]), &of_a(&[P, other, P]), Some(10)));
        }
    }
    for other in ["(eq A A)", "(mem A A)", "(sub A A)", "(obj A)"] {
        all.extend(fitted(&of_a(&[P, Q]), other, Some(10)));
        all.extend(fitted(other, &of_a(&[P, Q]), Some(10)));
    }
    all
}

/// The first atom at I and the second at J, by res.
fn resolved(first: &str, second: &str, refused: Option<u8>) -> Made {
    let inputs = [unit('-', first), unit('+', second)];
    let line = "(by res 0 0 1 0 0 (let) (let) (or))";
    step(&inputs, line.into(), refused, "refuted 3 2\nrests 0 1")
}

/// The same, and by both kinds of fac.
fn fitted(first: &str, second: &str, refused: Option<u8>) -> Vec<Made> {
    let mut all = vec![resolved(first, second, refused)];
    for (sign, stays) in [('+', first), ('-', second)] {
        let clause = format!("(or ({sign} {second}) (+ (obj C)) ({sign} {first}))");
        let others = ["(+ (obj C))".to_string(), format!("({sign} {stays})")];
        let claim = match sign {
            '+' => others.join(" "),
            _ => format!("{} {}", others[1], others[0]),
        };
        let line = format!("(by fac 0 2 0 0 0 (let) (let) (or {claim}))");
        all.push(step(&[clause], line, refused, "open 2"));
    }
    all
}

/// Atoms with variables on one side and on both, and lists under which the one
/// fits into the other, or doesn't for a single term.
fn filled() -> Vec<Made> {
    let both = [
        "(mol X (sv B () Y) (mv Y (X) none))",
        "(mol Y (mv (f 3 X) (Y) X) (si A () A) (sv B () (f 3 X)))",
    ];
    let first = [
        "(mol X (sv X () B) (mv B (Y) none))",
        "(mol A (mv B (C) A) (sv A () B))",
    ];
    let second = [
        "(mol A (sv A () B) (mv B (C) none))",
        "(mol X (mv Y (C) X) (sv X () Y))",
    ];
    let into_arrow = ["(mol X (mv B (Y) none) (mv Y (B) X))", "(mv X Y (Y) X)"];
    let arrow = ["(mv X B (Y) none)", "(mol Y (sv A () X) (mv X (C) Y))"];
    let rows: [([&str; 2], [&str; 2], bool); 26] = [
        (both, ["A (f 3 B)", "B A"], true),
        (both, ["A (f 3 B)", "B C"], false),
        (both, ["C (f 3 B)", "B A"], false),
        (both, ["A (f 3 C)", "B A"], false),
        (both, ["A (f 3 B)", "C A"], false),
        (both, ["A B", "B A"], false),
        (both, ["B A", "A (f 3 B)"], false),
        (both, ["X (f 3 Y)", "Y X"], true),
        (both, ["X (f 3 Y)", "X Y"], false),
        (first, ["A C", ""], true),
        (first, ["B C", ""], false),
        (first, ["A B", ""], false),
        (first, ["C A", ""], false),
        (second, ["", "A B"], true),
        (second, ["", "B B"], false),
        (second, ["", "A C"], false),
        (second, ["", "B A"], false),
        (into_arrow, ["A B", "A B"], true),
        (into_arrow, ["A B", "A C"], false),
        (into_arrow, ["A C", "A C"], false),
        (into_arrow, ["C B", "A B"], false),
        (into_arrow, ["C B", "C B"], true),
        (arrow, ["A C", "B A"], true),
        (arrow, ["A B", "B A"], false),
        (arrow, ["B C", "B A"], false),
        (arrow, ["A C", "C A"], false),
    ];
    let row = |(atoms, lists, fits): ([&str; 2], [&str; 2], bool)| {
        let inputs = [unit('-', atoms[0]), unit('+', atoms[1])];
        let [first, second] = lists.map(|list| format!("(let {list})").replace("(let )", "(let)"));
        let line = format!("(by res 0 0 1 0 0 {first} {second} (or))");
        let refused = if fits { None } else { Some(10) };
        step(&inputs, line, refused, "refuted 3 2\nrests 0 1")
    };
    rows.map(row).to_vec()
}

/// The same in one clause, by fac: both literals are filled by A's list.
fn filled_by_one_list() -> Vec<Made> {
    let rows = [
        (
            "(mol X (mv B (Y) none) (sv X () Y))",
            "(mol A (sv A () X) (mv B (A) C))",
        ),
        ("(mv X B (Y) none)", "(mol A (sv A () X) (mv B (A) C))"),
        ("(mol X (mi X () A) (mi A () Y))", "(mi A Y () X)"),
    ];
    let mut all = Vec::new();
    for ((first, second), list) in rows
        .into_iter()
        .flat_map(|row| ["A A", "A B", "B A", "B B"].map(|list| (row, list)))
    {
        let terms: Vec<&str> = list.split(' ').collect();
        let fill = |atom: &str| atom.replace('X', terms[0]).replace('Y', terms[1]);
        for sign in ['+', '-'] {
            let clause = format!("(or ({sign} {first}) (+ (eq X Y)) ({sign} {second}))");
            let other = fill("(+ (eq X Y))");
            let claim = match sign {
                '+' => format!("(+ {}) {other}", fill(first)),
                _ => format!("{other} (- {})", fill(second)),
            };
            let line = format!("(by fac 0 0 0 2 0 (let {list}) (let) (or {claim}))");
            let refused = if list == "A A" { None } else { Some(10) };
            all.push(step(&[clause], line, refused, "open 2"));
        }
    }
    all
}

/// Molecules of 16 parts that differ, and of as many that don't.
fn sixteen() -> Vec<Made> {
    let arrows = ["sv", "si", "mv", "mi", "st", "mt"];
    let of_result = |result| arrows.map(|arrow| format!("({arrow} B () {result})"));
    let parts: Vec<String> = ["A", "B", "C"].into_iter().flat_map(of_result).collect();
    let parts: Vec<&str> = parts[..16].iter().map(String::as_str).collect();
    let turned: Vec<&str> = parts.iter().rev().copied().collect();
    let (all, turned) = (of_a(&parts), of_a(&turned));
    let mut made = fitted(&all, &all, None);
    made.extend(fitted(&all, &turned, None));
    for place in [0, 7, 15] {
        let (one, without) = (
            parts[place],
            [&parts[..place], &parts[place + 1..]].concat(),
        );
        made.extend(fitted(&of_a(&[one]), &all, None));
        made.extend(fitted(&all, &of_a(&[one]), Some(10)));
        made.extend(fitted(&of_a(&[one; 16]), &of_a(&[one]), None));
        made.push(resolved(&of_a(&[one; 16]), &turned, None));
        made.push(resolved(&of_a(&without), &all, None));
        made.push(resolved(&all, &of_a(&without), Some(10)));
        made.push(resolved(&of_a(&[one; 2]), &of_a(&without), Some(10)));
        made.extend(fitted(&of_a(&[one, parts[3]]), &all, None));
        made.extend(fitted(&all, &of_a(&[one, parts[3]]), Some(10)));
        // One part of sixteen differs at its end.
        let mut other = parts.clone();
        other[place] = "(mv B () (f 3 A))";
        made.push(resolved(&of_a(&other), &turned, Some(10)));
        made.push(resolved(&all, &of_a(&other), Some(10)));
    }
    made
}

/// res and fac of atoms the first of which fits into the second: with other
/// signs and positions, and with other claims.
fn signs_and_claims() -> Vec<Made> {
    let mut all = Vec::new();
    let rows: [[&[&str]; 2]; 3] = [[&[P, Q], &[Q, P, R]], [&[Q_NONE], &[P, Q]], [&[P, P], &[P]]];
    for [first, second] in rows.map(|parts| parts.map(of_a)) {
        let res = |signs: [char; 2], claim: &str, refused: Option<u8>| {
            let inputs = [
                format!("(or ({} {first}) (+ (obj C)))", signs[0]),
                format!("(or ({} {second}) (- (obj B)))", signs[1]),
            ];
            let line = format!("(by res 0 0 1 0 0 (let) (let) (or {claim}))");
            step(&inputs, line, refused, "open 3")
        };
        let right = "(+ (obj C)) (- (obj B))";
        all.push(res(['-', '+'], right, None));
        for signs in [['+', '+'], ['-', '-'], ['+', '-']] {
            all.push(res(signs, right, Some(9)));
        }
        all.extend([
            res(['-', '+'], "(- (obj B)) (+ (obj C))", Some(11)),
            res(['-', '+'], "(+ (obj C))", Some(11)),
            res(['-', '+'], "(- (obj C)) (- (obj B))", Some(11)),
            res(['-', '+'], "(+ (obj C)) (- (obj A))", Some(11)),
            res(['-', '+'], &format!("(- {first}) {right}"), Some(11)),
            res(['-', '+'], &format!("(+ {second}) {right}"), Some(11)),
        ]);
        for sign in ['+', '-'] {
            all.extend(factored(sign, &first, &second));
        }
    }
    all
}

/// The same for fac, with this sign.
fn factored(sign: char, first: &str, second: &str) -> Vec<Made> {
    let other = if sign == '+' { '-' } else { '+' };
    let fac = |second_sign: char, [i, j]: [usize; 2], claim: &str, refused: Option<u8>| {
        let clause = format!("(or ({sign} {first}) (+ (obj C)) ({second_sign} {second}))");
        let line = format!("(by fac 0 {i} 0 {j} 0 (let) (let) (or {claim}))");
        step(&[clause], line, refused, "open 2")
    };
    let keeps_first = format!("({sign} {first}) (+ (obj C))");
    let keeps_second = format!("(+ (obj C)) ({sign} {second})");
    let (right, wrong) = match sign {
        '+' => (&keeps_first, &keeps_second),
        _ => (&keeps_second, &keeps_first),
    };
    vec![
        fac(sign, [0, 2], right, None),
        fac(sign, [0, 2], wrong, Some(11)),
        fac(sign, [0, 2], "(+ (obj C))", Some(11)),
        fac(
            sign,
            [0, 2],
            &format!("{keeps_first} ({sign} {second})"),
            Some(11),
        ),
        fac(other, [0, 2], right, Some(9)),
        fac(other, [2, 0], wrong, Some(9)),
        fac(sign, [0, 0], right, Some(9)),
        fac(sign, [2, 2], wrong, Some(9)),
        fac(sign, [0, 3], right, Some(9)),
        fac(sign, [0, 1], right, Some(if sign == '+' { 10 } else { 9 })),
    ]
}

// ----- par -----

/// A molecule whose terms are all A, but for (f 3 A) as the first method; the
/// arrow, the arguments and whether there is a term result, for each part.
const PARTS: [(&str, usize, bool); 4] = [
    ("mv", 1, true),
    ("si", 0, true),
    ("mt", 2, false),
    ("st", 1, true),
];

/// The molecule with B in place of one occurrence of A, or of more.
fn with_b(at: &[usize]) -> String {
    let mut number = 0;
    let mut next = || {
        let term = if at.contains(&number) { "B" } else { "A" };
        number += 1;
        term
    };
    let mut molecule = format!("(mol {}", next());
    for (place, (arrow, arguments, has_result)) in PARTS.into_iter().enumerate() {
        let method = match place {
            0 => format!("(f 3 {})", next()),
            _ => next().to_string(),
        };
        let arguments: Vec<&str> = (0..arguments).map(|_| next()).collect();
        let result = if has_result { next() } else { "none" };
        molecule += &format!(" ({arrow} {method} ({}) {result})", arguments.join(" "));
    }
    molecule + ")"
}

/// How many occurrences of A the molecule has.
const COUNT: usize = 12;

/// par at each occurrence of A in the molecule, with the claim of that one, of
/// the one before and of the one behind; and one past the last.
fn occurrences() -> Vec<Made> {
    let mut all = Vec::new();
    for sign in ['+', '-'] {
        let by = |k: usize, new: &str, refused: Option<u8>| {
            let inputs = [unit(sign, &with_b(&[])), unit('+', "(eq A B)")];
            let line = format!("(by par 0 0 1 0 {k} (let) (let) {})", unit(sign, new));
            step(&inputs, line, refused, "open 3")
        };
        for at in 0..COUNT {
            // Occurrence 1 is (f 3 A), before the A that it holds.
            let k = if at == 0 { 0 } else { at + 1 };
            all.push(by(k, &with_b(&[at]), None));
            for other in [(at + COUNT - 1) % COUNT, (at + 1) % COUNT] {
                if sign == '+' {
                    all.push(by(k, &with_b(&[other]), Some(11)));
                    all.push(by(k, &with_b(&[at, other]), Some(11)));
                }
            }
        }
        all.push(by(1, &with_b(&[1]), Some(10)));
        for past in [COUNT + 1, COUNT + 2, 65_535] {
            all.push(by(past, &with_b(&[COUNT - 1]), Some(9)));
        }
    }
    all
}

/// The object is replaced for all atoms at once, for it stands once; and what
/// fills the molecule isn't counted.
fn object() -> Vec<Made> {
    let by = |k: usize, atom: &str, new: &str, refused: Option<u8>| {
        let inputs = [unit('+', atom), unit('+', "(eq A B)")];
        let list = if atom.contains('X') {
            "(let (f 3 A))"
        } else {
            "(let)"
        };
        let line = format!("(by par 0 0 1 0 {k} {list} (let) (or (+ {new})))");
        step(&inputs, line, refused, "open 3")
    };
    let atom = "(mol A (sv C () A) (sv C () A) (mv C (C) A))";
    let new = "(mol B (sv C () A) (sv C () A) (mv C (C) A))";
    let filled = "(mol X (sv A () X) (sv X () A))";
    vec![
        by(0, atom, new, None),
        by(
            0,
            atom,
            "(mol B (sv C () B) (sv C () A) (mv C (C) A))",
            Some(11),
        ),
        by(0, atom, atom, Some(11)),
        by(
            2,
            atom,
            "(mol A (sv C () B) (sv C () A) (mv C (C) A))",
            None,
        ),
        by(
            3,
            atom,
            "(mol A (sv C () B) (sv C () A) (mv C (C) A))",
            Some(10),
        ),
        by(
            3,
            atom,
            "(mol B (sv C () A) (sv C () A) (mv C (C) A))",
            Some(10),
        ),
        by(
            4,
            atom,
            "(mol A (sv C () A) (sv C () B) (mv C (C) A))",
            None,
        ),
        by(
            7,
            atom,
            "(mol A (sv C () A) (sv C () A) (mv C (C) B))",
            None,
        ),
        by(
            8,
            atom,
            "(mol A (sv C () A) (sv C () A) (mv C (C) B))",
            Some(9),
        ),
        by(
            9,
            atom,
            "(mol A (sv C () A) (sv C () A) (mv C (C) B))",
            Some(9),
        ),
        by(
            0,
            filled,
            "(mol (f 3 B) (sv A () (f 3 A)) (sv (f 3 A) () A))",
            Some(10),
        ),
        by(
            1,
            filled,
            "(mol (f 3 A) (sv B () (f 3 A)) (sv (f 3 A) () A))",
            None,
        ),
        by(
            1,
            filled,
            "(mol (f 3 B) (sv A () (f 3 A)) (sv (f 3 A) () A))",
            Some(11),
        ),
        by(
            4,
            filled,
            "(mol (f 3 A) (sv A () (f 3 A)) (sv (f 3 A) () B))",
            None,
        ),
        by(
            5,
            filled,
            "(mol (f 3 A) (sv A () (f 3 A)) (sv (f 3 A) () B))",
            Some(9),
        ),
        by(
            7,
            filled,
            "(mol (f 3 A) (sv A () (f 3 A)) (sv (f 3 A) () B))",
            Some(9),
        ),
    ]
}

// ----- mer and pro -----

/// mer of arrow atoms and molecules, right and wrong in one place.
fn merged() -> Vec<Made> {
    let sides: [&[&str]; 4] = [&[P], &[Q_NONE], &[P, Q], &[Q_NONE, P, R]];
    let mut all = Vec::new();
    for (one, other) in sides
        .iter()
        .flat_map(|one| sides.map(|other| (*one, other)))
    {
        let (first, second) = (of_a(one), of_a(other));
        let by = |inputs: [String; 2], new: &str, refused: Option<u8>| {
            let line = format!("(by mer 0 0 1 0 0 (let) (let) (or {new}))");
            step(&inputs, line, refused, "open 3")
        };
        let units = || [unit('+', &first), unit('+', &second)];
        let atoms = |parts: &[&[&str]]| format!("(+ {})", of_a(&parts.concat()));
        let new = atoms(&[one, other]);
        all.push(by(units(), &new, None));
        if atoms(&[other, one]) != new {
            all.push(by(units(), &atoms(&[other, one]), Some(11)));
        }
        all.push(by(units(), &atoms(&[one]), Some(11)));
        all.push(by(units(), &atoms(&[other]), Some(11)));
        all.push(by(units(), &atoms(&[one, other, other]), Some(11)));
        all.push(by(units(), &new.replacen("(+", "(-", 1), Some(11)));
        all.push(by(units(), &new.replacen(" A ", " B ", 1), Some(11)));
        let differ = second.replacen(" A ", " B ", 1);
        all.push(by([unit('+', &first), unit('+', &differ)], &new, Some(10)));
        let differ = first.replacen(" A ", " B ", 1);
        all.push(by([unit('+', &differ), unit('+', &second)], &new, Some(10)));
        all.push(by([unit('-', &first), unit('+', &second)], &new, Some(9)));
        all.push(by([unit('+', &first), unit('-', &second)], &new, Some(9)));
    }
    all
}

/// mer to 15, 16 and 17 parts and more; and to 16 parts of 17.
fn merged_to_the_limit() -> Vec<Made> {
    let mut all = Vec::new();
    for (one, other) in [
        (8, 7),
        (15, 1),
        (1, 15),
        (8, 8),
        (14, 2),
        (16, 1),
        (1, 16),
        (8, 9),
        (2, 15),
        (16, 16),
    ] {
        let parts = |count: usize, part: &'static str| vec![part; count];
        let both = [parts(one, P), parts(other, Q_NONE)];
        let inputs = both.clone().map(|parts| unit('+', &of_a(&parts)));
        let new = both.concat();
        let by = |new: &[&str], refused: Option<u8>| {
            let line = format!("(by mer 0 0 1 0 0 (let) (let) {})", unit('+', &of_a(new)));
            step(&inputs, line, refused, "open 3")
        };
        let refused = (new.len() > 16).then_some(5);
        all.push(by(&new, refused));
        all.push(by(&new[..16.min(new.len() - 1)], Some(11)));
        all.push(by(&new[new.len() - 15..], (new.len() > 15).then_some(11)));
    }
    all
}

/// pro of each part, of the one behind the last, of an arrow atom and of a
/// negative molecule; and with the claim wrong in one place.
fn projected() -> Vec<Made> {
    let by = |k: usize, input: &str, new: &str, refused: Option<u8>| {
        let inputs = [format!("(or (- (obj C)) {input} (+ (obj B)))")];
        let line = format!("(by pro 0 1 0 0 {k} (let) (let) (or {new} (- (obj C)) (+ (obj B))))");
        step(&inputs, line, refused, "open 2")
    };
    let positive = |parts: &[&str]| format!("(+ {})", of_a(parts));
    let mut all = Vec::new();
    let rows: [&[&str]; 4] = [&[P, Q], &[Q_NONE, P], &[R, Q, P], &[P, R, P, Q]];
    for parts in rows {
        let input = positive(parts);
        for (k, part) in parts.iter().enumerate() {
            let new = positive(&[part]);
            all.push(by(k, &input, &new, None));
            for (other, differs) in parts.iter().enumerate() {
                if differs != part {
                    all.push(by(other, &input, &new, Some(11)));
                }
            }
            all.push(by(k, &input.replacen("(+", "(-", 1), &new, Some(9)));
            all.push(by(k, &input, &new.replacen("(+", "(-", 1), Some(11)));
            all.push(by(k, &input, &new.replacen(" A ", " B ", 1), Some(11)));
            all.push(by(k, &input, &input, Some(11)));
            all.push(by(k, &new, &new, Some(9)));
        }
        let last = positive(&parts[parts.len() - 1..]);
        for past in [0, 1, 65_535 - parts.len()] {
            all.push(by(parts.len() + past, &input, &last, Some(9)));
        }
    }
    // A term isn't dropped, and none isn't filled.
    all.push(by(1, &positive(&[P, Q]), &positive(&[Q_NONE]), Some(11)));
    all.push(by(1, &positive(&[P, Q_NONE]), &positive(&[Q]), Some(11)));
    let many: Vec<&str> = [&[P; 15][..], &[Q_NONE]].concat();
    for (k, part, refused) in [
        (0, P, None),
        (14, P, None),
        (15, Q_NONE, None),
        (15, P, Some(11)),
        (16, Q_NONE, Some(9)),
    ] {
        all.push(by(k, &positive(&many), &positive(&[part]), refused));
    }
    // Filled: the object and the part, by A's list alone.
    for (list, new, refused) in [
        ("A B", "(mv A B (A) none)", None),
        ("B A", "(mv B A (B) none)", None),
        ("A B", "(mv A B (B) none)", Some(11)),
        ("A B", "(mv X Y (X) none)", Some(11)),
        ("A", "(mv A B (A) none)", Some(8)),
    ] {
        let inputs = [unit('+', "(mol X (sv A () Y) (mv Y (X) none))")];
        let line = format!("(by pro 0 0 0 0 1 (let {list}) (let) (or (+ {new})))");
        all.push(step(&inputs, line, refused, "open 2"));
    }
    all
}
