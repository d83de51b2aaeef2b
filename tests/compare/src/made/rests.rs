//! Refutations that rest on some of their inputs and not on others.

use second::generate::model::{uses_first, uses_second};

use super::{after_symbols, text, words, Made};

/// An input and a step that no refutation here uses; the step's parent is the
/// input, as clause 0.
const UNUSED: &str = "(+ (obj C)) (+ (obj C))";
const UNUSED_STEP: &str = "fac 0 0 0 1 0 (let) (let) (or (+ (obj C)))";
/// An input that a step of its own refutes, as clause 0.
const REFUTED: &str = "(- (obj C))";
const REFUTING: &str = "eli 0 0 0 0 0 (let) (let) (or)";

/// Inputs, and steps that end in the empty clause, their only one. They use all
/// the inputs but those that are named.
#[derive(Clone)]
pub(super) struct Refutation {
    inputs: Vec<String>,
    steps: Vec<String>,
    unused: Vec<usize>,
}

impl Refutation {
    fn new(inputs: &[&str], steps: &[&str]) -> Self {
        let owned = |lines: &[&str]| lines.iter().map(|line| line.to_string()).collect();
        Refutation {
            inputs: owned(inputs),
            steps: owned(steps),
            unused: Vec::new(),
        }
    }

    /// The same with one more input, which no step uses.
    fn with_input(&self, place: usize, clause: &str) -> Self {
        let mut inputs = self.inputs.clone();
        inputs.insert(place, clause.into());
        let moved = |&number: &usize| number + usize::from(number >= place);
        let mut unused: Vec<usize> = self.unused.iter().map(moved).collect();
        unused.push(place);
        Refutation {
            inputs,
            steps: self.steps.iter().map(|step| shifted(step, place)).collect(),
            unused,
        }
    }

    /// The same with one more step, which no step uses.
    fn with_step(&self, place: usize, step: &str) -> Self {
        let number = self.inputs.len() + place;
        let mut steps: Vec<String> = self.steps.iter().map(|s| shifted(s, number)).collect();
        steps.insert(place, step.into());
        Refutation {
            steps,
            ..self.clone()
        }
    }

    /// The text, made for the inputs that are used.
    pub(super) fn made(&self) -> Made {
        let used = (0..self.inputs.len()).filter(|number| !self.unused.contains(number));
        self.made_for(self.inputs.len() + self.steps.len() - 1, used)
    }

    /// The text, made for this first empty clause and these inputs.
    fn made_for(&self, first: usize, rests: impl IntoIterator<Item = usize>) -> Made {
        let inputs = self.inputs.iter().map(|clause| input(clause));
        let steps = self.steps.iter().map(|step| format!("(by {step})"));
        let lines: Vec<String> = inputs.chain(steps).collect();
        Made {
            text: after_symbols(&lines),
            expected: refuted(lines.len(), first, rests),
        }
    }
}

/// An in line.
fn input(clause: &str) -> String {
    format!("(in (or {clause}))").replace("(or )", "(or)")
}

/// Both lines of a refuted answer.
fn refuted(count: usize, first: usize, rests: impl IntoIterator<Item = usize>) -> String {
    let rests: String = rests.into_iter().map(|input| format!(" {input}")).collect();
    format!("refuted {count} {first}\nrests{rests}")
}

/// A step after a clause was put in: used parents from that number on are one
/// further.
fn shifted(step: &str, from: usize) -> String {
    renumbered(step, |number| number + usize::from(number >= from))
}

/// A step with other numbers for its used parents.
fn renumbered(step: &str, new: impl Fn(usize) -> usize) -> String {
    let mut words = words(step);
    let used = [(1, uses_first(&words[0])), (3, uses_second(&words[0]))];
    for (place, _) in used.into_iter().filter(|&(_, used)| used) {
        words[place] = new(words[place].parse().unwrap_or(0)).to_string();
    }
    words.join(" ")
}

/// The same with its inputs the other way round; all of them are used.
pub(super) fn turned(refutation: &Refutation) -> Refutation {
    let count = refutation.inputs.len();
    let new = |number| match number < count {
        true => count - 1 - number,
        false => number,
    };
    let steps = refutation.steps.iter().map(|step| renumbered(step, new));
    Refutation {
        inputs: refutation.inputs.iter().rev().cloned().collect(),
        steps: steps.collect(),
        unused: Vec::new(),
    }
}

/// For each rule a refutation with a step by it, in which all inputs are used;
/// for inh and inp one more, by a signature with none.
pub(super) fn by_each_rule() -> Vec<Refutation> {
    let mut all = vec![
        Refutation::new(
            &["(- (sub A A))"],
            &[
                "refl 0 0 0 0 0 (let A) (let) (or (+ (sub A A)))",
                "res 0 0 1 0 0 (let) (let) (or)",
            ],
        ),
        Refutation::new(
            &["(- (mem A X))", "(+ (mem X B))"],
            &["res 0 0 1 0 0 (let B) (let A) (or)"],
        ),
        Refutation::new(
            &["(- (mem A B)) (- (mem X B))", "(+ (mem A B))"],
            &[
                "fac 0 0 0 1 0 (let A) (let) (or (- (mem A B)))",
                "res 2 0 1 0 0 (let) (let) (or)",
            ],
        ),
        Refutation::new(&["(- (obj X))"], &["eli 0 0 0 0 0 (let A) (let) (or)"]),
        Refutation::new(
            &[
                "(- (mv A B (C) none))",
                "(+ (mol A (sv B () C) (mv B (X) X)))",
            ],
            &[
                "pro 1 0 0 0 1 (let C) (let) (or (+ (mv A B (C) C)))",
                "res 0 0 2 0 0 (let) (let) (or)",
            ],
        ),
    ];
    all.extend(FROM_TWO.map(from_two));
    all
}

/// A rule with two parents, its literals at I and at J, and the new one's atom.
type FromTwo = (&'static str, [&'static str; 2], &'static str);

const FROM_TWO: [FromTwo; 11] = [
    ("par", ["(+ (mem A C))", "(+ (eq A B))"], "(mem B C)"),
    ("acy", ["(+ (sub A B))", "(+ (sub B A))"], "(eq A B)"),
    ("tra", ["(+ (sub A B))", "(+ (sub B C))"], "(sub A C)"),
    ("inc", ["(+ (mem A B))", "(+ (sub B C))"], "(mem A C)"),
    (
        "inh",
        ["(+ (st A C () C))", "(+ (sub B A))"],
        "(st B C () C)",
    ),
    (
        "inp",
        ["(+ (mt C C (A) C))", "(+ (sub B A))"],
        "(mt C C (B) C)",
    ),
    (
        "inh",
        ["(+ (mt A C (C) none))", "(+ (sub B A))"],
        "(mt B C (C) none)",
    ),
    (
        "inp",
        ["(+ (st C C (A C) none))", "(+ (sub B A))"],
        "(st C C (B C) none)",
    ),
    (
        "out",
        ["(+ (st C C () A))", "(+ (sub A B))"],
        "(st C C () B)",
    ),
    (
        "sca",
        ["(+ (sv C C () A))", "(+ (sv C C () B))"],
        "(eq A B)",
    ),
    (
        "mer",
        [
            "(+ (sv A B () C))",
            "(+ (mol A (mv B (C) none) (st C () C)))",
        ],
        "(mol A (sv B () C) (mv B (C) none) (st C () C))",
    ),
];

/// The rule's step, and its claim resolved away.
fn from_two((rule, [first, second], atom): FromTwo) -> Refutation {
    let denied = format!("(- {atom})");
    let step = format!("{rule} 1 0 2 0 0 (let) (let) (or (+ {atom}))");
    Refutation::new(
        &[&denied, first, second],
        &[&step, "res 0 0 3 0 0 (let) (let) (or)"],
    )
}

pub fn texts() -> Vec<Made> {
    let mut all = Vec::new();
    for refutation in by_each_rule() {
        all.extend(with_unused_clauses(&refutation));
        all.extend(with_another_empty_clause(&refutation));
    }
    all.extend([empty_inputs(), same_parents(), used_again()].concat());
    all.extend([chain(1), chain(40), falling(12), all_lines()]);
    all
}

/// An unused input at each place, and once an unused step at each place. Before
/// all others the input is clause 0, which unused numbers name as well.
fn with_unused_clauses(refutation: &Refutation) -> Vec<Made> {
    let inputs = 0..=refutation.inputs.len();
    let mut all: Vec<Made> = inputs
        .map(|place| refutation.with_input(place, UNUSED).made())
        .collect();
    let both = refutation.with_input(0, UNUSED);
    let steps = 0..refutation.steps.len();
    all.extend(steps.map(|place| both.with_step(place, UNUSED_STEP).made()));
    all
}

/// Another empty clause, which descends from another input, after the first one
/// and before it.
fn with_another_empty_clause(refutation: &Refutation) -> Vec<Made> {
    let (inputs, steps) = (refutation.inputs.len(), refutation.steps.len());
    let refutation = refutation.with_input(0, REFUTED);
    let after = refutation.with_step(steps, REFUTING);
    let before = refutation.with_step(0, REFUTING);
    vec![
        after.made_for(inputs + steps, 1..=inputs),
        before.made_for(inputs + 1, [0]),
    ]
}

/// Empty inputs beside others, with and without a step that refutes another.
fn empty_inputs() -> Vec<Made> {
    let mut all = Vec::new();
    for empty in [&[0][..], &[1], &[2], &[3], &[1, 2], &[1, 3]] {
        let clause = |place| if empty.contains(&place) { "" } else { REFUTED };
        let inputs: Vec<&str> = (0..4).map(clause).collect();
        all.push(Refutation::new(&inputs, &[]).made_for(empty[0], [empty[0]]));
        if empty[0] > 0 {
            all.push(Refutation::new(&inputs, &[REFUTING]).made_for(empty[0], [empty[0]]));
        }
    }
    all
}

/// Steps whose parents A and B are the same clause, and their claim resolved
/// away.
fn same_parents() -> Vec<Made> {
    let rows = [
        ("acy", "(+ (sub A A))", "(eq A A)"),
        ("tra", "(+ (sub A A))", "(sub A A)"),
        ("par", "(+ (eq A A))", "(eq A A)"),
        ("sca", "(+ (si A B (C) A))", "(eq A A)"),
        (
            "mer",
            "(+ (sv A B () C))",
            "(mol A (sv B () C) (sv B () C))",
        ),
    ];
    let made = |(rule, parent, atom): (&str, &str, &str)| {
        let denied = format!("(- {atom})");
        let step = format!("{rule} 1 0 1 0 0 (let) (let) (or (+ {atom}))");
        let steps = [&step, "res 0 0 2 0 0 (let) (let) (or)"];
        Refutation::new(&[&denied, parent], &steps)
    };
    let unused = rows.map(|row| made(row).with_input(0, UNUSED).made());
    unused.to_vec()
}

/// Clauses that several steps use: an input, and a step from which two others
/// come that meet again.
fn used_again() -> Vec<Made> {
    let input = Refutation::new(
        &["(- (sub A C)) (- (sub B C))", "(+ (sub X C))"],
        &[
            "res 0 0 1 0 0 (let) (let A) (or (- (sub B C)))",
            "res 2 0 1 0 0 (let) (let B) (or)",
        ],
    );
    let diamond = Refutation::new(
        &[
            "(+ (sub A B)) (+ (sub A B))",
            "(+ (sub B C))",
            "(+ (sub C A))",
            "(- (sub A B))",
        ],
        &[
            "fac 0 0 0 1 0 (let) (let) (or (+ (sub A B)))",
            "tra 4 0 1 0 0 (let) (let) (or (+ (sub A C)))",
            "tra 2 0 4 0 0 (let) (let) (or (+ (sub C B)))",
            "tra 5 0 6 0 0 (let) (let) (or (+ (sub A B)))",
            "res 3 0 7 0 0 (let) (let) (or)",
        ],
    );
    let mut all = Vec::new();
    for refutation in [input, diamond] {
        all.push(refutation.made());
        all.extend([0, 1, 2].map(|place| refutation.with_input(place, UNUSED).made()));
    }
    all
}

/// A chain of so many steps, each of which uses the one before.
fn chain(length: usize) -> Made {
    let inputs = ["(+ (sub A B))", "(+ (sub B B))", "(- (sub A B))"];
    let before = [0].into_iter().chain(3..).take(length);
    let mut steps: Vec<String> = before
        .map(|number| format!("tra {number} 0 1 0 0 (let) (let) (or (+ (sub A B)))"))
        .collect();
    steps.push(format!("res 2 0 {} 0 0 (let) (let) (or)", length + 2));
    let steps: Vec<&str> = steps.iter().map(String::as_str).collect();
    Refutation::new(&inputs, &steps)
        .with_input(1, UNUSED)
        .made()
}

/// Links that are used from the last to the first, every second one not at all.
fn falling(links: usize) -> Made {
    let mut inputs = vec!["(+ (sub A A))"; links];
    inputs.push("(- (sub A A))");
    let used: Vec<usize> = (0..links).rev().step_by(2).collect();
    let mut steps = Vec::new();
    let mut last = used[0];
    for number in &used[1..] {
        steps.push(format!(
            "tra {last} 0 {number} 0 0 (let) (let) (or (+ (sub A A)))"
        ));
        last = links + steps.len();
    }
    steps.push(format!("res {links} 0 {last} 0 0 (let) (let) (or)"));
    let steps: Vec<&str> = steps.iter().map(String::as_str).collect();
    let rests = used.into_iter().rev().chain([links]);
    Refutation::new(&inputs, &steps).made_for(links + steps.len(), rests)
}

/// As many lines as there may be, and as many inputs used as can be: the longest
/// answer.
fn all_lines() -> Made {
    let (inputs, steps) = (512, 511);
    let mut lines = vec!["(sym 0)".to_string()];
    lines.extend(vec![input("(+ (sub A A))"); inputs - 1]);
    lines.push(input("(- (sub A A))"));
    let mut last = 0;
    for step in 0..steps - 1 {
        let link = step + 1;
        lines.push(format!(
            "(by tra {last} 0 {link} 0 0 (let) (let) (or (+ (sub A A))))"
        ));
        last = inputs + step;
    }
    lines.push(format!(
        "(by res {} 0 {last} 0 0 (let) (let) (or))",
        inputs - 1
    ));
    Made {
        text: text(&lines),
        expected: refuted(inputs + steps, inputs + steps - 1, 0..inputs),
    }
}
