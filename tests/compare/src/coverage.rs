//! What a set of texts covers: the verdicts, and for each rule how many steps
//! were accepted and how many texts each number refused at such a step; the
//! same for steps on a signature with none, and on a molecule.

use std::collections::{BTreeMap, BTreeSet};
use std::fmt;

use second::generate::model::{uses_first, uses_second, RULES};
use second::{check, Verdict};

use crate::made::literals;

/// The numbers of the checks that a line can fail.
const CHECKS: std::ops::RangeInclusive<u8> = 2..=11;

/// What a text is in a table of coverage.
#[derive(Clone, Debug, PartialEq, Eq, PartialOrd, Ord)]
pub enum Class {
    Open,
    Refuted,
    /// Refused by a number, on a line that begins with this word, or on no
    /// line; the word of a by line is its rule.
    Refused(u8, String),
}

impl Class {
    /// The kind of the verdict: its word and, where refused, its number.
    pub fn name(&self) -> String {
        match self {
            Class::Open => "open".into(),
            Class::Refuted => "refuted".into(),
            Class::Refused(number, _) => format!("refused {number}"),
        }
    }
}

/// The class of a text.
pub fn classify(text: &[u8]) -> Class {
    class_of(text, check(text).verdict)
}

/// The class of a text whose verdict is known.
fn class_of(text: &[u8], verdict: Verdict) -> Class {
    match verdict {
        Verdict::Open { .. } => Class::Open,
        Verdict::Refuted { .. } => Class::Refuted,
        Verdict::Refused { number, line } => {
            let line = line.checked_sub(1);
            let line = line.and_then(|index| text.split(|&byte| byte == b'\n').nth(index));
            Class::Refused(number, line.map(word).unwrap_or_default())
        }
    }
}

/// The rule of a by line; of any other line "sym", "in", "by" or "other".
fn word(line: &[u8]) -> String {
    let rule = (RULES.iter()).find(|rule| line.starts_with(format!("(by {rule} ").as_bytes()));
    let word = ["sym", "in", "by"];
    let word = (word.iter()).find(|word| line.starts_with(format!("({word} ").as_bytes()));
    rule.or(word).unwrap_or(&"other").to_string()
}

/// The rules of the steps of a text, in order, with repetitions.
pub fn rules_of(text: &[u8]) -> Vec<&'static str> {
    let lines = text.split(|&byte| byte == b'\n');
    lines
        .filter_map(|line| {
            let step = |rule: &&&str| line.starts_with(format!("(by {rule} ").as_bytes());
            RULES.iter().find(step).copied()
        })
        .collect()
}

/// What a step is looked at for.
#[derive(Clone, Copy, Debug, PartialEq, Eq, PartialOrd, Ord)]
pub enum Subject {
    /// A positive signature with none at I.
    Bare,
    /// A molecule at I.
    MoleculeAtI,
    /// A molecule at J.
    MoleculeAtJ,
}

/// The steps of a text on one of the subjects: the number of the line, and the
/// rule.
fn steps_on_subjects(text: &str) -> Vec<(usize, &'static str, Subject)> {
    let mut clauses: Vec<Vec<String>> = Vec::new();
    let mut steps = Vec::new();
    for (line_number, line) in (1..).zip(text.lines()) {
        let Some((start, clause)) = line.split_once("(or") else {
            continue;
        };
        let words: Vec<&str> = start.split(' ').collect();
        if let ["(by", word, a, i, b, j, ..] = words[..] {
            let numbers = [a, i, b, j].map(|word| word.parse().unwrap_or(usize::MAX));
            if let Some(rule) = RULES.into_iter().find(|known| *known == word) {
                let subjects = subjects(&clauses, rule, numbers);
                steps.extend(subjects.map(|subject| (line_number, rule, subject)));
            }
        }
        clauses.push(literals(clause));
    }
    steps
}

/// What a step by a rule is on, by its numbers A I B J.
fn subjects(
    clauses: &[Vec<String>],
    rule: &str,
    [a, i, b, j]: [usize; 4],
) -> impl Iterator<Item = Subject> {
    let literal = |used: bool, clause: usize, place: usize| {
        let clause = clauses.get(clause).filter(|_| used);
        clause.and_then(|clause| clause.get(place))
    };
    let first = literal(uses_first(rule), a, i);
    let second = match rule {
        "fac" => literal(true, a, j),
        _ => literal(uses_second(rule), b, j),
    };
    let found = [
        (Subject::Bare, first.is_some_and(|first| is_bare(first))),
        (
            Subject::MoleculeAtI,
            first.is_some_and(|first| is_molecule(first)),
        ),
        (
            Subject::MoleculeAtJ,
            second.is_some_and(|second| is_molecule(second)),
        ),
    ];
    let found = found.into_iter().filter(|&(_, found)| found);
    found.map(|(subject, _)| subject)
}

/// Whether a literal is a positive signature with none.
fn is_bare(literal: &str) -> bool {
    let signature = ["(+ (st ", "(+ (mt "].map(|start| literal.starts_with(start));
    signature.contains(&true) && literal.contains(" none)")
}

/// Whether a literal is a molecule, of either sign.
fn is_molecule(literal: &str) -> bool {
    ["(+ (mol ", "(- (mol "]
        .map(|start| literal.starts_with(start))
        .contains(&true)
}

/// Counts over a set of texts.
#[derive(Clone, Debug, Default)]
pub struct Coverage {
    classes: BTreeMap<Class, u64>,
    /// The texts that are accepted and have a step by the rule.
    accepted: BTreeMap<&'static str, u64>,
    /// The texts with a step by the rule on the subject that are accepted, or
    /// refused there by the number.
    subjects: BTreeMap<(&'static str, Subject, Option<u8>), u64>,
}

impl Coverage {
    pub fn add(&mut self, text: &[u8]) {
        self.add_as(text, check(text).verdict);
    }

    /// Adds a text whose verdict is known.
    pub fn add_as(&mut self, text: &[u8], verdict: Verdict) {
        let refused = match verdict {
            Verdict::Refused { number, line } => Some((number, line)),
            _ => None,
        };
        let steps = steps_on_subjects(&String::from_utf8_lossy(text)).into_iter();
        let steps = steps.filter(|&(step, ..)| refused.is_none_or(|(_, line)| line == step));
        let found: BTreeSet<(&str, Subject)> = steps.map(|(_, rule, on)| (rule, on)).collect();
        for (rule, on) in found {
            let key = (rule, on, refused.map(|(number, _)| number));
            *self.subjects.entry(key).or_default() += 1;
        }
        let class = class_of(text, verdict);
        if matches!(class, Class::Open | Class::Refuted) {
            let mut rules = rules_of(text);
            rules.sort_unstable();
            rules.dedup();
            for rule in rules {
                *self.accepted.entry(rule).or_default() += 1;
            }
        }
        *self.classes.entry(class).or_default() += 1;
    }

    pub fn class(&self, class: &Class) -> u64 {
        self.classes.get(class).copied().unwrap_or(0)
    }

    /// The texts that a number refused, on any line.
    pub fn refused(&self, number: u8) -> u64 {
        let refused = |(class, times): (&Class, &u64)| match class {
            Class::Refused(other, _) if *other == number => *times,
            _ => 0,
        };
        self.classes.iter().map(refused).sum()
    }

    /// The texts that a number refused at a step by a rule.
    pub fn refused_at(&self, rule: &str, number: u8) -> u64 {
        self.class(&Class::Refused(number, rule.to_string()))
    }

    /// The accepted texts with a step by a rule.
    pub fn accepted_with(&self, rule: &str) -> u64 {
        self.accepted.get(rule).copied().unwrap_or(0)
    }

    /// The texts with a step by a rule on a subject that are accepted, or
    /// refused there by the number.
    pub fn on(&self, subject: Subject, rule: &'static str, refused: Option<u8>) -> u64 {
        let key = (rule, subject, refused);
        self.subjects.get(&key).copied().unwrap_or(0)
    }

    /// The same for a signature with none.
    pub fn bare(&self, rule: &'static str, refused: Option<u8>) -> u64 {
        self.on(Subject::Bare, rule, refused)
    }

    /// On one line the rules that were accepted on a subject, and how often; and
    /// how often the numbers from 9 on refused any.
    fn subject_row(&self, subject: Subject) -> String {
        let times = RULES.map(|rule| (rule, self.on(subject, rule, None)));
        let accepted = times.iter().filter(|(_, times)| *times > 0);
        let accepted: Vec<String> = accepted
            .map(|(rule, times)| format!("{rule} {times}"))
            .collect();
        let refused = (9..=11).map(|number| {
            let times = RULES.map(|rule| self.on(subject, rule, Some(number)));
            format!("{number}: {}", times.iter().sum::<u64>())
        });
        let refused: Vec<String> = refused.collect();
        format!(
            "accepted {}; refused by {}",
            accepted.join(", "),
            refused.join(", ")
        )
    }

    /// The verdicts on one line.
    pub fn summary(&self) -> String {
        let accepted = [("open", Class::Open), ("refuted", Class::Refuted)];
        let accepted = accepted.map(|(name, class)| format!("{name} {}", self.class(&class)));
        let refused = (1..=11).map(|number| format!("{number}: {}", self.refused(number)));
        let refused: Vec<String> = refused.collect();
        format!("{}; refused by {}", accepted.join(", "), refused.join(", "))
    }
}

/// Whether a step by a rule can fail one of checks 7 to 11: refl has no
/// parent, no position and no agreement, eli and pro no agreement.
pub fn can_fail(rule: &str, number: u8) -> bool {
    match rule {
        "refl" => matches!(number, 8 | 11),
        "eli" | "pro" => number != 10,
        _ => true,
    }
}

impl fmt::Display for Coverage {
    /// A table with a row for each rule and for other lines, and a column for
    /// each number.
    fn fmt(&self, f: &mut fmt::Formatter<'_>) -> fmt::Result {
        let cell = |times: u64| match times {
            0 => ".".to_string(),
            _ => times.to_string(),
        };
        writeln!(f, "{}", self.summary())?;
        write!(f, "{:<8}{:>9}", "", "accepted")?;
        for number in CHECKS {
            write!(f, "{number:>6}")?;
        }
        writeln!(f)?;
        for rule in RULES.into_iter().chain(["sym", "in", "by", "other"]) {
            write!(f, "{rule:<8}{:>9}", cell(self.accepted_with(rule)))?;
            for number in CHECKS {
                write!(f, "{:>6}", cell(self.refused_at(rule, number)))?;
            }
            writeln!(f)?;
        }
        let [inh, inp] = ["inh", "inp"].map(|rule| self.bare(rule, None));
        let out = self.bare("out", Some(9));
        writeln!(
            f,
            "by none: inh accepted {inh}, inp accepted {inp}, out refused by 9 {out}"
        )?;
        for (place, subject) in [("I", Subject::MoleculeAtI), ("J", Subject::MoleculeAtJ)] {
            writeln!(f, "a molecule at {place}: {}", self.subject_row(subject))?;
        }
        let at_end = self.refused_at("", 4);
        writeln!(f, "with line 0: by 1 {}, by 4 {at_end}", self.refused(1))
    }
}
