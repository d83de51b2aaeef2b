//! By lines that fail one check or two: for each rule a step that is right,
//! damaged in each way that fails a check.

use second::generate::model::{used_numbers, uses_first, uses_second};

use super::{after_symbols, literals, row, words, Made, SYMBOLS};

/// A right step of each rule: its parents, its numbers A I B J K, its lists and
/// its claim. `wrong` is a parent in place of the last one with which the
/// agreement fails, and nothing before it.
struct Right {
    rule: &'static str,
    parents: [&'static str; 2],
    wrong: &'static str,
    numbers: [usize; 5],
    lists: [&'static str; 2],
    claim: &'static str,
}

const RIGHT: [Right; 14] = [
    Right {
        rule: "refl",
        parents: ["", ""],
        wrong: "",
        numbers: [0, 0, 0, 0, 0],
        lists: ["A", ""],
        claim: "(+ (sub A A))",
    },
    Right {
        rule: "res",
        parents: ["(- (mem X B)) (+ (obj A))", "(+ (mem A X)) (- (obj B))"],
        wrong: "(+ (mem C X)) (- (obj B))",
        numbers: [0, 0, 1, 0, 0],
        lists: ["A", "B"],
        claim: "(+ (obj A)) (- (obj B))",
    },
    Right {
        rule: "fac",
        parents: ["(+ (mem X B)) (+ (mem A Y)) (- (obj C))", ""],
        wrong: "(+ (mem X B)) (+ (mem C Y)) (- (obj C))",
        numbers: [0, 0, 0, 1, 0],
        lists: ["A B", ""],
        claim: "(+ (mem A B)) (- (obj C))",
    },
    Right {
        rule: "par",
        parents: [
            "(+ (mem (f 3 X) C)) (+ (obj A))",
            "(+ (eq X B)) (- (obj B))",
        ],
        wrong: "(+ (eq C B)) (- (obj X))",
        numbers: [0, 0, 1, 0, 1],
        lists: ["A", "A"],
        claim: "(+ (mem (f 3 B) C)) (+ (obj A)) (- (obj B))",
    },
    Right {
        rule: "acy",
        parents: ["(+ (sub X B)) (+ (obj A))", "(+ (sub B X)) (- (obj B))"],
        wrong: "(+ (sub C X)) (- (obj B))",
        numbers: [0, 0, 1, 0, 0],
        lists: ["A", "A"],
        claim: "(+ (eq A B)) (+ (obj A)) (- (obj B))",
    },
    Right {
        rule: "tra",
        parents: ["(+ (sub A X)) (+ (obj A))", "(+ (sub X C)) (- (obj B))"],
        wrong: "(+ (sub C X)) (- (obj B))",
        numbers: [0, 0, 1, 0, 0],
        lists: ["B", "B"],
        claim: "(+ (sub A C)) (+ (obj A)) (- (obj B))",
    },
    Right {
        rule: "inc",
        parents: ["(+ (mem A X)) (+ (obj A))", "(+ (sub X C)) (- (obj B))"],
        wrong: "(+ (sub C X)) (- (obj B))",
        numbers: [0, 0, 1, 0, 0],
        lists: ["B", "B"],
        claim: "(+ (mem A C)) (+ (obj A)) (- (obj B))",
    },
    Right {
        rule: "inh",
        parents: ["(+ (st X A () B)) (+ (obj A))", "(+ (sub A X)) (- (obj B))"],
        wrong: "(+ (sub X A)) (- (obj B))",
        numbers: [0, 0, 1, 0, 0],
        lists: ["C", "C"],
        claim: "(+ (st A A () B)) (+ (obj A)) (- (obj B))",
    },
    Right {
        rule: "inp",
        parents: [
            "(+ (mt A A (B X) B)) (+ (obj A))",
            "(+ (sub A X)) (- (obj B))",
        ],
        wrong: "(+ (sub X A)) (- (obj B))",
        numbers: [0, 0, 1, 0, 1],
        lists: ["C", "C"],
        claim: "(+ (mt A A (B A) B)) (+ (obj A)) (- (obj B))",
    },
    Right {
        rule: "out",
        parents: ["(+ (st A A () X)) (+ (obj A))", "(+ (sub X B)) (- (obj B))"],
        wrong: "(+ (sub B X)) (- (obj B))",
        numbers: [0, 0, 1, 0, 0],
        lists: ["C", "C"],
        claim: "(+ (st A A () B)) (+ (obj A)) (- (obj B))",
    },
    Right {
        rule: "sca",
        parents: [
            "(+ (sv X A (B) A)) (+ (obj A))",
            "(+ (sv A X (B) C)) (- (obj B))",
        ],
        wrong: "(+ (sv A X (C) C)) (- (obj B))",
        numbers: [0, 0, 1, 0, 0],
        lists: ["A", "A"],
        claim: "(+ (eq A C)) (+ (obj A)) (- (obj B))",
    },
    Right {
        rule: "eli",
        parents: ["(- (obj X)) (+ (obj A))", ""],
        wrong: "",
        numbers: [0, 0, 0, 0, 0],
        lists: ["B", ""],
        claim: "(+ (obj A))",
    },
    Right {
        rule: "mer",
        parents: [
            "(+ (mol X (sv A () B) (mv B (X) none))) (+ (obj A))",
            "(+ (mt A X (B) none)) (- (obj B))",
        ],
        wrong: "(+ (mt C X (B) none)) (- (obj B))",
        numbers: [0, 0, 1, 0, 0],
        lists: ["A", "C"],
        claim: "(+ (mol A (sv A () B) (mv B (A) none) (mt C (B) none))) (+ (obj A)) (- (obj B))",
    },
    Right {
        rule: "pro",
        parents: ["(+ (mol X (sv A () B) (mv B (X) none))) (+ (obj A))", ""],
        wrong: "",
        numbers: [0, 0, 0, 0, 1],
        lists: ["B", ""],
        claim: "(+ (mv B B (B) none)) (+ (obj A))",
    },
];

/// A step with its parents, to be damaged.
#[derive(Clone)]
struct Job {
    parents: Vec<Vec<String>>,
    wrong: Vec<String>,
    rule: &'static str,
    numbers: [usize; 5],
    lists: [Vec<String>; 2],
    claim: Vec<String>,
    /// Whether the line isn't a form.
    broken: bool,
}

impl Right {
    fn job(&self) -> Job {
        let parents = self.parents.iter().filter(|clause| !clause.is_empty());
        Job {
            parents: parents.map(|clause| literals(clause)).collect(),
            wrong: literals(self.wrong),
            rule: self.rule,
            numbers: self.numbers,
            lists: self.lists.map(words),
            claim: literals(self.claim),
            broken: false,
        }
    }
}

impl Job {
    /// The text, made to be refused by a number at the step, or accepted.
    fn made(&self, refused: Option<u8>) -> Made {
        let mut lines: Vec<String> = (self.parents.iter())
            .map(|clause| row("in", &[row("or", clause)]))
            .collect();
        let mut items = vec![self.rule.to_string()];
        items.extend(self.numbers.map(|number| number.to_string()));
        items.extend([row("let", &self.lists[0]), row("let", &self.lists[1])]);
        items.push(row("or", &self.claim));
        let mut line = row("by", &items);
        if self.broken {
            line.push(')');
        }
        lines.push(line);
        let clauses = lines.len();
        Made {
            text: after_symbols(&lines),
            expected: match refused {
                Some(number) => format!("refused {number} {}", SYMBOLS.len() + clauses),
                None => format!("open {clauses}"),
            },
        }
    }

    /// Turns the sign of a literal of a parent.
    fn turn_sign(&mut self, parent: usize, position: usize) {
        let literal = &mut self.parents[parent][position];
        let sign = if literal.starts_with("(+") {
            "(-"
        } else {
            "(+"
        };
        literal.replace_range(..2, sign);
    }
}

/// A damage, and the first check that a right step fails with it.
type Damage = (u8, Box<dyn Fn(&mut Job)>);

fn damage(number: u8, edit: impl Fn(&mut Job) + 'static) -> Damage {
    (number, Box::new(edit))
}

/// The ways to damage a step, by the numbers of the checks.
fn damages(job: &Job) -> Vec<Damage> {
    let mut damages = vec![
        damage(5, |job| job.claim.insert(0, "(+ (obj (v 32)))".into())),
        damage(5, |job| job.lists[0].push("(v 32)".into())),
        damage(5, |job| job.lists[1].push("(v 32)".into())),
        damage(6, |job| job.claim.push("(+ (obj (f 5)))".into())),
        damage(6, |job| job.lists[0].insert(0, "(f 5)".into())),
        damage(6, |job| job.lists[1].insert(0, "(f 0 A)".into())),
    ];
    let (rule, own) = (job.rule, job.parents.len());
    if uses_first(rule) {
        damages.push(damage(7, move |job| job.numbers[0] = own));
    }
    if uses_second(rule) {
        damages.push(damage(7, move |job| job.numbers[2] = own));
    }
    damages.extend(number_damages(rule));
    damages.extend(list_damages(job));
    damages.extend(shape_damages(rule));
    if !job.wrong.is_empty() {
        damages.push(damage(10, |job| {
            job.parents.pop();
            job.parents.push(job.wrong.clone());
        }));
    }
    damages.push(damage(11, |job| job.claim.push("(+ (obj C))".into())));
    damages
}

/// Unused numbers that aren't 0.
fn number_damages(rule: &str) -> Vec<Damage> {
    let used = used_numbers(rule);
    let unused = (0..5).filter(|&place| !used[place]);
    let with = |place: usize, number: usize| damage(8, move |job| job.numbers[place] = number);
    unused
        .flat_map(|place| [with(place, 1), with(place, 65_535)])
        .collect()
}

/// Lists of the wrong length.
fn list_damages(job: &Job) -> Vec<Damage> {
    let mut damages = Vec::new();
    for list in 0..2 {
        damages.push(damage(8, move |job| job.lists[list].push("A".into())));
        if !job.lists[list].is_empty() {
            damages.push(damage(8, move |job| _ = job.lists[list].pop()));
        }
    }
    damages
}

/// Positions and numbers that are too large, and signs turned.
fn shape_damages(rule: &'static str) -> Vec<Damage> {
    let used = used_numbers(rule);
    let places = [1, 3, 4].into_iter().filter(|&place| used[place]);
    let mut damages: Vec<Damage> = places
        .map(|place| damage(9, move |job| job.numbers[place] = 9))
        .collect();
    if uses_first(rule) && rule != "par" {
        damages.push(damage(9, |job| job.turn_sign(0, 0)));
    }
    if uses_second(rule) {
        damages.push(damage(9, |job| job.turn_sign(1, 0)));
    }
    if rule == "fac" {
        damages.push(damage(9, |job| job.turn_sign(0, 1)));
        damages.push(damage(9, |job| job.numbers[3] = job.numbers[1]));
    }
    damages
}

pub fn texts() -> Vec<Made> {
    let jobs = RIGHT.iter().map(Right::job);
    let damaged = jobs.flat_map(|job| [vec![job.made(None)], singles(&job), pairs(&job)].concat());
    damaged.chain(second_lists()).collect()
}

/// Each damage alone, and each on a line that isn't a form.
fn singles(job: &Job) -> Vec<Made> {
    let mut made = Vec::new();
    for (number, edit) in damages(job) {
        let mut damaged = job.clone();
        edit(&mut damaged);
        made.push(damaged.made(Some(number)));
        damaged.broken = true;
        made.push(damaged.made(Some(2)));
    }
    made
}

/// Two damages: each two of neighbouring checks, and of other checks the
/// first of one and the last of the other.
fn pairs(job: &Job) -> Vec<Made> {
    let damages = damages(job);
    let mut numbers: Vec<u8> = damages.iter().map(|damage| damage.0).collect();
    numbers.dedup();
    let of = |number: u8| damages.iter().filter(move |damage| damage.0 == number);
    let mut made = Vec::new();
    for (place, &low) in numbers.iter().enumerate() {
        for &high in &numbers[place + 1..] {
            let neighbours = numbers.get(place + 1) == Some(&high);
            let lows: Vec<&Damage> = of(low).collect();
            let highs: Vec<&Damage> = of(high).collect();
            let (lows, highs) = match neighbours {
                true => (&lows[..], &highs[..]),
                false => (&lows[..1], &highs[highs.len() - 1..]),
            };
            for (_, first) in highs {
                for (_, then) in lows {
                    let mut damaged = job.clone();
                    first(&mut damaged);
                    then(&mut damaged);
                    made.push(damaged.made(Some(low)));
                }
            }
        }
    }
    made
}

/// Second lists of rules that use no second parent.
fn second_lists() -> Vec<Made> {
    let mut made = Vec::new();
    for right in RIGHT.iter().filter(|right| !uses_second(right.rule)) {
        for list in ["A", "X", "B A", "A A A", "(f 3 X) Y"] {
            let mut job = right.job();
            job.lists[1] = words(list);
            made.push(job.made(Some(8)));
        }
        // The lists changed over, and the list written twice.
        for first in ["", right.lists[0]] {
            let mut job = right.job();
            job.lists = [first, right.lists[0]].map(words);
            made.push(job.made(Some(8)));
        }
        let mut job = right.job();
        job.lists[1] = vec!["A".to_string(); 32];
        made.push(job.made(Some(8)));
    }
    made
}
