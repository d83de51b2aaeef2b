//! The generator, and the checker over what it makes.

use std::collections::{BTreeMap, BTreeSet};
use std::sync::{mpsc, OnceLock};
use std::thread;
use std::time::Duration;

use second::generate::limits::{limit_text, KINDS};
use second::generate::model::{uses_first, Term, RULES};
use second::generate::pairs::parents;
use second::generate::random::Random;
use second::generate::unify::Unifier;
use second::generate::{generate, sample, valid_sample, web_sample, Sample};
use second::{check, Verdict, MAX_BYTES};

#[test]
fn the_same_seed_gives_the_same_text() {
    for seed in 0..200 {
        assert_eq!(generate(seed), generate(seed));
    }
    assert_ne!(generate(1), generate(2));
}

/// Runs it in a thread of its own, which must end within ten seconds.
fn soon<T: Send + 'static>(run: impl FnOnce() -> T + Send + 'static) -> T {
    let (sender, receiver) = mpsc::channel();
    thread::spawn(move || sender.send(run()));
    let result = receiver.recv_timeout(Duration::from_secs(10));
    result.expect("it takes more than ten seconds")
}

#[test]
fn seeds_with_large_inputs_give_a_text_soon() {
    for seed in [20452785, 1376431, 1341076] {
        let sample = soon(move || sample(seed));
        assert!(sample.text.len() <= MAX_BYTES, "seed {seed}");
        let answer = check(&sample.text);
        if let Some(expected) = sample.expected {
            assert_eq!(answer, expected, "seed {seed}");
        }
    }
}

/// Each variable from the first on stands for a pair of the next one, so
/// that the terms are too large to be built.
fn bind_pairs(unifier: &mut Unifier, first: u32) -> u32 {
    for variable in first..first + 100 {
        let part = Term::Var(variable + 1);
        unifier.bind(variable, Term::App(0, vec![part.clone(), part]));
    }
    first + 100
}

#[test]
fn terms_that_share_parts_are_not_built() {
    soon(|| {
        let mut unifier = Unifier::default();
        let last = bind_pairs(&mut unifier, 0);
        let (large, small) = (Term::Var(0), Term::Var(last - 2));
        assert_eq!(unifier.size([&large]), usize::MAX);
        assert_eq!(unifier.size([&small, &small]), 14);
        assert_eq!(unifier.variables([&large]), BTreeSet::from([last]));
        assert_eq!(unifier.resolve(&small).size(), 7);
        // The occurs check, and terms that are equal but too large to compare.
        assert!(!unifier.unify(&Term::Var(last), &large));
        bind_pairs(&mut unifier, 1_000);
        assert!(!unifier.unify(&large, &Term::Var(1_000)));
    });
}

/// The valid texts of the first seeds.
fn valid_samples() -> &'static [Sample] {
    static SAMPLES: OnceLock<Vec<Sample>> = OnceLock::new();
    SAMPLES.get_or_init(|| (0..3_000).map(valid_sample).collect())
}

/// The lines of the valid texts that begin with this word.
fn valid_lines(word: &str) -> impl Iterator<Item = &'static str> {
    let start = format!("({word} ");
    let texts = valid_samples().iter().map(|sample| &sample.text);
    let lines = texts.flat_map(|text| std::str::from_utf8(text).unwrap().lines());
    lines.filter(move |line| line.starts_with(&start))
}

#[test]
fn valid_texts_get_their_answer() {
    for (seed, sample) in valid_samples().iter().enumerate() {
        assert_eq!(Some(check(&sample.text)), sample.expected, "seed {seed}");
        let verdict = sample.expected.as_ref().map(|answer| answer.verdict);
        let accepted = !matches!(verdict, Some(Verdict::Refused { .. }));
        assert!(accepted, "seed {seed}");
    }
}

/// Whether the new literal of a by line, the first of its claim, has none.
fn gives_none(line: &str) -> bool {
    let claim = line.rsplit("(or ").next().unwrap_or("");
    let next = claim.find(" (+ ").into_iter().chain(claim.find(" (- "));
    let new = &claim[..next.min().unwrap_or(claim.len())];
    new.contains(" none)")
}

#[test]
fn signatures_with_none_are_passed_often() {
    for rule in ["inh", "inp"] {
        let mut counts = [0, 0];
        for line in valid_lines("by").filter(|line| line[4..].starts_with(rule)) {
            counts[usize::from(gives_none(line))] += 1;
        }
        let [with_term, with_none] = counts;
        assert!(with_none * 4 > with_term, "{rule}: {counts:?}");
        assert!(with_none < with_term, "{rule}: {counts:?}");
    }
}

/// The literals of a line's clause, each without its first bracket.
fn literals(line: &str) -> Vec<String> {
    let marked = line.replace(" (+ ", "|+ ").replace(" (- ", "|- ");
    marked.split('|').skip(1).map(str::to_string).collect()
}

/// The kind of a literal's atom: molecule, arrow atom or other.
fn kind(literal: &str) -> &'static str {
    let word = literal[3..].split(' ').next().unwrap_or("");
    match word {
        "mol" => "molecule",
        "sv" | "si" | "mv" | "mi" | "st" | "mt" => "arrow",
        _ => "other",
    }
}

/// A step: its rule, K, and the literals at I and at J, where there is one.
type Step = (String, usize, String, String);

/// The steps of the valid texts.
fn steps() -> &'static [Step] {
    static STEPS: OnceLock<Vec<Step>> = OnceLock::new();
    STEPS.get_or_init(|| valid_samples().iter().flat_map(steps_of).collect())
}

fn steps_of(sample: &Sample) -> Vec<Step> {
    let text = String::from_utf8_lossy(&sample.text);
    let clauses: Vec<&str> = text.lines().filter(|l| !l.starts_with("(sym ")).collect();
    let literal = |clause: usize, place: usize| {
        let literals = literals(clauses[clause]);
        literals.get(place).cloned().unwrap_or("- (none)".into())
    };
    let step = |line: &&&str| {
        let words: Vec<&str> = line.split(' ').collect();
        let numbers: Vec<usize> = words[2..7].iter().map(|n| n.parse().unwrap()).collect();
        let [a, i, b, j, k] = numbers[..] else {
            unreachable!()
        };
        let second = if words[1] == "fac" { a } else { b };
        (words[1].into(), k, literal(a, i), literal(second, j))
    };
    let steps = clauses.iter().filter(|line| line.starts_with("(by "));
    steps.map(|line| step(&line)).collect()
}

#[test]
fn molecules_stand_on_either_side_of_res_and_fac() {
    let mut counts: BTreeMap<(&str, &str, &str), usize> = BTreeMap::new();
    for (rule, _, first, second) in steps() {
        let key = (&rule[..], kind(first), kind(second));
        *counts.entry(key).or_default() += 1;
    }
    let sides = [
        ("molecule", "molecule"),
        ("arrow", "molecule"),
        ("molecule", "arrow"),
    ];
    for rule in ["res", "fac", "mer"] {
        for (first, second) in sides {
            let times = counts.get(&(rule, first, second)).unwrap_or(&0);
            assert!(*times > 10, "{rule} with {first}, {second}: {times}");
        }
    }
}

/// Where occurrence K of a molecule's literal stands.
fn place_in_molecule(literal: &str, k: usize) -> &'static str {
    // The brackets that are open, and what stands in each.
    let mut open: Vec<&str> = vec![""];
    let mut terms = 0;
    let mut behind_arguments = false;
    for (at, byte) in literal.bytes().enumerate() {
        let inside = open
            .iter()
            .take_while(|word| **word != "v" && **word != "f");
        let place = match inside.count() {
            2 => "object",
            4 => "argument",
            _ if behind_arguments => "result",
            _ => "method",
        };
        match byte {
            b'(' => {
                let word = literal[at + 1..].split([' ', '(', ')']).next();
                let word = word.unwrap_or("");
                if matches!(word, "v" | "f") {
                    if terms == k {
                        return place;
                    }
                    terms += 1;
                }
                behind_arguments &= open.len() != 2;
                open.push(word);
            }
            b')' => {
                open.pop();
                behind_arguments |= open.len() == 3;
            }
            _ => {}
        }
    }
    "nowhere"
}

#[test]
fn par_is_applied_at_each_place_of_a_molecule() {
    let literal = "+ (mol (f 3 (v 0)) (mv (f 0) ((f 1) (f 3 (v 1))) none) (sv (f 0) () (v 0)))";
    let places = (0..9).map(|k| place_in_molecule(literal, k));
    let names = "object object method argument argument argument method result nowhere";
    assert_eq!(places.collect::<Vec<_>>().join(" "), names);
    let mut counts: BTreeMap<&str, usize> = BTreeMap::new();
    for (rule, k, first, _) in steps() {
        if rule == "par" && kind(first) == "molecule" {
            *counts.entry(place_in_molecule(first, *k)).or_default() += 1;
        }
    }
    for place in ["object", "method", "argument", "result"] {
        let times = counts.get(place).unwrap_or(&0);
        assert!(*times > 20, "{place}: {times}");
    }
    assert_eq!(counts.get("nowhere"), None);
}

#[test]
fn molecules_come_with_2_to_16_parts() {
    let mut counts = [0; 18];
    for line in valid_lines("in") {
        for molecule in literals(line).iter().filter(|l| kind(l) == "molecule") {
            let words = ["sv", "si", "mv", "mi", "st", "mt"];
            let parts = words.map(|word| molecule.matches(&format!(" ({word} ")).count());
            counts[parts.iter().sum::<usize>().min(17)] += 1;
        }
    }
    assert!(counts[2..=16].iter().all(|&times| times > 3), "{counts:?}");
    assert_eq!((counts[0], counts[1], counts[17]), (0, 0, 0));
}

/// How many clauses of a refuted text are reached from its first empty clause
/// by no step, by one and by more, of the inputs and of the steps.
fn uses(text: &[u8]) -> [[usize; 3]; 2] {
    let text = String::from_utf8_lossy(text);
    let clauses: Vec<&str> = text.lines().filter(|l| !l.starts_with("(sym ")).collect();
    let mut counts = [[0; 3]; 2];
    let Some(first) = clauses.iter().position(|line| line.ends_with(" (or))")) else {
        return counts;
    };
    let mut times = vec![0; first];
    times.push(1);
    for number in (0..=first).rev() {
        if times[number] > 0 {
            for parent in parents(clauses[number].as_bytes()) {
                times[parent] += 1;
            }
        }
    }
    for (clause, times) in clauses[..first].iter().zip(times) {
        counts[usize::from(clause.starts_with("(by "))][times.min(2)] += 1;
    }
    counts
}

#[test]
fn webs_leave_clauses_unused_and_use_steps_again() {
    let (mut unused_inputs, mut unused_steps, mut webs) = (0, 0, 0);
    for seed in 0..1_000 {
        let sample = web_sample(seed);
        assert_eq!(Some(check(&sample.text)), sample.expected, "seed {seed}");
        let [inputs, steps] = uses(&sample.text);
        unused_inputs += usize::from(inputs[0] > 0);
        unused_steps += usize::from(steps[0] > 0);
        webs += usize::from(steps[2] > 1);
    }
    let counts = [unused_inputs, unused_steps, webs];
    assert!(counts.iter().all(|&count| count > 400), "{counts:?}");
}

#[test]
fn limit_texts_get_their_answer() {
    for kind in 0..KINDS {
        for past in [false, true] {
            for seed in 0..10 {
                let sample = limit_text(&mut Random::new(seed), kind, past);
                assert_eq!(
                    Some(check(&sample.text)),
                    sample.expected,
                    "kind {kind}, past {past}, seed {seed}"
                );
            }
        }
    }
}

#[test]
fn every_verdict_and_every_rule_come_up() {
    let mut verdicts: BTreeMap<String, usize> = BTreeMap::new();
    let mut steps: BTreeMap<(&str, u8), usize> = BTreeMap::new();
    let count = 6_000;
    for seed in 0..count {
        let sample = sample(seed);
        let answer = check(&sample.text);
        let (name, refused) = match answer.verdict {
            Verdict::Refuted { .. } => ("refuted".to_string(), None),
            Verdict::Open { .. } => ("open".to_string(), None),
            Verdict::Refused { number, line } => {
                (format!("refused {number}"), Some((number, line)))
            }
        };
        if let Some(expected) = sample.expected {
            assert_eq!(answer, expected, "seed {seed}");
        }
        *verdicts.entry(name).or_default() += 1;
        let lines = sample.text.split(|&byte| byte == b'\n');
        for (index, line) in lines.enumerate() {
            let number = match refused {
                Some((_, line)) if index + 1 > line => break,
                Some((number, line)) if index + 1 == line => number,
                _ => 0,
            };
            for rule in RULES {
                if line.starts_with(format!("(by {rule} ").as_bytes()) {
                    *steps.entry((rule, number)).or_default() += 1;
                }
            }
        }
    }
    for number in 1..=11 {
        let share = verdicts.get(&format!("refused {number}")).unwrap_or(&0);
        let least = if number == 1 {
            10
        } else {
            count as usize / 100
        };
        assert!(*share >= least, "refused {number} only {share} times");
    }
    assert!(verdicts["open"] >= 500 && verdicts["refuted"] >= 500);
    for rule in RULES {
        for number in [0, 7, 8, 9, 10, 11] {
            let possible = match number {
                7 | 9 => uses_first(rule),
                10 => uses_first(rule) && !matches!(rule, "eli" | "pro"),
                _ => true,
            };
            let times = steps.get(&(rule, number)).unwrap_or(&0);
            assert_eq!(*times > 0, possible, "{rule} with {number}: {times}");
        }
    }
}

#[test]
fn random_bytes_get_an_answer() {
    let mut random = Random::new(99);
    for _ in 0..2_000 {
        let len = random.below(200);
        let text: Vec<u8> = (0..len)
            .map(|_| match random.percent(20) {
                true => random.next_u64() as u8,
                false => *random.pick(b"()+- 0123456789fvinorbysubmemeqobjletnone\n"),
            })
            .collect();
        check(&text);
    }
}

#[test]
fn cut_texts_get_an_answer() {
    // Each text cut at each place, so that every part of a form is missing
    // once.
    for seed in 0..30 {
        let text = valid_sample(seed).text;
        if text.len() > 3_000 {
            continue;
        }
        for end in 0..text.len() {
            match check(&text[..end]).verdict {
                Verdict::Refused { number, line } => assert!(
                    (number, line) == (4, 0) || (number == 2 && text[end - 1] != b'\n'),
                    "seed {seed}, end {end}: {number} {line}"
                ),
                _ => assert_eq!(text[end - 1], b'\n'),
            }
        }
    }
}
