//! A base and a job (V34, V35): C13, what is counted through both, the limits,
//! and generated pairs.

use std::collections::BTreeSet;

use second::generate::pairs::{clauses, pair, pair_of, parents, Pair, CASES};
use second::{check, check_job, Verdict};

const SYMBOLS: &str = "(sym 0)\n(sym 0)\n(sym 0)\n";
const C1: &str = "\
(sym 0)
(sym 0)
(sym 0)
(in (or (+ (mem (f 0) (f 1)))))
(in (or (+ (sub (f 1) (f 2)))))
(in (or (- (mem (v 0) (f 2)))))
(by inc 0 0 1 0 0 (let) (let) (or (+ (mem (f 0) (f 2)))))
(by res 2 0 3 0 0 (let (f 0)) (let) (or))
";
const ANSWER: &str = "refuted 5 4\nrests 0 1 2";

fn answer(base: impl AsRef<[u8]>, job: impl AsRef<[u8]>) -> String {
    check_job(base.as_ref(), job.as_ref()).to_string()
}

/// A text cut before the line of this index.
fn cut(text: &str, line: usize) -> (String, String) {
    let lines: Vec<&str> = text.split_inclusive('\n').collect();
    (lines[..line].concat(), lines[line..].concat())
}

#[test]
fn c13_a_base_and_a_job() {
    for job in ["", C1, "(sym 0)\n", "no form", "\n"] {
        assert_eq!(answer("", job), "refused 4 0");
        assert_eq!(answer(C1.trim_end(), job), "refused 2 8");
    }
    assert_eq!(answer(SYMBOLS, &C1[SYMBOLS.len()..]), ANSWER);
    assert_eq!(answer(C1, ""), ANSWER);
}

#[test]
fn a_text_may_be_cut_at_each_line_end_behind_a_constant() {
    for line in 1..=8 {
        let (base, job) = cut(C1, line);
        assert_eq!(answer(base, job), ANSWER, "{line}");
    }
}

#[test]
fn a_text_cut_inside_a_line_is_refused_there() {
    for place in 1..C1.len() {
        let (base, job) = C1.split_at(place);
        if !base.ends_with('\n') {
            let line = base.lines().count();
            assert_eq!(answer(base, job), format!("refused 2 {line}"), "{place}");
        }
    }
}

#[test]
fn the_bases_own_refusal_is_the_answer() {
    // Joined, the first has its constant, and the second is too long.
    assert_eq!(answer("(sym 1)\n", "(sym 0)\n"), "refused 4 0");
    assert_eq!(answer("(sym 0)\n\n", "x".repeat(65_536)), "refused 2 2");
    assert_eq!(answer("(sym 1)\n(in (or))\n", "\n"), "refused 4 2");
}

#[test]
fn lines_and_clauses_are_counted_through_both() {
    let (base, job) = cut(C1, 6);
    assert_eq!(check(base.as_bytes()).to_string(), "open 3");
    let wrong = job.replace("(let (f 0))", "(let (f 1))");
    assert_eq!(answer(&base, wrong), "refused 10 8");
    assert_eq!(
        answer(&base, job.replace("res 2 0 3", "res 2 0 4")),
        "refused 7 8"
    );
    assert_eq!(answer(&base, "(sym 0)\n"), "refused 3 7");
    assert_eq!(
        answer(SYMBOLS, "(sym 0)\n(in (or))\n"),
        "refuted 1 0\nrests 0"
    );
}

#[test]
fn a_refuted_base_keeps_its_first_empty_clause() {
    let more = "(by refl 0 0 0 0 0 (let (f 0)) (let) (or (+ (sub (f 0) (f 0)))))\n";
    assert_eq!(answer(C1, more), "refuted 6 4\nrests 0 1 2");
    assert_eq!(answer(C1, "no form\n"), "refused 2 9");
}

#[test]
fn a_refutation_rests_on_inputs_of_both() {
    let (base, job) = cut(C1, 4);
    let (base, job) = (base + "(in (or (+ (obj (f 0)))))\n", job);
    let job = job
        .replace("inc 0 0 1", "inc 0 0 2")
        .replace("res 2 0 3", "res 3 0 4");
    assert_eq!(answer(base, job), "refuted 6 5\nrests 0 2 3");
}

#[test]
fn the_limits_are_those_of_both() {
    let line = "(in (or))\n";
    let ends = [
        (line.repeat(1_023), "refuted 1023 0\nrests 0"),
        (line.repeat(1_024), "refused 1 0"),
        (line.repeat(1_022) + "(", "refused 2 1024"),
        (line.repeat(1_023) + "(", "refused 1 0"),
    ];
    for (job, expected) in ends {
        assert_eq!(answer("(sym 0)\n", job), expected);
    }
    assert_eq!(answer("(sym 0)\n", "(sym 1)\n".repeat(255)), "open 0");
    assert_eq!(
        answer("(sym 0)\n", "(sym 1)\n".repeat(256)),
        "refused 5 257"
    );
    assert_eq!(answer("(sym 0)\n", "x".repeat(65_527)), "refused 2 2");
    assert_eq!(answer("(sym 0)\n", "x".repeat(65_528)), "refused 1 0");
    assert_eq!(answer("(sym 0)\n".repeat(1_025), ""), "refused 1 0");
    assert_eq!(answer("x".repeat(65_536), ""), "refused 1 0");
}

#[test]
fn generated_pairs_get_the_answer_that_is_known() {
    let count = 3_000;
    let (mut accepted, mut across, mut known) = (0, 0, 0);
    for seed in 0..count {
        let pair = pair(seed);
        let answer = check_job(&pair.base, &pair.job);
        known += usize::from(pair.expected.is_some());
        if let Some(expected) = &pair.expected {
            assert_eq!(answer, *expected, "{}, seed {seed}", pair.case);
        }
        let is_accepted = !matches!(answer.verdict, Verdict::Refused { .. });
        accepted += usize::from(is_accepted);
        across += usize::from(is_accepted && has_parents_on_both_sides(&pair));
    }
    let counts = [accepted, across, known];
    assert!(accepted > count as usize * 2 / 5, "{counts:?}");
    assert!(across > count as usize / 4, "{counts:?}");
    assert!(known > count as usize / 2, "{counts:?}");
}

/// Whether a step of the job has one parent in the base and one in the job.
fn has_parents_on_both_sides(pair: &Pair) -> bool {
    let lines = |text| <[u8]>::split_inclusive(text, |&byte| byte == b'\n');
    let first = clauses(&lines(&pair.base).collect::<Vec<_>>());
    lines(&pair.job).any(|line| match parents(line)[..] {
        [a, b] => (a < first) != (b < first),
        _ => false,
    })
}

#[test]
fn each_case_comes_with_the_verdicts_that_belong_to_it() {
    for (case, (name, _, _)) in CASES.iter().enumerate() {
        let mut found = BTreeSet::new();
        for seed in 0..60 {
            let pair = pair_of(case, seed);
            found.insert(match check_job(&pair.base, &pair.job).verdict {
                Verdict::Refused { number, .. } => format!("refused {number}"),
                _ => "accepted".into(),
            });
        }
        let found: Vec<String> = found.into_iter().collect();
        let found = found.join(", ");
        let right = match *name {
            "parents on both sides" | "cut among in lines" => found == "accepted",
            "cut among sym lines" | "cut among by lines" => found.starts_with("accepted"),
            "cut inside a line" | "base without its last line end" => found == "refused 2",
            "base empty" | "the constant in the job" => found == "refused 4",
            "sym lines behind clauses" => found == "refused 3",
            "bytes of the two" => found == "accepted, refused 1",
            "lines of the two" => found == "accepted, refused 1, refused 2",
            "symbols of the two" => found == "accepted, refused 4, refused 5",
            "base too large" | "job too large" => found == "refused 1",
            "base refused, the two too large" => found == "refused 2, refused 4",
            "job damaged" => found.matches("refused").count() > 6 && !found.contains("refused 1,"),
            _ => found.matches("refused").count() > 3,
        };
        assert!(right, "{name}: {found}");
    }
}

#[test]
fn the_same_seed_gives_the_same_pair() {
    for seed in 0..100 {
        let (one, two) = (pair(seed), pair(seed));
        assert_eq!((one.base, one.job), (two.base, two.job));
    }
}
