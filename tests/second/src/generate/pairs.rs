//! Pairs of a base and a job: texts cut in two, whole or damaged, and pairs at
//! the limits.

use super::damage::{damage_bytes, damage_structure};
use super::derive::{derive, Style};
use super::limits::limit_text;
use super::model::{uses_first, uses_second, write_lines, RULES};
use super::random::Random;
use super::{some_rules, unknown, valid, web_sample, Sample};
use crate::{Answer, Verdict, MAX_BYTES};

/// A base and a job, with the answer to both where the generator knows it.
#[derive(Clone, Debug)]
pub struct Pair {
    /// What it is made for, a name of [`CASES`].
    pub case: &'static str,
    pub base: Vec<u8>,
    pub job: Vec<u8>,
    pub expected: Option<Answer>,
}

/// The two parts and their answer.
type Parts = (Vec<u8>, Vec<u8>, Option<Answer>);

/// What pairs are made for, in how many of 100 seeds, and how.
pub const CASES: [(&str, usize, fn(&mut Random) -> Parts); 18] = [
    ("parents on both sides", 26, both_sides),
    ("cut among sym lines", 6, |random| cut_among(random, "sym")),
    ("cut among in lines", 7, |random| cut_among(random, "in")),
    ("cut among by lines", 8, |random| cut_among(random, "by")),
    ("cut inside a line", 4, cut_inside),
    ("base empty", 2, base_empty),
    ("job empty", 3, job_empty),
    ("base without its last line end", 3, base_unended),
    ("base damaged", 9, |random| damaged(random, true)),
    ("job damaged", 16, |random| damaged(random, false)),
    ("sym lines behind clauses", 4, symbols_behind_clauses),
    ("the constant in the job", 3, constant_in_job),
    ("bytes of the two", 1, |random| cut_limit(random, 12)),
    ("lines of the two", 2, |random| cut_limit(random, 11)),
    ("symbols of the two", 2, |random| cut_limit(random, 0)),
    ("base too large", 1, base_too_large),
    ("base refused, the two too large", 1, both_wrong),
    ("job too large", 2, job_too_large),
];

/// The pair of a seed.
pub fn pair(seed: u64) -> Pair {
    let mut share = Random::new(seed).below(100);
    for (case, (_, times, _)) in CASES.iter().enumerate() {
        match share.checked_sub(*times) {
            Some(left) => share = left,
            None => return pair_of(case, seed),
        }
    }
    pair_of(0, seed)
}

/// The pair of a seed that is made for a case.
pub fn pair_of(case: usize, seed: u64) -> Pair {
    let (case, _, make) = CASES[case];
    let (base, job, expected) = make(&mut Random::new(!seed));
    Pair {
        case,
        base,
        job,
        expected,
    }
}

// ----- the lines of a text -----

/// The lines of a text, each with its line end.
fn lines(text: &[u8]) -> Vec<&[u8]> {
    text.split_inclusive(|&byte| byte == b'\n').collect()
}

/// Whether a line begins with this word.
fn begins(line: &[u8], word: &str) -> bool {
    line.starts_with(format!("({word} ").as_bytes())
}

/// The used parents of a line.
pub fn parents(line: &[u8]) -> Vec<usize> {
    let line = String::from_utf8_lossy(line);
    let words: Vec<&str> = line.split(' ').collect();
    let ["(by", rule, a, _, b, ..] = words[..] else {
        return Vec::new();
    };
    let used = [(uses_first(rule), a), (uses_second(rule), b)];
    let used = used.into_iter().filter(|&(used, _)| used);
    used.filter_map(|(_, number)| number.parse().ok()).collect()
}

/// How many clauses some lines have.
pub fn clauses(lines: &[&[u8]]) -> usize {
    let clause = |line: &&&[u8]| begins(line, "in") || begins(line, "by");
    lines.iter().filter(clause).count()
}

fn refused(number: u8, line: usize) -> Option<Answer> {
    Some(Verdict::Refused { number, line }.into())
}

// ----- valid texts, cut -----

/// A valid text, half of the time a web.
fn whole(random: &mut Random) -> Sample {
    match random.percent(50) {
        true => web_sample(random.next_u64()),
        false => valid(random),
    }
}

/// A text cut before the line of this index. In a part of a valid text only the
/// constant can be missing.
fn cut(sample: &Sample, line: usize) -> Parts {
    let lines = lines(&sample.text);
    let (base, job) = lines.split_at(line);
    let expected = match base.contains(&&b"(sym 0)\n"[..]) {
        true => sample.expected.clone(),
        false => refused(4, 0),
    };
    (base.concat(), job.concat(), expected)
}

/// A valid text cut before one of the lines that begin with this word, or
/// behind the last of them.
fn cut_among(random: &mut Random, word: &str) -> Parts {
    loop {
        let sample = whole(random);
        let lines = lines(&sample.text);
        let among = |index: &usize| begins(lines[*index], word);
        let places: Vec<usize> = (0..lines.len()).filter(among).collect();
        if !places.is_empty() {
            let place = *random.pick(&places) + random.below(2);
            return cut(&sample, place);
        }
    }
}

/// A valid text cut so that a step of the job has one parent in the base and
/// one in the job.
fn both_sides(random: &mut Random) -> Parts {
    loop {
        let sample = whole(random);
        let lines = lines(&sample.text);
        let across = |line: &usize| across(&lines, *line);
        let places: Vec<usize> = (1..lines.len()).filter(across).collect();
        if !places.is_empty() {
            return cut(&sample, *random.pick(&places));
        }
    }
}

/// Whether a step from this line on has parents on both sides of it.
fn across(lines: &[&[u8]], line: usize) -> bool {
    let (base, job) = lines.split_at(line);
    let first = clauses(base);
    let both = |parents: Vec<usize>| {
        let before = parents.iter().filter(|&&parent| parent < first).count();
        before == 1 && parents.len() == 2
    };
    job.iter().any(|line| both(parents(line)))
}

/// A valid text cut inside a line, which the base then ends with.
fn cut_inside(random: &mut Random) -> Parts {
    let text = whole(random).text;
    let inside = |place: &usize| text[place - 1] != b'\n';
    let places: Vec<usize> = (1..text.len()).filter(inside).collect();
    let (base, job) = text.split_at(*random.pick(&places));
    let line = lines(base).len();
    (base.to_vec(), job.to_vec(), refused(2, line))
}

fn base_empty(random: &mut Random) -> Parts {
    let mut job = whole(random).text;
    if random.percent(30) {
        damage_bytes(random, &mut job);
    }
    (Vec::new(), job, refused(4, 0))
}

/// The text of any seed, and an empty job.
fn job_empty(random: &mut Random) -> Parts {
    let Sample { text, expected } = match random.percent(60) {
        true => whole(random),
        false => super::sample(random.next_u64()),
    };
    (text, Vec::new(), expected)
}

/// A part of a valid text without its last line end, and a job that has it, has
/// the rest of the text only, or is empty.
fn base_unended(random: &mut Random) -> Parts {
    let text = whole(random).text;
    let lines = lines(&text);
    let (base, rest) = lines.split_at(random.between(1, lines.len()));
    let (mut base, rest) = (base.to_vec().concat(), rest.concat());
    base.pop();
    let line = base.split(|&byte| byte == b'\n').count();
    let job = match random.below(3) {
        0 => [b"\n", &rest[..]].concat(),
        1 => rest,
        _ => Vec::new(),
    };
    (base, job, refused(2, line))
}

// ----- damaged texts, cut -----

/// A damaged text, cut behind the first line that is damaged or before it.
fn damaged(random: &mut Random, in_base: bool) -> Parts {
    loop {
        let (whole, text) = damaged_text(random);
        let (before, after) = (lines(&whole), lines(&text));
        let same = before.iter().zip(&after).take_while(|(a, b)| a == b);
        let first = same.count();
        let symbols = before.iter().filter(|line| begins(line, "sym")).count();
        let places = match in_base {
            true => first + 1..after.len() + 1,
            false => symbols.min(first)..first + 1,
        };
        if !places.is_empty() && first < after.len() {
            let place = random.between(places.start, places.end - 1);
            let parts = cut(&unknown(text.clone()), place);
            return match in_base {
                true => (parts.0, parts.1, None),
                false => parts,
            };
        }
    }
}

/// A valid text, and the same damaged.
fn damaged_text(random: &mut Random) -> (Vec<u8>, Vec<u8>) {
    let rule = *random.pick(&RULES);
    let mut rules = some_rules(random, 3);
    rules.push(rule);
    let style = Style::small(random);
    let derivation = derive(random, style, &rules);
    let whole = write_lines(&derivation.lines());
    let mut text = whole.clone();
    match random.percent(80) {
        true => text = damage_structure(random, &derivation, rule),
        false => damage_bytes(random, &mut text),
    }
    (whole, text)
}

// ----- lines in the part where they don't belong -----

/// A valid text cut behind some clause, with sym lines before the rest.
fn symbols_behind_clauses(random: &mut Random) -> Parts {
    loop {
        let text = whole(random).text;
        let lines = lines(&text);
        let place = random.between(1, lines.len());
        let (base, rest) = lines.split_at(place);
        if clauses(base) > 0 {
            let symbols = format!("(sym {})\n", random.below(9)).repeat(random.between(1, 3));
            let job = [symbols.as_bytes(), &rest.concat()].concat();
            return (base.concat(), job, refused(3, place + 1));
        }
    }
}

/// A base of sym lines without a constant, which the job has.
fn constant_in_job(random: &mut Random) -> Parts {
    let symbols = random.between(1, 4);
    let base: String = (0..symbols)
        .map(|_| format!("(sym {})\n", random.between(1, 8)))
        .collect();
    let inputs = format!("(in (or (+ (obj (f {symbols})))))\n").repeat(random.below(4));
    let job = "(sym 0)\n".to_string() + &inputs;
    (base.into_bytes(), job.into_bytes(), refused(4, 0))
}

// ----- the limits -----

/// A text at a limit or one past it, cut at a line end: near the start, near
/// the end or anywhere.
fn cut_limit(random: &mut Random, kind: usize) -> Parts {
    let past = random.percent(50);
    let sample = limit_text(random, kind, past);
    let lines = lines(&sample.text).len();
    let place = match random.below(3) {
        0 => random.between(1, 3),
        1 => lines - random.between(1, 3),
        _ => random.between(1, lines - 1),
    };
    cut(&sample, place)
}

fn base_too_large(random: &mut Random) -> Parts {
    let kind = random.between(11, 12);
    let base = limit_text(random, kind, true).text;
    let job = match random.percent(50) {
        true => Vec::new(),
        false => whole(random).text,
    };
    (base, job, refused(1, 0))
}

/// More bytes or more lines than there may be, behind a base.
fn too_much(random: &mut Random) -> Vec<u8> {
    match random.percent(40) {
        true => limit_text(random, 12, false).text,
        false => b"(in (or))\n".repeat(random.between(1_024, 1_100)),
    }
}

/// A base that is refused for itself, and too much behind it.
fn both_wrong(random: &mut Random) -> Parts {
    let (base, _, expected) = match random.below(3) {
        0 => cut_inside(random),
        1 => constant_in_job(random),
        _ => base_empty(random),
    };
    let mut job = too_much(random);
    job.truncate(MAX_BYTES);
    (base, job, expected)
}

/// An accepted base, and too much behind it.
fn job_too_large(random: &mut Random) -> Parts {
    (whole(random).text, too_much(random), refused(1, 0))
}
