//! Pairs of a base and a job that are made for an answer.

use second::generate::limits::limit_text;
use second::generate::random::Random;
use second::{MAX_BYTES, MAX_LINES, MAX_SYMBOLS};

use super::rests::{self, turned};
use super::Made;

/// A pair with the answer that it is made to get, without its last line end.
#[derive(Clone, Debug)]
pub struct MadePair {
    pub base: Vec<u8>,
    pub job: Vec<u8>,
    pub expected: String,
}

impl MadePair {
    fn new(base: impl Into<Vec<u8>>, job: impl Into<Vec<u8>>, expected: &str) -> Self {
        MadePair {
            base: base.into(),
            job: job.into(),
            expected: expected.into(),
        }
    }
}

/// All of them but the cut examples, in a fixed order.
pub fn pairs() -> Vec<MadePair> {
    [
        refutations(),
        without_constant(),
        behind_a_base(),
        bytes(),
        lines(),
        symbols(),
    ]
    .concat()
}

/// An example cut before its last line, and in its middle.
pub fn cut_example(text: &[u8], expected: &str) -> Vec<MadePair> {
    let lines = lines_of(text).len();
    let places = [lines.saturating_sub(1), lines / 2];
    let cuts = places.map(|line| cut(text, line, expected));
    cuts.to_vec()
}

fn lines_of(text: &[u8]) -> Vec<&[u8]> {
    text.split_inclusive(|&byte| byte == b'\n').collect()
}

/// A text with this answer, cut before the line of this index. Where the base
/// fails it does so as the text, but for a constant that the job has.
fn cut(text: &[u8], line: usize, expected: &str) -> MadePair {
    let lines = lines_of(text);
    let (base, job) = lines.split_at(line);
    let constant = base.contains(&&b"(sym 0)\n"[..]);
    let refused = expected.strip_prefix("refused ");
    let failed = refused.and_then(|numbers| numbers.split(' ').nth(1)?.parse().ok());
    let fails = failed.is_some_and(|failed| (1..=line).contains(&failed));
    let expected = match constant || fails {
        true => expected,
        false => "refused 4 0",
    };
    MadePair::new(base.concat(), job.concat(), expected)
}

/// For each rule its refutation, as it is and with its inputs the other way
/// round, cut at each line end behind the first input; and each of the other
/// refutations cut once, the last and longest of them also before its last line.
fn refutations() -> Vec<MadePair> {
    let mut all = Vec::new();
    for refutation in rests::by_each_rule() {
        for Made { text, expected } in [refutation.made(), turned(&refutation).made()] {
            let places = super::SYMBOLS.len() + 1..lines_of(&text).len();
            all.extend(places.map(|line| cut(&text, line, &expected)));
        }
    }
    let others = rests::texts();
    for (number, Made { text, expected }) in others.iter().enumerate() {
        let lines = lines_of(text).len();
        all.push(cut(text, 1 + number % (lines - 1), expected));
    }
    if let Some(Made { text, expected }) = others.last() {
        all.push(cut(text, MAX_LINES - 1, expected));
    }
    all
}

/// Bases without a constant, whatever the job is.
fn without_constant() -> Vec<MadePair> {
    let mut all = Vec::new();
    for base in ["", "(sym 1)\n", "(sym 8)\n(sym 1)\n"] {
        for job in [
            "",
            "(sym 0)\n",
            "(sym 0)\n(in (or))\n",
            "(in (or))\n",
            "\n",
            "(",
        ] {
            all.push(MadePair::new(base, job, "refused 4 0"));
        }
    }
    all
}

/// What may come behind a base and what may not: each kind of line behind each
/// kind, no line, and lines that are no form.
fn behind_a_base() -> Vec<MadePair> {
    let symbol = "(sym 0)\n";
    let input = "(in (or (+ (obj (f 0)))))\n";
    let empty = "(in (or))\n";
    let step = "(by refl 0 0 0 0 0 (let (f 0)) (let) (or (+ (sub (f 0) (f 0)))))\n";
    let own = "(by fac 1 0 0 0 0 (let) (let) (or))\n";
    let join = |lines: &[&str]| lines.concat();
    let rows: [(&[&str], &[&str], &str); 28] = [
        (&[symbol], &[], "open 0"),
        (&[symbol], &[symbol], "open 0"),
        (&[symbol], &[symbol, input], "open 1"),
        (&[symbol], &[input], "open 1"),
        (&[symbol], &[empty], "refuted 1 0\nrests 0"),
        (&[symbol], &[step], "open 1"),
        (&[symbol, input], &[], "open 1"),
        (&[symbol, input], &[symbol], "refused 3 3"),
        (&[symbol, input], &[input], "open 2"),
        (&[symbol, input], &[empty], "refuted 2 1\nrests 1"),
        (&[symbol, input], &[empty, empty], "refuted 3 1\nrests 1"),
        (&[symbol, input], &[step], "open 2"),
        (&[symbol, input], &[own], "refused 7 3"),
        (&[symbol, input, step], &[], "open 2"),
        (&[symbol, input, step], &[symbol], "refused 3 4"),
        (&[symbol, input, step], &[input], "refused 3 4"),
        (&[symbol, input, step], &[step], "open 3"),
        (&[symbol, empty], &[empty], "refuted 2 0\nrests 0"),
        (&[symbol, empty], &[input, step], "refuted 3 0\nrests 0"),
        (&[symbol, empty], &[symbol], "refused 3 3"),
        (&[symbol, empty], &["\n"], "refused 2 3"),
        (&[symbol, empty], &["(in (or))"], "refused 2 3"),
        (&[symbol, empty, "(in (or)"], &[")\n"], "refused 2 3"),
        (&[symbol, "\n"], &[input], "refused 2 2"),
        (&[symbol, input, symbol], &[], "refused 3 3"),
        (&[symbol, input, symbol], &[symbol], "refused 3 3"),
        (&[symbol, step, input], &[step], "refused 3 3"),
        (&[symbol, step, symbol], &["\n"], "refused 3 3"),
    ];
    let pairs = rows.map(|(base, job, expected)| MadePair::new(join(base), join(job), expected));
    pairs.to_vec()
}

/// 65,535 bytes in all and one more, in both parts or in one; and a base that is
/// refused for itself with more than enough behind it.
fn bytes() -> Vec<MadePair> {
    let text = |past: bool| limit_text(&mut Random::new(u64::from(past)), 12, past);
    let mut all = Vec::new();
    for past in [false, true] {
        let sample = text(past);
        let expected = sample
            .expected
            .map_or(String::new(), |answer| answer.to_string());
        let last = lines_of(&sample.text).len() - 1;
        all.extend([1, last].map(|line| cut(&sample.text, line, &expected)));
    }
    let full = text(false);
    let open = full
        .expected
        .map_or(String::new(), |answer| answer.to_string());
    all.extend([
        MadePair::new(full.text.clone(), "", &open),
        MadePair::new(full.text, "\n", "refused 1 0"),
        MadePair::new(vec![b'x'; MAX_BYTES + 1], "(sym 0)\n", "refused 1 0"),
        MadePair::new("(sym 0)\n\n", vec![b'x'; MAX_BYTES + 1], "refused 2 2"),
    ]);
    all
}

/// 1,024 lines in all and one more, the last one with its end and without, in
/// both parts or in one; and a base that is refused for itself with as many
/// behind it.
fn lines() -> Vec<MadePair> {
    let line = "(in (or))\n";
    let base = |lines: usize| "(sym 0)\n".to_string() + &line.repeat(lines - 1);
    let mut all = Vec::new();
    for in_base in [1, MAX_LINES / 2, MAX_LINES] {
        let left = MAX_LINES - in_base;
        let refuted = format!("refuted {} 0\nrests 0", MAX_LINES - 1);
        all.push(MadePair::new(base(in_base), line.repeat(left), &refuted));
        let past = line.repeat(left) + line;
        all.push(MadePair::new(base(in_base), past, "refused 1 0"));
        let unended = line.repeat(left) + "(in (or))";
        all.push(MadePair::new(base(in_base), unended, "refused 1 0"));
    }
    let unended = line.repeat(MAX_LINES - 2) + "(in (or))";
    all.extend([
        MadePair::new(base(1), unended, &format!("refused 2 {MAX_LINES}")),
        MadePair::new(base(MAX_LINES + 1), "", "refused 1 0"),
        MadePair::new(base(MAX_LINES + 1), line, "refused 1 0"),
        MadePair::new("", line.repeat(MAX_LINES + 1), "refused 4 0"),
        MadePair::new("(sym 9)\n", line.repeat(MAX_LINES), "refused 5 1"),
        MadePair::new("(sym 0)\n(", line.repeat(MAX_LINES), "refused 2 2"),
    ]);
    all
}

/// 256 symbols in all and one more, in both parts or in one; and the last of
/// them used.
fn symbols() -> Vec<MadePair> {
    let symbol = "(sym 0)\n";
    let mut all = Vec::new();
    for in_base in [1, 128, MAX_SYMBOLS - 1, MAX_SYMBOLS] {
        let base = symbol.repeat(in_base);
        let left = MAX_SYMBOLS - in_base;
        all.push(MadePair::new(&base[..], symbol.repeat(left), "open 0"));
        let past = format!("refused 5 {}", MAX_SYMBOLS + 1);
        all.push(MadePair::new(&base[..], symbol.repeat(left + 1), &past));
        for (number, expected) in [(255, "open 1"), (256, "refused 6 257")] {
            let job = symbol.repeat(left) + &format!("(in (or (+ (obj (f {number})))))\n");
            all.push(MadePair::new(&base[..], job, expected));
        }
    }
    let base = symbol.repeat(MAX_SYMBOLS + 1);
    all.push(MadePair::new(base, "(in (or))\n", "refused 5 257"));
    all
}
