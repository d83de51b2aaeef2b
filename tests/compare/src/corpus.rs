//! The stored corpus: texts that every check, rule and limit comes up in, most
//! of them small, chosen in a fixed order.

use std::collections::{BTreeMap, BTreeSet};
use std::io;
use std::path::Path;

use second::generate::limits::{limit_text, KINDS};
use second::generate::model::{uses_second, RULES};
use second::generate::random::Random;
use second::generate::{mixed_sample, web_sample, Sample};
use second::{check, Answer, Verdict, MAX_BYTES, MAX_LINES};

use crate::coverage::{can_fail, classify, rules_of, Class, Coverage, Subject};
use crate::examples::read_examples;
use crate::made::{made, refutations};
use crate::second_answer;

/// No text of the corpus is longer: one byte above the limit shows that a text
/// is too long.
pub const LONGEST: usize = MAX_BYTES + 1;

/// The seeds that are looked at for generated texts.
const SEEDS: std::ops::Range<u64> = 0..40_000;
/// Generated texts are at most so long, but for the long ones.
const SMALL: usize = 700;
/// The long ones lie between, and there are so many of them.
const LONG: std::ops::RangeInclusive<usize> = 8_000..=40_000;
const LONG_TEXTS: u64 = 8;
/// Webs are at most so long, and there are so many of them.
const WEB: usize = 1_000;
const WEBS: usize = 30;
/// How many accepted texts are wanted for each rule, of each verdict.
const ACCEPTED_EACH: u64 = 30;
/// How many texts are wanted that a number refuses at a step by a rule.
const REFUSED_EACH: u64 = 15;
/// How many texts are wanted that a number refuses on any other line.
const OTHER_EACH: u64 = 40;
/// How many texts of a limit, at it or one past it, are looked at, and how
/// many bytes they may have together, more where a verdict is new.
const LIMIT_SEEDS: u64 = 20;
const LIMIT_BYTES: usize = 30_000;
const LIMIT_BYTES_NEW: usize = 140_000;
/// The limits, in the generator's order, with the kinds of verdicts that are
/// wanted of texts at the limit and of texts one past it.
const LIMITS: [(&str, &str, &str); KINDS] = [
    ("256 symbols", "open", "refused 5"),
    ("K of a sym line 8", "open", "refused 5"),
    ("K of a sym line a number", "refused 5", "refused 2"),
    ("variable 31 in an input", "open", "refused 5"),
    ("variable 31 in a list", "open", "refused 5"),
    ("depth 16 in an input", "open", "refused 2"),
    ("depth 16 in a list", "open", "refused 2"),
    ("8 method arguments", "open", "refused 5"),
    ("32 literals in an input", "open", "refused 5"),
    ("32 literals in a claim", "open", "refused 5"),
    ("32 terms in a list", "open", "refused 5"),
    ("1,024 lines", "open, refused 2", "refused 1"),
    ("65,535 bytes", "open", "refused 1"),
    (
        "65,535 as a step's number",
        "refused 7, refused 8, refused 9",
        "refused 2",
    ),
    ("the clause before the step", "refuted", "refused 7"),
    ("the last occurrence", "open", "refused 9"),
    ("the last argument", "open", "refused 9"),
    ("filled terms deeper than 16", "refuted", "refused 10"),
    ("8 parts of a term", "open", "refused 6"),
    ("symbol 255", "open", "refused 6"),
    ("the last line's end", "open", "refused 2"),
    ("16 parts of a molecule", "open", "refused 5"),
    ("16 parts by mer", "open", "refused 5"),
    ("the last part", "open", "refused 9"),
    ("2 parts of a molecule", "open", "refused 2"),
];
/// Numbers around 65,535, with leading zeros, and past every machine word.
const NUMBERS: [&str; 16] = [
    "0",
    "00",
    "01",
    "065535",
    "65535",
    "65536",
    "65540",
    "70000",
    "99999",
    "100000",
    "655350",
    "4294967296",
    "18446744073709551615",
    "18446744073709551616",
    "18446744073709551617",
    "340282366920938463463374607431768211456",
];

/// Texts, each once, in the order in which they came.
#[derive(Default)]
pub struct Corpus {
    texts: Vec<Vec<u8>>,
    known: BTreeSet<Vec<u8>>,
    pub coverage: Coverage,
    /// How often each kind of verdict came for a limit, at it and one past it.
    limits: BTreeMap<(usize, bool), BTreeMap<String, u64>>,
    /// The texts that don't get the answer that they are made for.
    wrong: Vec<String>,
}

impl Corpus {
    /// The whole corpus; `examples` is the folder of the examples.
    pub fn make(examples: &Path) -> io::Result<Self> {
        let mut corpus = Corpus::default();
        for example in read_examples(examples)? {
            let expected = String::from_utf8_lossy(&example.expected);
            corpus.add_made(example.text, expected.strip_suffix('\n').unwrap_or(""));
        }
        corpus.add_bytes();
        corpus.add_limits();
        corpus.add_sizes();
        corpus.add_numbers();
        corpus.add_places();
        for text in made() {
            corpus.add_made(text.text, &text.expected);
        }
        corpus.add_generated();
        for text in refutations() {
            corpus.add_made(text.text, &text.expected);
        }
        corpus.add_webs();
        Ok(corpus)
    }

    pub fn texts(&self) -> &[Vec<u8>] {
        &self.texts
    }

    /// Adds a text unless it is there or too long, and tells whether it did.
    fn add(&mut self, text: Vec<u8>) -> bool {
        let fits = text.len() <= LONGEST;
        let new = fits && self.known.insert(text.clone());
        if new {
            self.coverage.add(&text);
            self.texts.push(text);
        }
        new
    }

    /// Adds a text that is made for an answer, and tells whether it did.
    fn add_made(&mut self, text: Vec<u8>, expected: &str) -> bool {
        let answer = check(&text).to_string();
        if answer != expected {
            let text = String::from_utf8_lossy(&text);
            let wrong = format!("made for {expected}, and gets {answer}:\n{text}");
            self.wrong.push(wrong);
        }
        self.add(text)
    }

    /// Each of the 256 byte values for a digit, a letter, a bracket, a sign, a
    /// space and a line end.
    fn add_bytes(&mut self) {
        let whole = b"(sym 0)\n(in (or (+ (obj (f 0)))))\n";
        for place in [5, 10, 13, 17, 24, 33] {
            for byte in 0..=255 {
                let mut text = whole.to_vec();
                text[place] = byte;
                self.add(text);
            }
        }
        for byte in 0..=255 {
            self.add(vec![byte]);
        }
    }

    /// Many empty lines, a long line, and brackets that open and don't close.
    fn add_sizes(&mut self) {
        for lines in [MAX_LINES - 1, MAX_LINES, MAX_LINES + 1] {
            self.add(vec![b'\n'; lines]);
            self.add([vec![b'\n'; lines], vec![b'(']].concat());
            self.add(b"(sym 0)\n".repeat(lines));
        }
        let start = b"(sym 0)\n(sym 1)\n(in (or (+ (obj ";
        let deep: Vec<u8> = start
            .iter()
            .chain(b"(f 1 ".repeat(MAX_BYTES).iter())
            .copied()
            .collect();
        for size in [600, MAX_BYTES, LONGEST] {
            self.add(deep[..size].to_vec());
        }
    }

    /// Each of the numbers at each place of a number.
    fn add_numbers(&mut self) {
        for number in NUMBERS {
            for place in 0..8 {
                let at = |index| if place == index { number } else { "0" };
                let [a, i, b, j, k] = [at(0), at(1), at(2), at(3), at(4)];
                let [symbol, variable, arity] = [at(5), at(6), at(7)];
                let text = format!(
                    "(sym {arity})\n(sym 0)\n\
                     (in (or (+ (mem (v {variable}) (f {symbol})))))\n\
                     (by par {a} {i} {b} {j} {k} (let (f 0)) (let (f 0)) (or))\n"
                );
                self.add(text.into_bytes());
            }
        }
    }

    /// Terms at the limits of depth and variables, and past them, at every
    /// place of a term; and the limits of arguments and list terms at places
    /// that the generator's limits leave out.
    fn add_places(&mut self) {
        let tower = |depth: usize| "(f 1 ".repeat(depth - 1) + "(f 0)" + &")".repeat(depth - 1);
        let terms = [tower(16), tower(17), "(v 31)".into(), "(v 32)".into()];
        let a = "(f 0)";
        let mut lines = Vec::new();
        for term in &terms {
            for word in ["eq", "mem", "sub"] {
                lines.push(format!("(in (or (+ ({word} {term} {a}))))"));
                lines.push(format!("(in (or (+ ({word} {a} {term}))))"));
            }
            lines.push(format!("(in (or (+ (obj {term}))))"));
            for word in ["sv", "si", "mv", "mi", "st", "mt"] {
                lines.push(format!("(in (or (+ ({word} {term} {a} ({a} {a}) {a}))))"));
                lines.push(format!("(in (or (+ ({word} {a} {term} ({a} {a}) {a}))))"));
                lines.push(format!("(in (or (+ ({word} {a} {a} ({term} {a}) {a}))))"));
                lines.push(format!("(in (or (+ ({word} {a} {a} ({a} {term}) {a}))))"));
                lines.push(format!("(in (or (+ ({word} {a} {a} ({a} {a}) {term}))))"));
                lines.push(format!("(in (or (- ({word} {a} {a} ({term}) none))))"));
            }
            let part = format!("(mv {a} ({a}) {a})");
            lines.push(format!("(in (or (+ (mol {term} {part} {part}))))"));
            for other in [
                format!("(mv {term} ({a}) {a})"),
                format!("(mv {a} ({term}) {a})"),
                format!("(mv {a} ({a}) {term})"),
                format!("(mv {a} ({term}) none)"),
            ] {
                lines.push(format!("(in (or (+ (mol {a} {other} {part}))))"));
                lines.push(format!("(in (or (- (mol {a} {part} {other}))))"));
            }
            let refl = |list: &str, other: &str, claim: &str| {
                format!("(by refl 0 0 0 0 0 (let {list}) (let{other}) (or (+ (sub {claim}))))")
            };
            lines.push(refl(term, "", &format!("{term} {term}")));
            lines.push(refl(a, "", &format!("{term} {a}")));
            lines.push(refl(a, "", &format!("{a} {term}")));
            lines.push(refl(a, &format!(" {term}"), &format!("{a} {a}")));
            lines.push(format!(
                "(in (or (- (obj (v 0))) (+ (obj (v 0)))))\n\
                 (by res 0 0 0 1 0 (let {term}) (let {term}) (or (+ (obj {term})) (- (obj {term}))))"
            ));
        }
        for count in [0, 1, 7, 8, 9, 10, 32, 33] {
            let row = vec![a; count].join(" ");
            for word in ["sv", "si", "mv", "mi", "st", "mt"] {
                lines.push(format!("(in (or (+ ({word} {a} {a} ({row}) {a}))))"));
                lines.push(format!("(in (or (- ({word} {a} {a} ({row}) none))))"));
                lines.push(format!(
                    "(in (or (+ (mol {a} ({word} {a} () {a}) ({word} {a} ({row}) {a})))))"
                ));
            }
            let parts = format!(" (mt {a} ({a}) none)").repeat(count);
            lines.push(format!("(in (or (- (mol {a}{parts}))))"));
            let list = format!("(let {row})").replace("(let )", "(let)");
            let literals = format!(" (- (obj {a}))").repeat(count);
            lines.push(format!(
                "(by refl 0 0 0 0 0 (let {a}) {list} (or (+ (sub {a} {a}))))"
            ));
            lines.push(format!(
                "(by refl 0 0 0 0 0 {list} (let) (or (+ (sub {a} {a}))))"
            ));
            lines.push(format!(
                "(by refl 0 0 0 0 0 (let {a}) (let) (or{literals}))"
            ));
            lines.push(format!("(in (or{literals}))"));
            lines.push(format!("(in (or (+ (obj (f 1 {row})))))").replace("1 )", "1)"));
        }
        for line in lines {
            self.add(format!("(sym 0)\n(sym 1)\n{line}\n").into_bytes());
        }
    }

    /// Each limit, and one past it.
    fn add_limits(&mut self) {
        for kind in 0..KINDS {
            for past in [false, true] {
                let mut bytes = 0;
                for seed in 0..LIMIT_SEEDS {
                    let sample = limit_text(&mut Random::new(seed), kind, past);
                    bytes += self.add_limit((kind, past), sample, bytes);
                }
            }
        }
    }

    /// Adds a text of a limit unless its texts have too many bytes already,
    /// and gives the number of those that are added.
    fn add_limit(&mut self, limit: (usize, bool), sample: Sample, before: usize) -> usize {
        let Sample { text, expected } = sample;
        let (size, name) = (text.len(), classify(&text).name());
        let known = (self.limits.get(&limit)).is_some_and(|names| names.contains_key(&name));
        let most = if known { LIMIT_BYTES } else { LIMIT_BYTES_NEW };
        let expected = expected.map_or("unknown".into(), |answer| answer.to_string());
        if before + size > most || !self.add_made(text, &expected) {
            return 0;
        }
        let names = self.limits.entry(limit).or_default();
        *names.entry(name).or_default() += 1;
        size
    }

    /// The kinds of verdicts of a limit, in order.
    fn limit_names(&self, limit: (usize, bool)) -> String {
        let names = self.limits.get(&limit).into_iter().flat_map(BTreeMap::keys);
        let names: Vec<&str> = names.map(String::as_str).collect();
        names.join(", ")
    }

    /// The limits as a table: how many texts are at each and one past it, and
    /// their verdicts.
    pub fn limits(&self) -> String {
        let mut table = String::new();
        for (&limit, names) in &self.limits {
            let (kind, past) = limit;
            let count: u64 = names.values().sum();
            let side = if past { "past it" } else { "at it" };
            let (name, names) = (LIMITS[kind].0, self.limit_names(limit));
            table += &format!("{name:<28} {side:<8}{count:>3}  {names}\n");
        }
        table
    }

    /// Generated texts, until there are enough of each class.
    fn add_generated(&mut self) {
        let mut taken: BTreeMap<(Class, &str), u64> = BTreeMap::new();
        let mut long = 0;
        for seed in SEEDS {
            let Sample { text, expected } = mixed_sample(seed);
            let class = classify(&text);
            let accepted = matches!(class, Class::Open | Class::Refuted);
            let expected = expected.unwrap_or(check(&text)).to_string();
            if accepted && LONG.contains(&text.len()) && long < LONG_TEXTS {
                long += u64::from(self.add_made(text, &expected));
                continue;
            }
            if text.len() > SMALL {
                continue;
            }
            let (most, keys) = match &class {
                Class::Open | Class::Refuted => (ACCEPTED_EACH, rules_of(&text)),
                Class::Refused(_, word) if RULES.contains(&word.as_str()) => {
                    (REFUSED_EACH, vec![""])
                }
                Class::Refused(..) => (OTHER_EACH, vec![""]),
            };
            let keys: BTreeSet<(Class, &str)> = (keys.into_iter())
                .map(|rule| (class.clone(), rule))
                .collect();
            let wanted = keys
                .iter()
                .any(|key| taken.get(key).copied().unwrap_or(0) < most);
            if wanted && self.add_made(text, &expected) {
                for key in keys {
                    *taken.entry(key).or_default() += 1;
                }
            }
        }
    }

    /// Webs: refutations by steps that are used again.
    fn add_webs(&mut self) {
        let small = |sample: &Sample| sample.text.len() <= WEB;
        let webs = SEEDS.map(web_sample).filter(small);
        for Sample { text, expected } in webs.take(WEBS) {
            let expected = expected.unwrap_or(check(&text)).to_string();
            self.add_made(text, &expected);
        }
    }

    /// What is missing: each verdict, refutations that don't need all their
    /// inputs, each number, each limit with its kinds of verdicts, each rule
    /// accepted, each rule refused by each number from 7 to 11 that it can
    /// fail, signatures with none, accepted by inh and inp and refused by out,
    /// and molecules at I and at J. A text that doesn't get the answer that it
    /// is made for is told as well.
    pub fn missing(&self) -> Vec<String> {
        let mut missing = self.wrong.clone();
        let mut want = |times: u64, least: u64, what: String| {
            if times < least {
                missing.push(format!("{what}: {times}, and {least} are wanted"));
            }
        };
        let coverage = &self.coverage;
        want(self.texts.len() as u64, 2_000, "texts".into());
        want(coverage.class(&Class::Open), 100, "open".into());
        want(coverage.class(&Class::Refuted), 100, "refuted".into());
        let spared = self.texts.iter().filter(|text| spares_an_input(text));
        let spared = spared.count() as u64;
        want(spared, 100, "refuted beside unused inputs".into());
        for number in 1..=11 {
            let least = if number == 1 { 4 } else { 40 };
            want(coverage.refused(number), least, format!("refused {number}"));
        }
        for rule in RULES {
            want(coverage.accepted_with(rule), 30, format!("{rule} accepted"));
            for number in (7..=11).filter(|&number| can_fail(rule, number)) {
                want(
                    coverage.refused_at(rule, number),
                    10,
                    format!("{rule} refused {number}"),
                );
            }
        }
        for rule in ["inh", "inp"] {
            let accepted = coverage.bare(rule, None);
            want(accepted, 30, format!("{rule} by none accepted"));
        }
        let refused = coverage.bare("out", Some(9));
        want(refused, 10, "out by none refused 9".into());
        for (rule, subject, number) in wanted_of_molecules() {
            let verdict = number.map_or("accepted".into(), |number| format!("refused {number}"));
            let times = coverage.on(subject, rule, number);
            want(times, 10, format!("{rule}, {subject:?}, {verdict}"));
        }
        missing.extend(self.missing_limits());
        missing
    }

    /// The limits whose texts don't have the kinds of verdicts that are wanted.
    fn missing_limits(&self) -> Vec<String> {
        let mut missing = Vec::new();
        for (kind, (name, at, past)) in LIMITS.into_iter().enumerate() {
            for (wanted, side) in [(at, false), (past, true)] {
                let found = self.limit_names((kind, side));
                if found != wanted {
                    missing.push(format!(
                        "{name}, past {side}: {found}, and {wanted} is wanted"
                    ));
                }
            }
        }
        missing
    }

    /// The file: for each text its length in four bytes, the lowest first, and
    /// then its bytes.
    pub fn file(&self) -> Vec<u8> {
        let mut file = Vec::new();
        for text in &self.texts {
            append(&mut file, text);
        }
        file
    }

    /// The second checker's answer to each text.
    pub fn answers(&self) -> Vec<u8> {
        let answers = self.texts.iter().flat_map(|text| second_answer(text));
        answers.collect()
    }
}

/// What is wanted of steps on molecules: that the rules that take one at I or at
/// J are accepted, and refused for it where they look at it, and that all others
/// are refused by 9.
fn wanted_of_molecules() -> Vec<(&'static str, Subject, Option<u8>)> {
    let (first, second) = (Subject::MoleculeAtI, Subject::MoleculeAtJ);
    let mut wanted = Vec::new();
    for rule in RULES.into_iter().filter(|rule| *rule != "refl") {
        let (at_first, at_second): (&[u8], &[u8]) = match rule {
            "res" | "fac" | "mer" => (&[0, 9, 10, 11], &[0, 9, 10, 11]),
            "par" => (&[0, 9, 10, 11], &[9]),
            "pro" => (&[0, 9, 11], &[]),
            _ if uses_second(rule) => (&[9], &[9]),
            _ => (&[9], &[]),
        };
        let number = |number: &u8| (*number > 0).then_some(*number);
        wanted.extend(at_first.iter().map(|n| (rule, first, number(n))));
        wanted.extend(at_second.iter().map(|n| (rule, second, number(n))));
    }
    wanted
}

/// Whether a text is refuted and one of its inputs is not needed for that.
fn spares_an_input(text: &[u8]) -> bool {
    let lines = text.split(|&byte| byte == b'\n');
    let inputs = lines.filter(|line| line.starts_with(b"(in ")).count();
    let Answer { verdict, rests } = check(text);
    matches!(verdict, Verdict::Refuted { .. }) && rests.len() < inputs
}

/// Appends a text behind its length.
pub(crate) fn append(file: &mut Vec<u8>, text: &[u8]) {
    let length = text.len() as u32;
    file.extend(length.to_le_bytes());
    file.extend(text);
}

/// The texts of such a file.
pub fn read_file(mut file: &[u8]) -> Option<Vec<Vec<u8>>> {
    let mut texts = Vec::new();
    while !file.is_empty() {
        let (length, rest) = file.split_first_chunk::<4>()?;
        let (text, rest) = rest.split_at_checked(u32::from_le_bytes(*length) as usize)?;
        texts.push(text.to_vec());
        file = rest;
    }
    Some(texts)
}
