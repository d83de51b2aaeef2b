//! The texts, by family.

use std::ops::Range;
use std::path::Path;

use crate::stored;
use second::generate::derive::{derive, Derivation, Style};
use second::generate::model::{write_lines, Step, RULES};
use second::generate::random::Random;
use second::{MAX_BYTES, MAX_LINES, MAX_PARTS};

/// What a text is made for.
#[derive(Clone, Copy, Debug, PartialEq, Eq)]
pub enum Family {
    /// Accepted: ordinary clauses, as many bytes as a text may have.
    Ordinary,
    /// Accepted: one long parent without variables that a thousand steps use.
    LongParent,
    /// Accepted: one long parent with variables that a thousand steps fill.
    FilledParent,
    /// Accepted: deep terms and full lists.
    DeepAndFull,
    /// Refused by 11 at the last line.
    Late,
    /// Accepted: ordinary clauses, in three sizes.
    Size,
    /// Accepted: many short lines.
    Short,
    /// Accepted: a table of symbols and facts, no step.
    Facts,
    /// Accepted: refl steps.
    Reflexive,
    /// The stored corpus: texts of all kinds.
    Corpus,
    /// Accepted: long literals, all variables, filled by long entries in both parents.
    FilledBoth,
    /// Refuted by the last line, through nearly all the steps before it.
    Refutation,
    /// Accepted: molecules with as many parts as they may have, by the rules that
    /// look into them.
    Molecules,
}

impl Family {
    /// The ratio to stay within.
    pub fn goal(self) -> f64 {
        match self {
            Family::Ordinary => 0.75,
            Family::LongParent | Family::Facts => 0.6,
            Family::FilledParent => 1.75,
            Family::Short => 1.3,
            Family::Reflexive => 0.8,
            Family::Corpus => 1.25,
            Family::Refutation => 0.9,
            _ => 1.0,
        }
    }
}

/// One text or several that are timed together.
pub struct Text {
    pub name: &'static str,
    pub family: Family,
    pub parts: Vec<Vec<u8>>,
}

impl Text {
    fn new(name: &'static str, family: Family, bytes: Vec<u8>) -> Self {
        Text {
            name,
            family,
            parts: vec![bytes],
        }
    }

    pub fn bytes(&self) -> usize {
        self.parts.iter().map(Vec::len).sum()
    }

    pub fn lines(&self) -> usize {
        let ends = |part: &Vec<u8>| part.iter().filter(|&&byte| byte == b'\n').count();
        self.parts.iter().map(ends).sum()
    }
}

pub fn all() -> Vec<Text> {
    use Family::*;
    let ordinary = ordinary_text();
    let long = long_parent(&big("(f 0)"), "(let)");
    let filled = long_parent(&big("(v 0)"), "(let (f 0))");
    let deep = deep_terms();
    let full = full_lists();
    vec![
        Text::new("a  ordinary clauses", Ordinary, ordinary),
        Text::new("b  a long parent", LongParent, long.clone()),
        Text::new("b  a long parent, filled", FilledParent, filled),
        Text::new("c  deep terms in full lists", DeepAndFull, deep.clone()),
        Text::new("c  full lists of short terms", DeepAndFull, full.clone()),
        Text::new("d  ordinary clauses, refused late", Late, ordinary_late()),
        Text::new("d  a long parent, refused late", Late, late(&long)),
        Text::new("d  deep terms, refused late", Late, late(&deep)),
        Text::new("d  full lists, refused late", Late, late(&full)),
        Text::new("e  ordinary clauses, 4 KB", Size, sized(4 * 1024)),
        Text::new("e  ordinary clauses, 16 KB", Size, sized(16 * 1024)),
        Text::new("e  ordinary clauses, 64 KB", Size, sized(64 * 1024 - 1)),
        Text::new("f  many short lines", Short, short_lines()),
        Text::new("g  facts", Facts, facts(MAX_LINES - 200)),
        Text::new("h  refl steps", Reflexive, refl_steps()),
        corpus(),
        Text::new(
            "j  long filled against long filled",
            FilledBoth,
            filled_both(),
        ),
        Text::new("k  a refutation by all its steps", Refutation, chain()),
        Text::new("m  by res, in reverse order", Molecules, resolved()),
        Text::new("m  by res, met last", Molecules, resolved_last()),
        Text::new(
            "m  by res, met last, filled",
            Molecules,
            resolved_last_filled(),
        ),
        Text::new("m  by fac, in reverse order", Molecules, factored()),
        Text::new("m  by mer, 8 and 8 parts", Molecules, merged()),
        Text::new("m  by pro, each of 16 parts", Molecules, projected()),
    ]
}

// ----- ordinary clauses: the generator's, by all rules -----

/// A derivation whose text has at most so many bytes, and nearly as many.
fn ordinary(bytes: usize) -> Derivation {
    let style = Style {
        depth: 2,
        variables: 3,
        generality: 30,
        extra_literals: 1,
        arguments: 2,
        parts: 3,
        size: 14,
        steps: 4 * MAX_LINES,
        refute: false,
        recent: 0,
    };
    let mut derivation = derive(&mut Random::new(1), style, &RULES);
    let enough = MAX_LINES - derivation.arities.len() - derivation.inputs.len();
    derivation.steps.truncate(enough);
    while written(&derivation).len() > bytes {
        derivation.steps.pop();
    }
    derivation
}

fn written(derivation: &Derivation) -> Vec<u8> {
    write_lines(&derivation.lines())
}

/// The largest one.
pub fn ordinary_text() -> Vec<u8> {
    sized(MAX_BYTES)
}

fn sized(bytes: usize) -> Vec<u8> {
    written(&ordinary(bytes))
}

/// The last step that claims a literal is the last line, and the sign of its
/// last literal is turned.
fn ordinary_late() -> Vec<u8> {
    let mut derivation = ordinary(MAX_BYTES);
    let claims = |step: &Step| !step.claim.is_empty();
    let last = derivation.steps.iter().rposition(claims).unwrap();
    derivation.steps.truncate(last + 1);
    let literal = derivation.steps[last].claim.last_mut().unwrap();
    literal.positive = !literal.positive;
    written(&derivation)
}

// ----- texts that are written out: symbol 0 takes no term, 1 one, 2 eight -----

const SYMBOLS: &str = "(sym 0)\n(sym 1)\n(sym 8)\n";

/// Appends a line while the text has room for it.
fn filled_with(text: String, line: &str) -> Vec<u8> {
    filled_by(text, |_| line.to_string())
}

/// Appends line 0, line 1 and so on while the text has room for them.
fn filled_by(mut text: String, line: impl Fn(usize) -> String) -> Vec<u8> {
    for number in 0..MAX_LINES - text.lines().count() {
        let line = line(number);
        if text.len() + line.len() > MAX_BYTES {
            break;
        }
        text.push_str(&line);
    }
    text.into_bytes()
}

/// A term with 512 leaves, about 9,000 bytes.
fn big(leaf: &str) -> String {
    let of = |symbol: &str, part: &str, times: usize| {
        format!("(f {symbol}{})", format!(" {part}").repeat(times))
    };
    let deep = of("1", &of("1", leaf, 1), 1);
    of("2", &of("2", &of("2", &deep, 8), 8), 8)
}

/// Two inputs with a long literal each, the second one ground, that resolve to
/// the empty clause, and as many such steps as fit.
fn long_parent(first: &str, list: &str) -> Vec<u8> {
    let second = big("(f 0)");
    filled_with(
        format!("{SYMBOLS}(in (or (- (mem {first} (f 0)))))\n(in (or (+ (mem {second} (f 0)))))\n"),
        &format!("(by res 0 0 1 0 0 {list} (let) (or))\n"),
    )
}

/// A term of depth 16.
fn tower() -> String {
    "(f 1 ".repeat(15) + "(f 0)" + &")".repeat(15)
}

fn list(term: &str, times: usize) -> String {
    format!("(let{})", format!(" {term}").repeat(times))
}

/// A parent with the variables 0 to 31, filled with 32 terms of depth 16, of
/// which par replaces one.
fn deep_terms() -> Vec<u8> {
    // An atom with eleven terms, the last one the result.
    let atom = |word: &str, terms: &[String]| {
        let arguments = terms[2..10].join(" ");
        format!(
            "({word} {} {} ({arguments}) {})",
            terms[0], terms[1], terms[10]
        )
    };
    let clause = |terms: &[String]| {
        format!(
            "(or (+ {}) (- {}) (+ {}))",
            atom("sv", &terms[..11]),
            atom("mt", &terms[11..22]),
            atom("st", &terms[21..])
        )
    };
    let variables: Vec<String> = (0..32).map(|number| format!("(v {number})")).collect();
    let mut terms = vec![tower(); 32];
    let lists = format!("{} {}", list(&tower(), 32), list(&tower(), 1));
    terms[0] = "(f 0)".into();
    filled_with(
        format!(
            "{SYMBOLS}(in {})\n(in (or (+ (eq (v 0) (f 0)))))\n",
            clause(&variables)
        ),
        &format!("(by par 0 0 1 0 0 {lists} {})\n", clause(&terms)),
    )
}

/// Two parents whose highest variable is 31, so that their lists are full, and
/// of which nothing is left.
fn full_lists() -> Vec<u8> {
    let lists = format!("{} {}", list("(f 0)", 32), list("(f 0)", 32));
    filled_with(
        format!("{SYMBOLS}(in (or (- (mem (v 31) (v 0)))))\n(in (or (+ (mem (v 0) (v 31)))))\n"),
        &format!("(by res 0 0 1 0 0 {lists} (or))\n"),
    )
}

/// Empty inputs, up to the last line that a text may have.
fn short_lines() -> Vec<u8> {
    filled_with(SYMBOLS.into(), "(in (or))\n")
}

/// 200 symbols without terms, and so many one-literal facts about them.
pub fn facts(count: usize) -> Vec<u8> {
    let mut text = "(sym 0)\n".repeat(200);
    for number in 0..count {
        let (member, class) = (number % 200, number * 7 % 200);
        text.push_str(&format!("(in (or (+ (mem (f {member}) (f {class})))))\n"));
    }
    text.into_bytes()
}

fn refl_steps() -> Vec<u8> {
    let line = "(by refl 0 0 0 0 0 (let (f 0)) (let) (or (+ (sub (f 0) (f 0)))))\n";
    (SYMBOLS.to_string() + &line.repeat(980)).into_bytes()
}

/// Two parents of one literal with 1,024 variables, resolved 20 times, each
/// filled by an entry of 1,013 bytes.
fn filled_both() -> Vec<u8> {
    let eight = |part: &str| format!("(f 2{})", format!(" {part}").repeat(8));
    let variables = eight(&eight(&eight("(v 0)")));
    let parts = [eight("(f 1 (f 1 (f 0)))"), eight("(f 1 (f 0))")];
    let entry = format!("(f 2{})", format!(" {} {}", parts[0], parts[1]).repeat(4));
    let mut text = SYMBOLS.to_string();
    for sign in ["-", "+"] {
        text.push_str(&format!(
            "(in (or ({sign} (mem {variables} {variables}))))\n"
        ));
    }
    text.push_str(&format!("(by res 0 0 1 0 0 (let {entry}) (let {entry}) (or))\n").repeat(20));
    text.into_bytes()
}

/// As many lines as a text may have: a chain of short steps, each from the one
/// before, and the empty clause as the last. Input 1 is not used.
pub fn chain() -> Vec<u8> {
    let atom = "(obj (f 0))";
    let mut text = SYMBOLS.to_string();
    for clause in [
        format!("(+ {atom})"),
        format!("(+ {atom})"),
        format!("(- {atom}) (+ {atom})"),
        format!("(- {atom})"),
    ] {
        text.push_str(&format!("(in (or {clause}))\n"));
    }
    let mut last = 0;
    for own in 4..MAX_LINES - SYMBOLS.lines().count() - 1 {
        text.push_str(&format!(
            "(by res 2 0 {last} 0 0 (let) (let) (or (+ {atom})))\n"
        ));
        last = own;
    }
    text.push_str(&format!("(by res 3 0 {last} 0 0 (let) (let) (or))\n"));
    text.into_bytes()
}

// ----- molecules of as many parts as may be: symbols 0 to 15 take no term, 16 one -----

/// What a list puts in for a variable of these texts.
const ENTRY: &str = "(f 16 (f 16 (f 0)))";

/// A part that differs from others by its method, which comes first.
fn by_method(number: usize, leaf: &str) -> String {
    format!("(mv (f {number}) ({leaf} (f 16 {leaf})) (f 1))")
}

/// A part that differs from others by its result, which comes last.
fn by_result(number: usize, leaf: &str) -> String {
    format!("(mv (f 1) ({leaf} (f 16 {leaf})) (f {number}))")
}

/// A molecule of these parts.
fn molecule(object: &str, parts: impl Iterator<Item = String>) -> String {
    let parts: String = parts.map(|part| format!(" {part}")).collect();
    format!("(mol {object}{parts})")
}

/// The symbols, and inputs.
fn inputs(clauses: &[String]) -> String {
    let symbols = "(sym 0)\n".repeat(MAX_PARTS) + "(sym 1)\n";
    let lines = clauses.iter().map(|clause| format!("(in {clause})\n"));
    symbols + &lines.collect::<String>()
}

/// Steps of res by a clause that denies the first atom, perhaps with another
/// literal, and the fact that is the second.
fn resolving(list: &str, [first, second]: [String; 2], other: &str) -> Vec<u8> {
    filled_with(
        inputs(&[
            format!("(or (- {first}){other})"),
            format!("(or (+ {second}))"),
        ]),
        &format!("(by res 0 0 1 0 0 {list} (let) (or{other}))\n"),
    )
}

/// res of two molecules, one with the other's parts in reverse order, filled: as
/// in any order, a search from the first part on compares 136 pairs.
fn resolved() -> Vec<u8> {
    let parts = |leaf| (0..MAX_PARTS).map(move |number| by_method(number, leaf));
    let first = molecule("(v 0)", parts("(v 0)").rev());
    let second = molecule(ENTRY, parts(ENTRY));
    resolving(&format!("(let {ENTRY})"), [first, second], "")
}

/// Two molecules: each part of the first is the second's last one, and differs
/// from the others by its end. A search compares 256 pairs, each to its end.
fn met_last(leaf: &str, filled: &str) -> [String; 2] {
    let last = by_result(MAX_PARTS - 1, leaf);
    let first = std::iter::repeat_n(last, MAX_PARTS);
    let second = (0..MAX_PARTS).map(|number| by_result(number, filled));
    [molecule(leaf, first), molecule(filled, second)]
}

/// res of them, without variables; another literal is left.
fn resolved_last() -> Vec<u8> {
    let other = " (+ (mem (f 0) (f 1)))";
    resolving("(let)", met_last("(f 0)", "(f 0)"), other)
}

/// res of them, the first filled.
fn resolved_last_filled() -> Vec<u8> {
    resolving(&format!("(let {ENTRY})"), met_last("(v 0)", ENTRY), "")
}

/// fac of two molecules of one clause, one with the other's parts in reverse
/// order, both filled.
fn factored() -> Vec<u8> {
    let parts = |leaf| (0..MAX_PARTS).map(move |number| by_result(number, leaf));
    let first = molecule("(v 0)", parts("(v 0)"));
    let second = molecule("(v 0)", parts("(v 0)").rev());
    let claim = molecule(ENTRY, parts(ENTRY));
    filled_with(
        inputs(&[format!("(or (+ {first}) (+ {second}))")]),
        &format!("(by fac 0 0 0 1 0 (let {ENTRY}) (let) (or (+ {claim})))\n"),
    )
}

/// mer of two molecules with half as many parts each, the first filled.
fn merged() -> Vec<u8> {
    let (first, second) = (0..MAX_PARTS / 2, MAX_PARTS / 2..MAX_PARTS);
    let of =
        |leaf, numbers: Range<usize>| molecule(leaf, numbers.map(|number| by_method(number, leaf)));
    filled_with(
        inputs(&[
            format!("(or (+ {}))", of("(v 0)", first)),
            format!("(or (+ {}))", of(ENTRY, second)),
        ]),
        &format!(
            "(by mer 0 0 1 0 0 (let {ENTRY}) (let) (or (+ {})))\n",
            of(ENTRY, 0..MAX_PARTS)
        ),
    )
}

/// pro of each part of a molecule in turn, filled.
fn projected() -> Vec<u8> {
    let parts = (0..MAX_PARTS).map(|number| by_method(number, "(v 0)"));
    let text = inputs(&[format!("(or (+ {}))", molecule("(v 0)", parts))]);
    filled_by(text, |number| {
        let place = number % MAX_PARTS;
        let claim = by_method(place, ENTRY).replacen("(mv", &format!("(mv {ENTRY}"), 1);
        format!("(by pro 0 0 0 0 {place} (let {ENTRY}) (let) (or (+ {claim})))\n")
    })
}

/// The texts of the corpus that the gate runs.
fn corpus() -> Text {
    let file = Path::new(env!("CARGO_MANIFEST_DIR")).join("../crates/corpus/data/corpus.bin");
    Text {
        name: "i  the stored corpus",
        family: Family::Corpus,
        parts: stored::texts(&file),
    }
}

/// The text, whose last claim has one literal more.
fn late(text: &[u8]) -> Vec<u8> {
    let text = std::str::from_utf8(text).unwrap().trim_end();
    let literal = " (+ (obj (f 0)))";
    let (before, last) = text.rsplit_once('\n').unwrap();
    let last = last.strip_suffix("))").unwrap();
    let mut text = format!("{before}\n{last}{literal}))\n");
    // A line may have to go to make room.
    while text.len() > MAX_BYTES {
        let mut lines: Vec<&str> = text.lines().collect();
        lines.remove(lines.len() - 2);
        text = lines.join("\n") + "\n";
    }
    text.into_bytes()
}
