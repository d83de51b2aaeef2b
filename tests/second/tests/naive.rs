//! The checker against a naive one that works on the text itself: lines are
//! read as trees of brackets, variables are filled by replacing their text,
//! and terms are compared as strings. It is slow and shares no code with the
//! checker, so that a mistake in either should show.

use std::collections::{BTreeMap, BTreeSet};

use second::check;
use second::generate::generate;

#[test]
fn both_give_the_same_answer() {
    for seed in 0..8_000 {
        let text = generate(seed);
        assert_eq!(check(&text).to_string(), naive(&text), "seed {seed}");
    }
}

#[test]
#[ignore = "takes minutes; for a long run by hand"]
fn both_give_the_same_answer_for_long() {
    for seed in 1_000_000..1_200_000 {
        let text = generate(seed);
        assert_eq!(check(&text).to_string(), naive(&text), "seed {seed}");
    }
}

// ----- whole texts -----

#[derive(Default)]
struct State {
    arities: Vec<usize>,
    /// The literals of each clause, as text.
    clauses: Vec<Vec<String>>,
    /// The used parents of each step, by its clause's number.
    parents: BTreeMap<usize, Vec<usize>>,
}

fn naive(text: &[u8]) -> String {
    let ends = text.iter().filter(|&&byte| byte == b'\n').count();
    let unended = usize::from(text.last().is_some_and(|&byte| byte != b'\n'));
    if text.len() >= 65_536 || ends + unended >= 1_025 {
        return "refused 1 0".into();
    }
    let mut state = State::default();
    let lines: Vec<&[u8]> = text.split(|&byte| byte == b'\n').collect();
    for (index, line) in lines.iter().take(ends + unended).enumerate() {
        let failed = match std::str::from_utf8(line).ok().and_then(parse) {
            Some(tree) if index < ends && is_line(&tree) => take_line(&mut state, &tree),
            _ => 2,
        };
        if failed != 0 {
            return format!("refused {failed} {}", index + 1);
        }
    }
    if !state.arities.contains(&0) {
        return "refused 4 0".into();
    }
    let count = state.clauses.len();
    match state.clauses.iter().position(|clause| clause.is_empty()) {
        Some(first) => format!("refuted {count} {first}\nrests{}", rests(&state, first)),
        None => format!("open {count}"),
    }
}

/// The numbers of the inputs among a clause and its ancestors, with a space
/// before each.
fn rests(state: &State, number: usize) -> String {
    let mut line = BTreeSet::new();
    add_ancestors(state, number, &mut line);
    line.retain(|ancestor| !state.parents.contains_key(ancestor));
    line.iter().map(|input| format!(" {input}")).collect()
}

/// Adds a clause and then, unless it was there, the ancestors of its parents.
fn add_ancestors(state: &State, number: usize, line: &mut BTreeSet<usize>) {
    if line.insert(number) {
        for &parent in state.parents.get(&number).into_iter().flatten() {
            add_ancestors(state, parent, line);
        }
    }
}

/// Checks 3 to 11; 0 if all pass.
fn take_line(state: &mut State, line: &Tree) -> u8 {
    let word = line.item(0).text;
    if word == "sym" {
        let arity = number(line.item(1).text);
        if !state.clauses.is_empty() {
            return 3;
        }
        if arity > 8 || state.arities.len() == 256 {
            return 5;
        }
        state.arities.push(arity);
        return 0;
    }
    if word == "in" && !state.parents.is_empty() {
        return 3;
    }
    if !state.arities.contains(&0) {
        return 4;
    }
    let mut within = true;
    let mut declared = true;
    line.visit(&mut |tree| {
        let Some(items) = &tree.items else { return };
        let parts = items.len().saturating_sub(1);
        match items.first().map_or("", |first| first.text) {
            "v" => within &= number(items[1].text) <= 31,
            "f" => declared &= state.arities.get(number(items[1].text)) == Some(&(parts - 1)),
            "or" | "let" => within &= parts <= 32,
            // The object isn't a part.
            "mol" => within &= parts <= 17,
            word if is_arrow(word) => within &= items[items.len() - 2].len() <= 8,
            _ => {}
        }
    });
    if !within {
        return 5;
    }
    if !declared {
        return 6;
    }
    let clause = line.items.as_ref().unwrap().last().unwrap();
    let claim: Vec<String> = clause.texts(1);
    if word == "by" {
        let failed = check_step(state, line, &claim);
        if failed != 0 {
            return failed;
        }
        let own = state.clauses.len();
        state.parents.insert(own, parents_of(line));
    }
    state.clauses.push(claim);
    0
}

// ----- rules -----

/// The numbers of a by line's used parents.
fn parents_of(line: &Tree) -> Vec<usize> {
    let places = match line.item(1).text {
        "refl" => vec![],
        "fac" | "eli" | "pro" => vec![2],
        _ => vec![2, 4],
    };
    let place = |&place: &usize| number(line.item(place).text);
    places.iter().map(place).collect()
}

fn check_step(state: &State, line: &Tree, claim: &[String]) -> u8 {
    let rule = line.item(1).text;
    let numbers: Vec<usize> = (2..7).map(|place| number(line.item(place).text)).collect();
    let [a, i, b, j, k] = numbers[..] else {
        unreachable!()
    };
    let lists = [line.item(7).texts(1), line.item(8).texts(1)];
    let used = match rule {
        "refl" => "",
        "fac" => "aij",
        "eli" => "ai",
        "pro" => "aik",
        "par" | "inp" => "aibjk",
        _ => "aibj",
    };
    let own = state.clauses.len();
    if (used.contains('a') && a >= own) || (used.contains('b') && b >= own) {
        return 7;
    }
    for (name, number) in "aibjk".chars().zip(&numbers) {
        if !used.contains(name) && *number != 0 {
            return 8;
        }
    }
    let parent = |name: char, number: usize| match used.contains(name) {
        true => state.clauses[number].clone(),
        false => Vec::new(),
    };
    let parents = [parent('a', a), parent('b', b)];
    for (side, clause) in parents.iter().enumerate() {
        let mut wanted = (0..32)
            .filter(|variable| clause.concat().contains(&format!("(v {variable})")))
            .map(|variable| variable + 1)
            .max()
            .unwrap_or(0);
        if rule == "refl" && side == 0 {
            wanted = 1;
        }
        if lists[side].len() != wanted {
            return 8;
        }
    }

    let (new, dropped) = match conclude(rule, &parents, &lists, [i, j, k]) {
        Ok(conclusion) => conclusion,
        Err(failed) => return failed,
    };
    let mut expected: Vec<String> = new.into_iter().collect();
    for (side, dropped) in [dropped, j].into_iter().enumerate() {
        for (place, literal) in parents[side].iter().enumerate() {
            if place != dropped {
                expected.push(fill(literal, &lists[side]));
            }
        }
    }
    match expected == claim {
        true => 0,
        false => 11,
    }
}

/// The new literal, and the position in A of the literal that goes.
fn conclude(
    rule: &str,
    parents: &[Vec<String>; 2],
    lists: &[Vec<String>; 2],
    [i, j, k]: [usize; 3],
) -> Result<(Option<String>, usize), u8> {
    if rule == "refl" {
        let term = &lists[0][0];
        return Ok((Some(format!("(+ (sub {term} {term}))")), i));
    }
    let raw_first = parents[0].get(i).ok_or(9)?;
    let first = fill(raw_first, &lists[0]);
    let first = parse(&first).unwrap();
    let (x, word) = (first.item(1), first.item(1).item(0).text);
    let plus = first.item(0).text == "+";
    if rule == "eli" {
        return match !plus && word == "obj" {
            true => Ok((None, i)),
            false => Err(9),
        };
    }
    if rule == "pro" {
        let (object, parts) = said(x).ok_or(9)?;
        return match plus && word == "mol" && k < parts.len() {
            true => Ok((Some(format!("(+ {})", with_object(&parts[k], &object))), i)),
            false => Err(9),
        };
    }
    let side = usize::from(rule != "fac");
    let second = fill(parents[side].get(j).ok_or(9)?, &lists[side]);
    let second = parse(&second).unwrap();
    let (y, other_word) = (second.item(1), second.item(1).item(0).text);
    let other_plus = second.item(0).text == "+";

    let is_signature = plus && matches!(word, "st" | "mt");
    let is_scalar = |plus, word| plus && matches!(word, "sv" | "si");
    let arguments = if is_signature {
        x.item(3).texts(0)
    } else {
        Vec::new()
    };
    let occurrence = occurrence(raw_first, k);
    let shape = match rule {
        "res" => !plus && other_plus,
        "fac" => i != j && plus == other_plus,
        "par" => occurrence.is_some() && other_plus && other_word == "eq",
        "acy" | "tra" => plus && word == "sub" && other_plus && other_word == "sub",
        "inc" => plus && word == "mem" && other_plus && other_word == "sub",
        "inh" => is_signature && other_plus && other_word == "sub",
        "inp" => is_signature && k < arguments.len() && other_plus && other_word == "sub",
        "out" => is_signature && x.item(4).text != "none" && other_plus && other_word == "sub",
        "mer" => plus && other_plus && said(x).is_some() && said(y).is_some(),
        _ => is_scalar(plus, word) && is_scalar(other_plus, other_word),
    };
    if !shape {
        return Err(9);
    }
    let agree = |left: &str, right: &str| if left == right { Ok(()) } else { Err(10) };
    let arrow = |object: &str, arguments: &[String], result: &str| {
        let (method, arguments) = (x.item(2).text, arguments.join(" "));
        Some(format!(
            "(+ ({word} {object} {method} ({arguments}) {result}))"
        ))
    };
    let (old, new) = match rule {
        "out" => (y.item(1).text, y.item(2).text),
        _ if y.len() > 2 => (y.item(2).text, y.item(1).text),
        _ => ("", ""),
    };
    let literal = match rule {
        "res" | "fac" => {
            let fits = match (said(x), said(y)) {
                (Some(one), Some(other)) => {
                    let all: BTreeSet<String> =
                        other.1.iter().flat_map(|part| given(part)).collect();
                    one.0 == other.0 && one.1.iter().all(|part| all.contains(part))
                }
                _ => x.text == y.text,
            };
            if !fits {
                return Err(10);
            }
            let dropped = if rule == "fac" && plus { j } else { i };
            return Ok((None, dropped));
        }
        "par" => {
            let (start, end) = occurrence.unwrap();
            let part = |text: &str| fill(text, &lists[0]);
            agree(&part(&raw_first[start..end]), y.item(1).text)?;
            let (before, after) = (part(&raw_first[..start]), part(&raw_first[end..]));
            Some(format!("{before}{}{after}", y.item(2).text))
        }
        "mer" => {
            let (object, mut parts) = said(x).unwrap();
            let (other_object, other_parts) = said(y).unwrap();
            agree(&object, &other_object)?;
            parts.extend(other_parts);
            Some(format!("(+ (mol {object} {}))", parts.join(" ")))
        }
        "acy" => {
            agree(x.item(1).text, y.item(2).text)?;
            agree(x.item(2).text, y.item(1).text)?;
            Some(format!("(+ (eq {} {}))", x.item(1).text, x.item(2).text))
        }
        "tra" | "inc" => {
            agree(x.item(2).text, y.item(1).text)?;
            Some(format!(
                "(+ ({word} {} {}))",
                x.item(1).text,
                y.item(2).text
            ))
        }
        "inh" => {
            agree(x.item(1).text, old)?;
            arrow(new, &arguments, x.item(4).text)
        }
        "inp" => {
            agree(&arguments[k], old)?;
            let mut arguments = arguments.clone();
            arguments[k] = new.to_string();
            arrow(x.item(1).text, &arguments, x.item(4).text)
        }
        "out" => {
            agree(x.item(4).text, old)?;
            arrow(x.item(1).text, &arguments, new)
        }
        _ => {
            for place in 0..4 {
                agree(x.item(place).text, y.item(place).text)?;
            }
            Some(format!("(+ (eq {} {}))", x.item(4).text, y.item(4).text))
        }
    };
    Ok((literal, i))
}

/// The object of an arrow atom or a molecule, and its parts.
fn said(atom: &Tree) -> Option<(String, Vec<String>)> {
    let word = atom.item(0).text;
    let object = || atom.item(1).text.to_string();
    match word {
        "mol" => Some((object(), atom.texts(2))),
        _ if is_arrow(word) => {
            let part = format!("({word} {})", atom.texts(2).join(" "));
            Some((object(), vec![part]))
        }
        _ => None,
    }
}

/// The arrow atom of a part and an object.
fn with_object(part: &str, object: &str) -> String {
    part.replacen(' ', &format!(" {object} "), 1)
}

/// A part, and where its result is no scalar value the same with none.
fn given(part: &str) -> Vec<String> {
    let tree = parse(part).unwrap();
    let [word, method, arguments, _] = &tree.texts(0)[..] else {
        unreachable!()
    };
    let mut all = vec![part.to_string()];
    if !matches!(word.as_str(), "sv" | "si") {
        all.push(format!("({word} {method} {arguments} none)"));
    }
    all
}

fn is_arrow(word: &str) -> bool {
    matches!(word, "sv" | "si" | "mv" | "mi" | "st" | "mt")
}

/// The text with the list's terms in place of variables.
fn fill(text: &str, list: &[String]) -> String {
    let mut pieces = text.split("(v ");
    let mut filled = pieces.next().unwrap().to_string();
    for piece in pieces {
        let (variable, rest) = piece.split_once(')').unwrap();
        filled += &list[number(variable)];
        filled += rest;
    }
    filled
}

/// Where the term occurrence of a number starts and ends in a literal.
fn occurrence(literal: &str, k: usize) -> Option<(usize, usize)> {
    let mut starts = (0..literal.len())
        .filter(|&at| literal[at..].starts_with("(v ") || literal[at..].starts_with("(f "));
    let start = starts.nth(k)?;
    let mut open = 0;
    for (at, byte) in literal.bytes().enumerate().skip(start) {
        match byte {
            b'(' => open += 1,
            b')' => open -= 1,
            _ => {}
        }
        if open == 0 {
            return Some((start, at + 1));
        }
    }
    None
}

// ----- trees of brackets -----

/// A word, or items between brackets; `text` is all of it.
struct Tree<'a> {
    text: &'a str,
    items: Option<Vec<Tree<'a>>>,
}

impl<'a> Tree<'a> {
    fn len(&self) -> usize {
        self.items.as_ref().map_or(0, Vec::len)
    }

    fn item(&self, place: usize) -> &Tree<'a> {
        &self.items.as_ref().unwrap()[place]
    }

    /// The text of the items from a place on.
    fn texts(&self, from: usize) -> Vec<String> {
        let items = self.items.as_ref().unwrap();
        items[from..].iter().map(|item| item.text.into()).collect()
    }

    fn visit(&self, look: &mut impl FnMut(&Tree)) {
        look(self);
        for item in self.items.iter().flatten() {
            item.visit(look);
        }
    }
}

fn parse(text: &str) -> Option<Tree<'_>> {
    let (tree, rest) = parse_first(text, 100)?;
    rest.is_empty().then_some(tree)
}

/// The first tree of a text, and the rest. Filled terms are read again, so
/// the depth allowed here is more than that of a form.
fn parse_first(text: &str, depth: usize) -> Option<(Tree<'_>, &str)> {
    if depth == 0 {
        return None;
    }
    if !text.starts_with('(') {
        let end = text.find([' ', '(', ')']).unwrap_or(text.len());
        let (word, rest) = text.split_at(end);
        let tree = Tree {
            text: word,
            items: None,
        };
        return (!word.is_empty()).then_some((tree, rest));
    }
    let mut items = Vec::new();
    let mut rest = &text[1..];
    while !rest.starts_with(')') {
        if !items.is_empty() {
            rest = rest.strip_prefix(' ')?;
        }
        let (item, behind) = parse_first(rest, depth - 1)?;
        items.push(item);
        rest = behind;
    }
    let rest = &rest[1..];
    let tree = Tree {
        text: &text[..text.len() - rest.len()],
        items: Some(items),
    };
    Some((tree, rest))
}

// ----- forms -----

fn number(text: &str) -> usize {
    text.parse().unwrap()
}

fn is_number(tree: &Tree) -> bool {
    // Written back, a number must look as it did.
    let value: Result<u16, _> = tree.text.parse();
    tree.items.is_none() && value.is_ok_and(|value| value.to_string() == tree.text)
}

fn is_word(tree: &Tree, word: &str) -> bool {
    tree.items.is_none() && tree.text == word
}

fn is_term(tree: &Tree, depth: usize) -> bool {
    let Some([word, symbol, parts @ ..]) = tree.items.as_deref() else {
        return false;
    };
    let below = |part| is_term(part, depth - 1);
    depth > 0
        && is_number(symbol)
        && (is_word(word, "v") && parts.is_empty() || is_word(word, "f") && parts.iter().all(below))
}

fn is_atom(tree: &Tree) -> bool {
    let Some([word, terms @ ..]) = tree.items.as_deref() else {
        return false;
    };
    if word.items.is_some() {
        return false;
    }
    let term = |tree| is_term(tree, 16);
    match (word.text, terms) {
        ("obj", [t]) => term(t),
        ("eq" | "mem" | "sub", [t, u]) => term(t) && term(u),
        ("mol", [o, parts @ ..]) => term(o) && parts.len() > 1 && parts.iter().all(is_part),
        (arrow, [o, rest @ ..]) => term(o) && is_said(arrow, rest),
        _ => false,
    }
}

fn is_part(tree: &Tree) -> bool {
    match tree.items.as_deref() {
        Some([word, rest @ ..]) => word.items.is_none() && is_said(word.text, rest),
        _ => false,
    }
}

/// Whether these are a method, arguments and a result that the arrow may have.
fn is_said(arrow: &str, rest: &[Tree]) -> bool {
    let term = |tree| is_term(tree, 16);
    let [method, arguments, result] = rest else {
        return false;
    };
    let arguments = arguments.items.as_deref();
    let none = is_word(result, "none") && !matches!(arrow, "sv" | "si");
    is_arrow(arrow)
        && term(method)
        && arguments.is_some_and(|arguments| arguments.iter().all(term))
        && (none || term(result))
}

fn is_literal(tree: &Tree) -> bool {
    match tree.items.as_deref() {
        Some([sign, atom]) => (is_word(sign, "+") || is_word(sign, "-")) && is_atom(atom),
        _ => false,
    }
}

fn is_row(tree: &Tree, word: &str, is_item: impl Fn(&Tree) -> bool) -> bool {
    match tree.items.as_deref() {
        Some([first, items @ ..]) => is_word(first, word) && items.iter().all(is_item),
        _ => false,
    }
}

fn is_line(tree: &Tree) -> bool {
    let rules = "refl res fac par acy tra inc inh inp out sca eli mer pro";
    let clause = |tree| is_row(tree, "or", is_literal);
    let list = |tree| is_row(tree, "let", |term| is_term(term, 16));
    match tree.items.as_deref() {
        Some([word, k]) if is_word(word, "sym") => is_number(k),
        Some([word, body]) if is_word(word, "in") => clause(body),
        Some([word, rule, numbers @ .., first, second, claim]) if is_word(word, "by") => {
            rule.items.is_none()
                && rules.split(' ').any(|known| known == rule.text)
                && numbers.len() == 5
                && numbers.iter().all(is_number)
                && list(first)
                && list(second)
                && clause(claim)
        }
        _ => false,
    }
}
