//! Texts at a limit and just past it, each with its answer.

use super::model::{write_lines, Atom, Clause, Line, Literal, Step, Term, ARROWS};
use super::random::Random;
use super::Sample;
use crate::{Answer, Verdict, MAX_BYTES, MAX_DEPTH, MAX_LINES, MAX_PARTS, MAX_SYMBOLS};

/// The number of kinds of texts that [`limit_text`] knows.
pub const KINDS: usize = 25;

/// The text of a kind; `past` says whether one past the limit is wanted.
pub fn limit_text(random: &mut Random, kind: usize, past: bool) -> Sample {
    let over = usize::from(past);
    match kind {
        0 => symbols(random, MAX_SYMBOLS + over),
        1 => symbol_arity(8 + over),
        2 => symbol_arity(65_535 + over),
        3 => {
            let variable = Term::Var(31 + over as u32);
            in_input(random, variable, past.then_some(5))
        }
        4 => {
            let variable = Term::Var(31 + over as u32);
            in_list(variable, past.then_some(5))
        }
        5 => {
            let term = tower(random, MAX_DEPTH + over);
            in_input(random, term, past.then_some(2))
        }
        6 => {
            let term = tower(random, MAX_DEPTH + over);
            in_list(term, past.then_some(2))
        }
        7 => arguments(random, 8 + over),
        8 => literals(32 + over),
        9 => claimed_literals(32 + over),
        10 => list_terms(32 + over),
        11 => lines(random, MAX_LINES + over),
        12 => bytes(random, MAX_BYTES + over),
        13 => number(random, 65_535 + over),
        14 => clause_number(random, over),
        15 => occurrence(random, over),
        16 => argument(over),
        17 => filled_depth(past),
        18 => parts(8 + over),
        19 => highest_symbol(255 + over as u32),
        20 => unended(random, past),
        21 => molecule(random, MAX_PARTS + over),
        22 => merged(random, MAX_PARTS + over),
        23 => projected(random, over),
        _ => molecule(random, 2 - over),
    }
}

// ----- the pieces: symbol 0 takes no term, symbol 1 takes one -----

const SYMBOLS: [Line; 2] = [Line::Sym(0), Line::Sym(1)];

fn constant() -> Term {
    Term::App(0, Vec::new())
}

/// A term of a depth, of one part at each level.
fn tower(random: &mut Random, depth: usize) -> Term {
    let bottom = if random.percent(50) {
        constant()
    } else {
        Term::Var(random.below(32) as u32)
    };
    tower_on(bottom, depth)
}

fn tower_on(bottom: Term, depth: usize) -> Term {
    (1..depth).fold(bottom, |term, _| Term::App(1, vec![term]))
}

fn object(positive: bool, term: Term) -> Literal {
    Literal::new(positive, Atom::new("obj", vec![term]))
}

fn text(rest: impl IntoIterator<Item = Line>) -> Vec<u8> {
    let lines: Vec<Line> = SYMBOLS.into_iter().chain(rest).collect();
    write_lines(&lines)
}

/// The number of the first line after the two sym lines.
const FIRST: usize = SYMBOLS.len() + 1;

/// The text with the verdict open, or refused by a number on a line.
fn sample(text: Vec<u8>, count: usize, refused: Option<(u8, usize)>) -> Sample {
    let verdict = match refused {
        Some((number, line)) => Verdict::Refused { number, line },
        None => Verdict::Open { count },
    };
    Sample {
        text,
        expected: Some(verdict.into()),
    }
}

/// The text, whose last clause is its only empty one and descends from these
/// inputs; or refused by a number on its last line.
fn refuted(lines: Vec<Line>, rests: Vec<usize>, refused: Option<u8>) -> Sample {
    let count = lines.len();
    if let Some(number) = refused {
        return sample(text(lines), count, Some((number, FIRST + count - 1)));
    }
    let first = count - 1;
    let verdict = Verdict::Refuted { count, first };
    Sample {
        text: text(lines),
        expected: Some(Answer { verdict, rests }),
    }
}

fn step(rule: &'static str, numbers: [usize; 5], lists: [Vec<Term>; 2], claim: Clause) -> Line {
    Line::By(Step {
        rule,
        numbers,
        lists,
        claim,
    })
}

// ----- the kinds -----

fn symbols(random: &mut Random, count: usize) -> Sample {
    let constant = random.below(MAX_SYMBOLS);
    let lines: Vec<Line> = (0..count)
        .map(|symbol| {
            if symbol == constant {
                Line::Sym(0)
            } else {
                Line::Sym(random.below(9))
            }
        })
        .collect();
    let refused = (count > MAX_SYMBOLS).then_some((5, MAX_SYMBOLS + 1));
    sample(write_lines(&lines), 0, refused)
}

fn symbol_arity(arity: usize) -> Sample {
    let refused = match arity {
        0..=8 => None,
        9..=65_535 => Some((5, FIRST)),
        _ => Some((2, FIRST)),
    };
    sample(text([Line::Sym(arity)]), 0, refused)
}

/// The term somewhere in an input clause.
fn in_input(random: &mut Random, term: Term, number: Option<u8>) -> Sample {
    let mut atom = match random.below(3) {
        0 => Atom::new("obj", vec![constant()]),
        1 => Atom::new("mem", vec![constant(); 2]),
        _ => Atom::new("st", vec![constant(); 5]),
    };
    let place = random.below(atom.terms.len());
    atom.terms[place] = term;
    let clause = vec![object(true, constant()), Literal::new(false, atom)];
    sample(
        text([Line::In(clause)]),
        1,
        number.map(|number| (number, FIRST)),
    )
}

/// The term in the list of an eli step.
fn in_list(term: Term, number: Option<u8>) -> Sample {
    let clause = vec![object(false, Term::Var(0)), object(true, constant())];
    let claim = vec![object(true, constant())];
    let lines = [
        Line::In(clause),
        step("eli", [0; 5], [vec![term], Vec::new()], claim),
    ];
    sample(text(lines), 2, number.map(|number| (number, FIRST + 1)))
}

/// An arrow atom with so many arguments.
fn arrow(random: &mut Random, arguments: usize) -> Atom {
    let word = *random.pick(&ARROWS);
    let atom = Atom::new(word, vec![constant(); 3 + arguments]);
    if random.percent(50) {
        atom.emptied()
    } else {
        atom
    }
}

/// Arrow atoms with no argument or with one.
fn arrows(random: &mut Random, count: usize) -> Vec<Atom> {
    let mut arrow = || {
        let arguments = random.below(2);
        arrow(random, arguments)
    };
    (0..count).map(|_| arrow()).collect()
}

/// So many arguments of an arrow atom, or of a part of a molecule.
fn arguments(random: &mut Random, count: usize) -> Sample {
    let mut atoms = vec![arrow(random, count)];
    if random.percent(50) {
        let others = random.between(1, 3);
        atoms.extend(arrows(random, others));
        random.shuffle(&mut atoms);
    }
    let clause = vec![Literal::new(true, Atom::joined(&atoms))];
    sample(
        text([Line::In(clause)]),
        1,
        (count > 8).then_some((5, FIRST)),
    )
}

fn literals(count: usize) -> Sample {
    let clause = vec![object(false, constant()); count];
    sample(
        text([Line::In(clause)]),
        1,
        (count > 32).then_some((5, FIRST)),
    )
}

/// A claim of so many literals, resolved from two clauses.
fn claimed_literals(count: usize) -> Sample {
    let mut first = vec![object(true, constant()); 17];
    first[0].positive = false;
    let second = vec![object(true, constant()); count - 15];
    let lines = [
        Line::In(first),
        Line::In(second),
        step(
            "res",
            [0, 0, 1, 0, 0],
            [Vec::new(), Vec::new()],
            vec![object(true, constant()); count],
        ),
    ];
    sample(text(lines), 3, (count > 32).then_some((5, FIRST + 2)))
}

/// A list of so many terms, for a clause with variable 31.
fn list_terms(count: usize) -> Sample {
    let lines = [
        Line::In(vec![
            object(false, Term::Var(31)),
            object(true, Term::Var(30)),
        ]),
        step(
            "eli",
            [0; 5],
            [vec![constant(); count], Vec::new()],
            vec![object(true, constant())],
        ),
    ];
    sample(text(lines), 2, (count > 32).then_some((5, FIRST + 1)))
}

fn lines(random: &mut Random, count: usize) -> Sample {
    let clause = vec![object(random.percent(50), constant())];
    let inputs = count - SYMBOLS.len();
    let mut text = text(vec![Line::In(clause); inputs]);
    let mut refused = (count > MAX_LINES).then_some((1, 0));
    if random.percent(30) {
        // The last line, without its line end, is still a line.
        text.pop();
        refused = refused.or(Some((2, count)));
    }
    sample(text, inputs, refused)
}

fn bytes(random: &mut Random, count: usize) -> Sample {
    // A literal `(+ (obj (v N)))` takes 16 bytes with a space, or 17 with two
    // digits, so that a last line can have any length in a wide range.
    let filler = |literals: usize, long: usize| {
        let variable = |place| Term::Var(if place < long { 31 } else { 0 });
        Line::In((0..literals).map(|n| object(true, variable(n))).collect())
    };
    let length = |line: &Line| write_lines(std::slice::from_ref(line)).len();
    let mut lines: Vec<Line> = Vec::new();
    let mut left = count - text([]).len();
    let bare = length(&filler(0, 0));
    while left > bare + 16 * 64 {
        let literals = random.between(16, 32);
        let line = filler(literals, random.below(literals));
        left -= length(&line);
        lines.push(line);
    }
    while left > bare + 16 * 32 {
        let line = filler(16, 0);
        left -= length(&line);
        lines.push(line);
    }
    let literals = (left - bare) / 16;
    lines.push(filler(literals, left - bare - 16 * literals));
    let clauses = lines.len();
    sample(text(lines), clauses, (count > MAX_BYTES).then_some((1, 0)))
}

/// A number 65,535 or above at one of the places of a number.
fn number(random: &mut Random, number: usize) -> Sample {
    let past = number > 65_535;
    let mut numbers = [0; 5];
    let place = random.below(5);
    numbers[place] = number;
    let input = Line::In(vec![object(false, constant())]);
    let step = step("eli", numbers, [Vec::new(), Vec::new()], Vec::new());
    // eli uses A and I.
    let check = match place {
        _ if past => 2,
        0 => 7,
        1 => 9,
        _ => 8,
    };
    sample(text([input, step]), 2, Some((check, FIRST + 1)))
}

/// The highest clause number a step can name, or its own.
fn clause_number(random: &mut Random, over: usize) -> Sample {
    let inputs = if random.percent(50) {
        MAX_LINES - SYMBOLS.len() - 1
    } else {
        random.between(1, 12)
    };
    let parent = inputs - 1 + over;
    let input = Line::In(vec![object(false, constant())]);
    let mut lines = vec![input; inputs];
    lines.push(step(
        "eli",
        [parent, 0, 0, 0, 0],
        [Vec::new(), Vec::new()],
        Vec::new(),
    ));
    refuted(lines, vec![parent], (over > 0).then_some(7))
}

/// Paramodulation at the last occurrence, or behind it.
fn occurrence(random: &mut Random, over: usize) -> Sample {
    let tall = tower_on(constant(), 3);
    let atom = if random.percent(50) {
        Atom::new("mem", vec![tall; 2])
    } else {
        let count = random.between(2, 4);
        Atom::molecule(&arrows(random, count))
    };
    let equality = Atom::new("eq", vec![constant(); 2]);
    let last = atom.occurrences() - 1;
    let clause = vec![Literal::new(true, atom)];
    let lines = [
        Line::In(clause.clone()),
        Line::In(vec![Literal::new(true, equality)]),
        step(
            "par",
            [0, 0, 1, 0, last + over],
            [Vec::new(), Vec::new()],
            clause,
        ),
    ];
    sample(text(lines), 3, (over > 0).then_some((9, FIRST + 2)))
}

/// Input restriction at the last argument, or behind it.
fn argument(over: usize) -> Sample {
    let signature = vec![Literal::new(true, Atom::new("mt", vec![constant(); 11]))];
    let link = Literal::new(true, Atom::new("sub", vec![constant(); 2]));
    let lines = [
        Line::In(signature.clone()),
        Line::In(vec![link]),
        step(
            "inp",
            [0, 0, 1, 0, 7 + over],
            [Vec::new(), Vec::new()],
            signature,
        ),
    ];
    sample(text(lines), 3, (over > 0).then_some((9, FIRST + 2)))
}

/// Terms that agree, or differ, only deeper than any can be written.
fn filled_depth(differ: bool) -> Sample {
    let tall = |bottom| tower_on(bottom, MAX_DEPTH);
    let second = if differ {
        tower_on(constant(), MAX_DEPTH - 1)
    } else {
        tall(constant())
    };
    let lines = vec![
        Line::In(vec![object(false, tall(Term::Var(0)))]),
        Line::In(vec![object(true, tall(Term::Var(0)))]),
        step(
            "res",
            [0, 0, 1, 0, 0],
            [vec![tall(constant())], vec![second]],
            Vec::new(),
        ),
    ];
    refuted(lines, vec![0, 1], differ.then_some(10))
}

/// A symbol of K 8 with so many parts.
fn parts(count: usize) -> Sample {
    let term = Term::App(2, vec![constant(); count]);
    let lines = [Line::Sym(8), Line::In(vec![object(true, term)])];
    sample(text(lines), 1, (count != 8).then_some((6, FIRST + 1)))
}

/// The last symbol of a full table, or the one behind it.
fn highest_symbol(symbol: u32) -> Sample {
    let mut lines = vec![Line::Sym(0); MAX_SYMBOLS];
    lines.push(Line::In(vec![object(true, Term::App(symbol, Vec::new()))]));
    sample(
        write_lines(&lines),
        1,
        (symbol > 255).then_some((6, MAX_SYMBOLS + 1)),
    )
}

/// A molecule with so many parts, in an input clause.
fn molecule(random: &mut Random, count: usize) -> Sample {
    let atom = Atom::molecule(&arrows(random, count));
    let clause = vec![
        object(true, constant()),
        Literal::new(random.percent(50), atom),
    ];
    let number = match count {
        0 | 1 => Some(2),
        2..=16 => None,
        _ => Some(5),
    };
    let refused = number.map(|number| (number, FIRST));
    sample(text([Line::In(clause)]), 1, refused)
}

/// So many parts merged from two clauses.
fn merged(random: &mut Random, count: usize) -> Sample {
    let atoms = arrows(random, count);
    let clause = |atoms: &[Atom]| vec![Literal::new(true, Atom::joined(atoms))];
    let (first, second) = atoms.split_at(random.between(1, MAX_PARTS - 1));
    let lines = [
        Line::In(clause(first)),
        Line::In(clause(second)),
        step(
            "mer",
            [0, 0, 1, 0, 0],
            [Vec::new(), Vec::new()],
            clause(&atoms),
        ),
    ];
    let refused = (count > MAX_PARTS).then_some((5, FIRST + 2));
    sample(text(lines), 3, refused)
}

/// The last part of a molecule, or the one behind it.
fn projected(random: &mut Random, over: usize) -> Sample {
    let count = *random.pick(&[2, 3, MAX_PARTS - 1, MAX_PARTS]);
    let mut atoms = arrows(random, count);
    let lines = [
        Line::In(vec![Literal::new(true, Atom::molecule(&atoms))]),
        step(
            "pro",
            [0, 0, 0, 0, count - 1 + over],
            [Vec::new(), Vec::new()],
            vec![Literal::new(true, atoms.swap_remove(count - 1))],
        ),
    ];
    sample(text(lines), 2, (over > 0).then_some((9, FIRST + 1)))
}

/// The last line with or without its line end.
fn unended(random: &mut Random, past: bool) -> Sample {
    let inputs = random.between(1, 4);
    let mut text = text(vec![Line::In(vec![object(true, constant())]); inputs]);
    let mut refused = None;
    if past {
        text.pop();
        refused = Some((2, FIRST + inputs - 1));
    }
    sample(text, inputs, refused)
}
