//! Derivations as trees, and how they are written as text.
//!
//! This is the generator's own model and shares nothing with the checker's
//! [`syntax`](crate::syntax): a mistake in one should show against the other.
//! It can also hold what no valid text holds (large numbers, unknown words).

use std::collections::BTreeSet;
use std::fmt::Write;

/// The fourteen rules.
pub const RULES: [&str; 14] = [
    "refl", "res", "fac", "par", "acy", "tra", "inc", "inh", "inp", "out", "sca", "eli", "mer",
    "pro",
];
/// The atoms of two terms.
pub const PAIRS: [&str; 3] = ["eq", "mem", "sub"];
/// The arrows.
pub const ARROWS: [&str; 6] = ["sv", "si", "mv", "mi", "st", "mt"];
/// The word of a molecule.
pub const MOLECULE: &str = "mol";

/// Whether the rule uses a parent A.
pub fn uses_first(rule: &str) -> bool {
    rule != "refl"
}

/// Whether the rule uses a parent B.
pub fn uses_second(rule: &str) -> bool {
    !matches!(rule, "refl" | "fac" | "eli" | "pro")
}

/// Which of A I B J K the rule uses.
pub fn used_numbers(rule: &str) -> [bool; 5] {
    let first = uses_first(rule);
    let second = uses_second(rule);
    [
        first,
        first,
        second,
        second || rule == "fac",
        matches!(rule, "par" | "inp" | "pro"),
    ]
}

#[derive(Clone, Debug, PartialEq, Eq)]
pub enum Term {
    Var(u32),
    App(u32, Vec<Term>),
}

impl Term {
    /// The nesting depth, the outermost term counting as 1.
    pub fn depth(&self) -> usize {
        match self {
            Term::Var(_) => 1,
            Term::App(_, parts) => 1 + parts.iter().map(Term::depth).max().unwrap_or(0),
        }
    }

    /// The number of occurrences of terms in it, itself included.
    pub fn size(&self) -> usize {
        match self {
            Term::Var(_) => 1,
            Term::App(_, parts) => 1 + parts.iter().map(Term::size).sum::<usize>(),
        }
    }

    pub fn collect_variables(&self, found: &mut BTreeSet<u32>) {
        match self {
            Term::Var(number) => {
                found.insert(*number);
            }
            Term::App(_, parts) => parts.iter().for_each(|part| part.collect_variables(found)),
        }
    }

    /// The term with each variable replaced.
    pub fn map_variables(&self, image: &mut impl FnMut(u32) -> Term) -> Term {
        match self {
            Term::Var(number) => image(*number),
            Term::App(symbol, parts) => Term::App(
                *symbol,
                parts.iter().map(|part| part.map_variables(image)).collect(),
            ),
        }
    }

    /// Occurrence `index` in it, in preorder.
    pub fn occurrence(&self, index: usize) -> Option<&Term> {
        occurrence_in(std::slice::from_ref(self), index)
    }

    pub fn occurrence_mut(&mut self, index: usize) -> Option<&mut Term> {
        occurrence_in_mut(std::slice::from_mut(self), index)
    }

    fn write(&self, out: &mut String) {
        match self {
            Term::Var(number) => write!(out, "(v {number})").unwrap(),
            Term::App(symbol, parts) => {
                write!(out, "(f {symbol}").unwrap();
                for part in parts {
                    out.push(' ');
                    part.write(out);
                }
                out.push(')');
            }
        }
    }
}

/// Occurrence `index` in a row of terms, in preorder.
pub fn occurrence_in(terms: &[Term], mut index: usize) -> Option<&Term> {
    for term in terms {
        let size = term.size();
        if index == 0 {
            return Some(term);
        }
        if index < size {
            match term {
                Term::Var(_) => return None,
                Term::App(_, parts) => return occurrence_in(parts, index - 1),
            }
        }
        index -= size;
    }
    None
}

pub fn occurrence_in_mut(terms: &mut [Term], mut index: usize) -> Option<&mut Term> {
    for term in terms {
        let size = term.size();
        if index == 0 {
            return Some(term);
        }
        if index < size {
            match term {
                Term::Var(_) => return None,
                Term::App(_, parts) => return occurrence_in_mut(parts, index - 1),
            }
        }
        index -= size;
    }
    None
}

/// A part of a molecule but for its terms, which are method, arguments and,
/// unless `none`, the result.
#[derive(Clone, Copy, Debug, PartialEq, Eq)]
pub struct Part {
    pub word: &'static str,
    pub arguments: usize,
    pub none: bool,
}

impl Part {
    /// The number of its terms.
    fn terms(self) -> usize {
        1 + self.arguments + usize::from(!self.none)
    }
}

/// An atom: its word and its terms in order. An arrow's terms are object,
/// method, arguments and, unless `none`, the result; a molecule's are its
/// object and those of its parts.
#[derive(Clone, Debug, PartialEq, Eq)]
pub struct Atom {
    pub word: &'static str,
    pub terms: Vec<Term>,
    pub none: bool,
    /// Of a molecule.
    pub parts: Vec<Part>,
}

impl Atom {
    pub fn new(word: &'static str, terms: Vec<Term>) -> Self {
        Atom {
            word,
            terms,
            none: false,
            parts: Vec::new(),
        }
    }

    /// The molecule of the parts of these arrow atoms, with the first one's
    /// object.
    pub fn molecule(atoms: &[Atom]) -> Self {
        let object = atoms[0].terms[0].clone();
        let parts = atoms.iter().flat_map(|atom| atom.terms[1..].to_vec());
        Atom {
            word: MOLECULE,
            terms: [object].into_iter().chain(parts).collect(),
            none: false,
            parts: atoms.iter().map(Atom::part).collect(),
        }
    }

    /// The same, or the arrow atom itself where there is no other.
    pub fn joined(atoms: &[Atom]) -> Self {
        match atoms {
            [atom] => atom.clone(),
            _ => Atom::molecule(atoms),
        }
    }

    pub fn is_arrow(&self) -> bool {
        ARROWS.contains(&self.word)
    }

    pub fn is_molecule(&self) -> bool {
        self.word == MOLECULE
    }

    /// An arrow atom's part.
    fn part(&self) -> Part {
        Part {
            word: self.word,
            arguments: self.arguments(),
            none: self.none,
        }
    }

    /// The parts of an arrow atom or a molecule, each with its terms.
    fn each_part(&self) -> Vec<(Part, &[Term])> {
        if self.is_arrow() {
            return vec![(self.part(), &self.terms[1..])];
        }
        let mut rest = &self.terms[1..];
        let each = self.parts.iter().map(|part| {
            let (terms, behind) = rest.split_at(part.terms());
            rest = behind;
            (*part, terms)
        });
        each.collect()
    }

    /// The arrow atoms that it says: of a molecule its object with each part,
    /// of an arrow itself, of others none.
    pub fn atoms(&self) -> Vec<Atom> {
        let atom = |(part, terms): (Part, &[Term])| Atom {
            none: part.none,
            ..Atom::new(part.word, [&self.terms[..1], terms].concat())
        };
        self.each_part().into_iter().map(atom).collect()
    }

    /// Edits the arrow atom of a part of a molecule, counted from 0, or of an
    /// arrow the atom itself.
    pub fn edit_part(&mut self, place: usize, edit: impl FnOnce(&mut Atom)) {
        if self.is_arrow() {
            return edit(self);
        }
        let mut atoms = self.atoms();
        edit(&mut atoms[place]);
        *self = Atom::molecule(&atoms);
    }

    pub fn is_signature(&self) -> bool {
        matches!(self.word, "st" | "mt")
    }

    pub fn is_scalar(&self) -> bool {
        matches!(self.word, "sv" | "si")
    }

    /// Whether it is an arrow whose result is a term.
    pub fn has_result(&self) -> bool {
        self.is_arrow() && !self.none
    }

    /// Whether `none` may stand in place of its term result.
    pub fn can_be_none(&self) -> bool {
        self.has_result() && !self.is_scalar()
    }

    /// The number of an arrow's arguments.
    pub fn arguments(&self) -> usize {
        self.terms.len() - 2 - usize::from(!self.none)
    }

    /// The same atom with `none` in place of its term result; a molecule with
    /// all its parts so.
    pub fn emptied(&self) -> Atom {
        if self.is_molecule() {
            let atoms: Vec<Atom> = self.atoms().iter().map(Atom::emptied).collect();
            return Atom::molecule(&atoms);
        }
        let mut atom = self.clone();
        if atom.can_be_none() {
            atom.terms.pop();
            atom.none = true;
        }
        atom
    }

    pub fn occurrences(&self) -> usize {
        self.terms.iter().map(Term::size).sum()
    }

    pub fn map_terms(&self, image: impl FnMut(&Term) -> Term) -> Atom {
        Atom {
            word: self.word,
            terms: self.terms.iter().map(image).collect(),
            none: self.none,
            parts: self.parts.clone(),
        }
    }

    fn write(&self, out: &mut String) {
        write!(out, "({} ", self.word).unwrap();
        if self.is_arrow() {
            self.terms[0].write(out);
            out.push(' ');
            write_part(self.part(), &self.terms[1..], out);
        } else if self.is_molecule() {
            self.terms[0].write(out);
            for (part, terms) in self.each_part() {
                write!(out, " ({} ", part.word).unwrap();
                write_part(part, terms, out);
                out.push(')');
            }
        } else {
            write_row(&self.terms, out);
        }
        out.push(')');
    }
}

/// Writes a part from its method on.
fn write_part(part: Part, terms: &[Term], out: &mut String) {
    let (arguments, result) = terms[1..].split_at(part.arguments);
    terms[0].write(out);
    out.push_str(" (");
    write_row(arguments, out);
    out.push_str(") ");
    write_row(result, out);
    if part.none {
        out.push_str("none");
    }
}

/// Writes terms with a space between them.
fn write_row(terms: &[Term], out: &mut String) {
    for (place, term) in terms.iter().enumerate() {
        if place > 0 {
            out.push(' ');
        }
        term.write(out);
    }
}

#[derive(Clone, Debug, PartialEq, Eq)]
pub struct Literal {
    pub positive: bool,
    pub atom: Atom,
}

impl Literal {
    pub fn new(positive: bool, atom: Atom) -> Self {
        Literal { positive, atom }
    }
}

/// The literals of a clause in order.
pub type Clause = Vec<Literal>;

/// The terms of a clause in order.
pub fn clause_terms(clause: &[Literal]) -> impl Iterator<Item = &Term> {
    clause.iter().flat_map(|literal| &literal.atom.terms)
}

/// The variables of a clause.
pub fn clause_variables(clause: &[Literal]) -> BTreeSet<u32> {
    let mut found = BTreeSet::new();
    clause_terms(clause).for_each(|term| term.collect_variables(&mut found));
    found
}

fn write_clause(clause: &[Literal], out: &mut String) {
    out.push_str("(or");
    for literal in clause {
        out.push_str(if literal.positive { " (+ " } else { " (- " });
        literal.atom.write(out);
        out.push(')');
    }
    out.push(')');
}

#[derive(Clone, Debug)]
pub struct Step {
    pub rule: &'static str,
    /// A I B J K.
    pub numbers: [usize; 5],
    pub lists: [Vec<Term>; 2],
    pub claim: Clause,
}

impl Step {
    /// The numbers of the parents that it uses.
    pub fn parents(&self) -> Vec<usize> {
        let [a, _, b, _, _] = self.numbers;
        let parents = [(uses_first(self.rule), a), (uses_second(self.rule), b)];
        let used = parents.into_iter().filter(|&(used, _)| used);
        used.map(|(_, number)| number).collect()
    }

    fn write(&self, out: &mut String) {
        write!(out, "(by {}", self.rule).unwrap();
        for number in self.numbers {
            write!(out, " {number}").unwrap();
        }
        for list in &self.lists {
            out.push_str(if list.is_empty() { " (let" } else { " (let " });
            write_row(list, out);
            out.push(')');
        }
        out.push(' ');
        write_clause(&self.claim, out);
        out.push(')');
    }
}

#[derive(Clone, Debug)]
pub enum Line {
    Sym(usize),
    In(Clause),
    By(Step),
}

impl Line {
    pub fn write(&self, out: &mut String) {
        match self {
            Line::Sym(arity) => write!(out, "(sym {arity})").unwrap(),
            Line::In(clause) => {
                out.push_str("(in ");
                write_clause(clause, out);
                out.push(')');
            }
            Line::By(step) => step.write(out),
        }
        out.push('\n');
    }
}

/// The text of some lines.
pub fn write_lines(lines: &[Line]) -> Vec<u8> {
    let mut out = String::new();
    for line in lines {
        line.write(&mut out);
    }
    out.into_bytes()
}
