//! Valid derivations, built by really applying the rules.
//!
//! Inputs are made so that some chosen rules can be applied to them; then
//! rules are applied to whatever clauses are there: parents renamed apart,
//! unified, and the step written down with its two lists.

use std::collections::{BTreeMap, BTreeSet};

use super::model::{
    clause_terms, clause_variables, occurrence_in, occurrence_in_mut, uses_first, uses_second,
    Atom, Clause, Line, Literal, Step, Term, ARROWS, PAIRS, RULES,
};
use super::random::Random;
use super::unify::Unifier;
use crate::{MAX_DEPTH, MAX_LITERALS, MAX_PARTS, MAX_VARIABLE};

/// The variables of B are renamed by adding this.
const APART: u32 = MAX_VARIABLE as u32 + 1;
/// A random term has at most so many occurrences of terms besides itself.
const TERM_SIZE: usize = 120;
/// A random molecule that has so many gets no further part.
const MOLECULE_SIZE: usize = 120;
/// An input clause of more than one literal has at most so many.
const CLAUSE_SIZE: usize = 500;
/// Parents that have more once they are filled aren't tried.
const FILLED_SIZE: usize = 20_000;
/// So many of the last places of a literal are recent.
const RECENT: usize = 6;

/// A clause's number and a position in it.
type Place = (usize, usize);

/// A derivation with its written steps.
#[derive(Clone, Debug)]
pub struct Derivation {
    pub arities: Vec<usize>,
    pub inputs: Vec<Clause>,
    pub steps: Vec<Step>,
}

impl Derivation {
    /// The number of clauses.
    pub fn count(&self) -> usize {
        self.inputs.len() + self.steps.len()
    }

    /// The clause of a number below the count.
    pub fn clause(&self, number: usize) -> &Clause {
        match number.checked_sub(self.inputs.len()) {
            None => &self.inputs[number],
            Some(step) => &self.steps[step].claim,
        }
    }

    /// The number of the first empty clause.
    pub fn first_empty(&self) -> Option<usize> {
        (0..self.count()).find(|&number| self.clause(number).is_empty())
    }

    /// The inputs that a clause descends from, itself if it is one, rising.
    pub fn rests_on(&self, number: usize) -> Vec<usize> {
        let mut rests = self.ancestors().swap_remove(number);
        rests.retain(|&ancestor| ancestor < self.inputs.len());
        rests.into_iter().collect()
    }

    /// The last of the clauses that have the most ancestors.
    fn longest_descent(&self) -> usize {
        let ancestors = self.ancestors();
        let longest = (0..self.count()).max_by_key(|&number| ancestors[number].len());
        longest.unwrap_or(0)
    }

    /// For each clause itself and its ancestors: those of its parents together.
    fn ancestors(&self) -> Vec<BTreeSet<usize>> {
        let mut ancestors: Vec<BTreeSet<usize>> = Vec::new();
        for number in 0..self.count() {
            let mut own = BTreeSet::from([number]);
            if let Some(step) = number.checked_sub(self.inputs.len()) {
                for parent in self.steps[step].parents() {
                    own.extend(&ancestors[parent]);
                }
            }
            ancestors.push(own);
        }
        ancestors
    }

    /// Numbers the parents of the steps anew, after so many inputs were put
    /// behind the first `inputs`.
    fn move_steps(&mut self, inputs: usize, more: usize) {
        for step in &mut self.steps {
            if uses_first(step.rule) {
                step.numbers[0] = moved(step.numbers[0], inputs, more);
            }
            if uses_second(step.rule) {
                step.numbers[2] = moved(step.numbers[2], inputs, more);
            }
        }
    }

    /// The lines of its written form.
    pub fn lines(&self) -> Vec<Line> {
        let symbols = self.arities.iter().map(|&arity| Line::Sym(arity));
        let inputs = self.inputs.iter().cloned().map(Line::In);
        let steps = self.steps.iter().cloned().map(Line::By);
        symbols.chain(inputs).chain(steps).collect()
    }
}

/// How large and how wild a derivation is to be.
#[derive(Clone, Debug)]
pub struct Style {
    /// The depth of random terms.
    pub depth: usize,
    /// Variables of input clauses are below this.
    pub variables: usize,
    /// How often, in 100 cases, a subterm of an input becomes a variable.
    pub generality: usize,
    /// The most literals an input has besides those that serve a rule.
    pub extra_literals: usize,
    /// The most arguments of a method.
    pub arguments: usize,
    /// The most parts of a random molecule.
    pub parts: usize,
    /// Claims and lists that need more term occurrences aren't written.
    pub size: usize,
    /// How many steps to try for.
    pub steps: usize,
    /// Whether to end in the empty clause.
    pub refute: bool,
    /// How often, in 100 cases, a parent is one of the last clauses.
    pub recent: usize,
}

impl Style {
    /// A style for a text of the common, small kind.
    pub fn small(random: &mut Random) -> Style {
        let parts = *random.pick(&[2, 2, 3, 3, 4, 6, MAX_PARTS]);
        Style {
            depth: *random.pick(&[1, 1, 2, 2, 3, 4]),
            variables: *random.pick(&[2, 3, 4, 4, 6, 32]),
            generality: *random.pick(&[10, 30, 30, 50]),
            extra_literals: *random.pick(&[0, 1, 2, 3]),
            arguments: *random.pick(&[1, 2, 3, 8]),
            parts,
            size: if parts > 5 { 300 } else { 80 },
            steps: random.between(1, 8),
            refute: random.percent(45),
            recent: 0,
        }
    }

    /// A style for a refutation by many short steps, most of them used again.
    pub fn web(random: &mut Random) -> Style {
        Style {
            depth: 1,
            variables: 2,
            generality: *random.pick(&[0, 10]),
            extra_literals: 0,
            arguments: 1,
            parts: 2,
            size: 40,
            steps: random.between(8, 60),
            refute: true,
            recent: *random.pick(&[50, 80, 95]),
        }
    }

    /// A style for a large text.
    pub fn large(random: &mut Random) -> Style {
        Style {
            size: 400,
            depth: random.between(2, 6),
            steps: random.between(50, 300),
            ..Style::small(random)
        }
    }
}

/// Makes a valid derivation in which, as far as possible, the given rules are
/// used.
pub fn derive(random: &mut Random, style: Style, rules: &[&'static str]) -> Derivation {
    let mut builder = Builder::new(random, style);
    for rule in rules {
        builder.add_inputs_for(rule);
    }
    if builder.random.percent(4) {
        builder.derivation.inputs.push(Vec::new());
    }
    builder.random.shuffle(&mut builder.derivation.inputs);
    for rule in rules {
        builder.apply_somewhere(rule);
    }
    for _ in 0..builder.style.steps {
        let rule = if rules.is_empty() || builder.random.percent(30) {
            *builder.random.pick(&RULES)
        } else {
            *builder.random.pick(rules)
        };
        builder.apply_somewhere(rule);
    }
    if builder.style.refute {
        builder.refute();
    }
    builder.derivation
}

/// A random term over a table of symbols, at least one of which takes no
/// term; its variables are below `variables`.
pub fn random_term(random: &mut Random, arities: &[usize], depth: usize, variables: usize) -> Term {
    grow_term(random, arities, depth, variables, &mut TERM_SIZE.clone())
}

/// A random term with at most `left` occurrences besides itself, which are
/// taken off.
fn grow_term(
    random: &mut Random,
    arities: &[usize],
    depth: usize,
    variables: usize,
    left: &mut usize,
) -> Term {
    if variables > 0 && random.percent(30) {
        return Term::Var(random.below(variables) as u32);
    }
    let fits = |&symbol: &usize| {
        let arity = arities[symbol];
        arity == 0 || (depth > 1 && arity <= *left)
    };
    let symbols: Vec<usize> = (0..arities.len()).filter(fits).collect();
    let symbol = *random.pick(&symbols);
    *left -= arities[symbol];
    let parts = (0..arities[symbol])
        .map(|_| grow_term(random, arities, depth - 1, variables, left))
        .collect();
    Term::App(symbol as u32, parts)
}

/// An occurrence of a term in an atom; of a molecule often in its object.
fn some_occurrence(random: &mut Random, atom: &Atom) -> usize {
    if atom.is_molecule() && random.percent(25) {
        return random.below(atom.terms[0].size());
    }
    random.below(atom.occurrences())
}

struct Builder<'r> {
    random: &'r mut Random,
    style: Style,
    derivation: Derivation,
}

/// What makes ground literals more general, consistently within one clause.
struct Generaliser {
    /// The variables that aren't taken yet.
    free: Vec<u32>,
    /// The terms that variables stand for.
    taken: Vec<(Term, u32)>,
}

impl<'r> Builder<'r> {
    fn new(random: &'r mut Random, style: Style) -> Self {
        let mut arities = vec![0; random.between(1, 3)];
        for _ in 0..random.below(4) {
            arities.push(*random.pick(&[0, 1, 1, 2, 2, 3]));
        }
        if random.percent(5) {
            arities.push(8);
        }
        random.shuffle(&mut arities);
        Builder {
            random,
            style,
            derivation: Derivation {
                arities,
                inputs: Vec::new(),
                steps: Vec::new(),
            },
        }
    }

    // ----- random parts -----

    fn ground_term(&mut self) -> Term {
        if self.random.percent(3) && self.derivation.arities.contains(&1) {
            return self.deep_term();
        }
        let depth = self.random.between(1, self.style.depth);
        random_term(self.random, &self.derivation.arities, depth, 0)
    }

    /// A term about as deep as can be written, of one part at each level.
    fn deep_term(&mut self) -> Term {
        let arities = &self.derivation.arities;
        let unary = arities.iter().position(|&arity| arity == 1).unwrap_or(0);
        let mut term = random_term(self.random, arities, 1, 0);
        for _ in 1..self.random.between(8, MAX_DEPTH) {
            term = Term::App(unary as u32, vec![term]);
        }
        term
    }

    fn ground_terms(&mut self, count: usize) -> Vec<Term> {
        (0..count).map(|_| self.ground_term()).collect()
    }

    /// A ground arrow atom with a term result.
    fn ground_arrow(&mut self, word: &'static str, least_arguments: usize) -> Atom {
        let most = self.style.arguments.max(least_arguments);
        let count = self.random.between(least_arguments, most);
        Atom::new(word, self.ground_terms(count + 3))
    }

    fn ground_atom(&mut self) -> Atom {
        match self.random.below(12) {
            0 => Atom::new("obj", self.ground_terms(1)),
            1..=4 => {
                let word = *self.random.pick(&PAIRS);
                Atom::new(word, self.ground_terms(2))
            }
            5 | 6 => self.ground_molecule(2),
            _ => self.ground_part(),
        }
    }

    /// A ground arrow atom, perhaps with `none`.
    fn ground_part(&mut self) -> Atom {
        let word = *self.random.pick(&ARROWS);
        let atom = self.ground_arrow(word, 0);
        self.perhaps_emptied(&atom, 30)
    }

    /// A ground molecule with so many parts or more; an arrow atom where it has
    /// one.
    fn ground_molecule(&mut self, least: usize) -> Atom {
        let count = self.random.between(least, self.style.parts);
        let mut atoms = vec![self.ground_part()];
        let mut size = atoms[0].occurrences();
        while atoms.len() < count && (atoms.len() < least || size < MOLECULE_SIZE) {
            let atom = match self.random.percent(20) {
                true => self.random.pick(&atoms).clone(),
                false => self.ground_part(),
            };
            size += atom.occurrences();
            atoms.push(atom);
        }
        Atom::joined(&atoms)
    }

    /// An atom that fits into this one: of an arrow or a molecule some of its
    /// parts, in any order, and perhaps with `none`.
    fn fitting(&mut self, atom: &Atom) -> Atom {
        let atoms = atom.atoms();
        let count = match atoms.len() {
            0 => return atom.clone(),
            1 if self.random.percent(80) => 1,
            count => self.random.between(1, MAX_PARTS.min(count + 1)),
        };
        let mut fitting = Vec::new();
        for _ in 0..count {
            let atom = self.random.pick(&atoms);
            fitting.push(self.perhaps_emptied(atom, 40));
        }
        Atom::joined(&fitting)
    }

    /// An atom into which this one fits: with its parts, in any order, a term
    /// perhaps for `none`, and perhaps with others.
    fn fitted(&mut self, atom: &Atom) -> Atom {
        let mut atoms = atom.atoms();
        if atoms.is_empty() {
            return atom.clone();
        }
        for atom in &mut atoms {
            if atom.none && self.random.percent(60) {
                atom.none = false;
                atom.terms.push(self.ground_term());
            }
        }
        let more = if atom.is_molecule() { 40 } else { 10 };
        while atoms.len() < MAX_PARTS && self.random.percent(more) {
            let mut part = self.ground_part();
            part.terms[0] = atom.terms[0].clone();
            atoms.push(part);
        }
        self.random.shuffle(&mut atoms);
        Atom::joined(&atoms)
    }

    fn ground_literal(&mut self) -> Literal {
        let positive = self.random.percent(50);
        Literal::new(positive, self.ground_atom())
    }

    fn ground_sub(&mut self, lower: Term, upper: Term) -> Literal {
        Literal::new(true, Atom::new("sub", vec![lower, upper]))
    }

    /// The atom, or in so many of 100 cases the one with `none` in place of a
    /// term result if that can be.
    fn perhaps_emptied(&mut self, atom: &Atom, cases: usize) -> Atom {
        if self.random.percent(cases) {
            atom.emptied()
        } else {
            atom.clone()
        }
    }

    // ----- inputs -----

    /// Adds inputs to which the rule can be applied.
    fn add_inputs_for(&mut self, rule: &str) {
        match rule {
            "refl" => {}
            "res" => {
                let atom = self.ground_atom();
                let fitting = self.fitting(&atom);
                self.add_pair(Literal::new(false, fitting), Literal::new(true, atom));
            }
            "fac" => {
                let positive = self.random.percent(50);
                let atom = self.ground_atom();
                let fitting = self.fitting(&atom);
                self.add_clause(vec![
                    Literal::new(positive, fitting),
                    Literal::new(positive, atom),
                ]);
            }
            "par" => {
                let literal = self.ground_literal();
                let place = some_occurrence(self.random, &literal.atom);
                let from = occurrence_in(&literal.atom.terms, place).cloned();
                let from = from.unwrap_or_else(|| self.ground_term());
                let to = self.ground_term();
                let equality = Literal::new(true, Atom::new("eq", vec![from, to]));
                self.add_pair(literal, equality);
            }
            "acy" => {
                let (p, q) = (self.ground_term(), self.ground_term());
                let first = self.ground_sub(p.clone(), q.clone());
                let second = self.ground_sub(q, p);
                self.add_pair(first, second);
            }
            "tra" | "inc" => {
                let (p, q, r) = (self.ground_term(), self.ground_term(), self.ground_term());
                let word = if rule == "tra" { "sub" } else { "mem" };
                let first = Literal::new(true, Atom::new(word, vec![p, q.clone()]));
                let second = self.ground_sub(q, r);
                self.add_pair(first, second);
            }
            "inh" | "inp" | "out" => {
                let word = *self.random.pick(&["st", "mt"]);
                let mut atom = self.ground_arrow(word, usize::from(rule == "inp"));
                let place = match rule {
                    "inh" => 0,
                    "inp" => 2 + self.random.below(atom.arguments()),
                    _ => atom.terms.len() - 1,
                };
                let (old, other) = (atom.terms[place].clone(), self.ground_term());
                let link = match rule {
                    "out" => self.ground_sub(old, other),
                    _ => self.ground_sub(other, old),
                };
                if rule != "out" {
                    atom = self.perhaps_emptied(&atom, 30);
                }
                self.add_pair(Literal::new(true, atom), link);
            }
            "sca" => {
                let word = *self.random.pick(&["sv", "si"]);
                let one = self.ground_arrow(word, 0);
                let mut other = one.clone();
                other.terms.pop();
                other.terms.push(self.ground_term());
                self.add_pair(Literal::new(true, one), Literal::new(true, other));
            }
            "mer" => {
                let (one, mut other) = (self.ground_molecule(1), self.ground_molecule(1));
                other.terms[0] = one.terms[0].clone();
                self.add_pair(Literal::new(true, one), Literal::new(true, other));
            }
            "pro" => {
                let molecule = self.ground_molecule(2);
                self.add_clause(vec![Literal::new(true, molecule)]);
            }
            _ => {
                let object = Atom::new("obj", self.ground_terms(1));
                self.add_clause(vec![Literal::new(false, object)]);
            }
        }
    }

    /// Adds one clause with both literals, or one clause for each.
    fn add_pair(&mut self, first: Literal, second: Literal) {
        if self.random.percent(12) {
            self.add_clause(vec![first, second]);
        } else {
            self.add_clause(vec![first]);
            self.add_clause(vec![second]);
        }
    }

    /// Adds an input made more general from these ground literals and some
    /// random ones, as many as its size allows.
    fn add_clause(&mut self, mut literals: Clause) {
        for _ in 0..self.random.between(0, self.style.extra_literals) {
            literals.push(self.ground_literal());
        }
        while literals.len() > 1
            && clause_terms(&literals).map(Term::size).sum::<usize>() > CLAUSE_SIZE
        {
            literals.pop();
        }
        self.random.shuffle(&mut literals);
        let mut generaliser = self.generaliser();
        let clause = literals
            .iter()
            .map(|literal| self.generalise_literal(literal, &mut generaliser))
            .collect();
        self.derivation.inputs.push(clause);
    }

    fn generaliser(&mut self) -> Generaliser {
        let mut free: Vec<u32> = (0..self.style.variables as u32).collect();
        self.random.shuffle(&mut free);
        Generaliser {
            free,
            taken: Vec::new(),
        }
    }

    fn generalise_literal(&mut self, literal: &Literal, generaliser: &mut Generaliser) -> Literal {
        let image = |term: &Term| self.generalise(term, generaliser);
        Literal::new(literal.positive, literal.atom.map_terms(image))
    }

    /// Puts variables for some of the term's parts; equal variables always
    /// stand for equal parts. A variable always becomes a variable.
    fn generalise(&mut self, term: &Term, generaliser: &mut Generaliser) -> Term {
        let is_variable = matches!(term, Term::Var(_));
        if is_variable || self.random.percent(self.style.generality) {
            let known = generaliser.taken.iter().find(|(taken, _)| taken == term);
            if let Some(&(_, variable)) = known {
                if is_variable || self.random.percent(70) {
                    return Term::Var(variable);
                }
            }
            if let Some(variable) = generaliser.free.pop() {
                generaliser.taken.push((term.clone(), variable));
                return Term::Var(variable);
            }
        }
        match term {
            Term::Var(_) => term.clone(),
            Term::App(symbol, parts) => {
                let parts = (parts.iter())
                    .map(|part| self.generalise(part, generaliser))
                    .collect();
                Term::App(*symbol, parts)
            }
        }
    }

    // ----- steps -----

    /// Tries to apply the rule to some clauses; whether it could be.
    fn apply_somewhere(&mut self, rule: &'static str) -> bool {
        let firsts = self.places(|literal| fits_first(rule, literal));
        let seconds = self.places(|literal| fits_second(rule, literal));
        for _ in 0..12 {
            let Some(numbers) = self.pick_numbers(rule, &firsts, &seconds) else {
                return false;
            };
            if let Some(step) = self.apply(rule, numbers) {
                self.derivation.steps.push(step);
                return true;
            }
        }
        false
    }

    /// The clauses and positions of all literals that fit.
    fn places(&self, fits: impl Fn(&Literal) -> bool) -> Vec<Place> {
        let mut places = Vec::new();
        for number in 0..self.derivation.count() {
            let clause = self.derivation.clause(number).iter().enumerate();
            let fitting = clause.filter(|(_, literal)| fits(literal));
            places.extend(fitting.map(|(position, _)| (number, position)));
        }
        places
    }

    /// Numbers A I B J K for the rule, with literals at these places; none if
    /// there is no place where one is needed.
    fn pick_numbers(
        &mut self,
        rule: &str,
        firsts: &[Place],
        seconds: &[Place],
    ) -> Option<[usize; 5]> {
        let (mut a, mut i, mut b, mut j, mut k) = (0, 0, 0, 0, 0);
        if rule != "refl" {
            (a, i) = self.pick_place(firsts)?;
            let atom = &self.derivation.clause(a)[i].atom;
            k = match rule {
                "par" => some_occurrence(self.random, atom),
                "inp" => self.random.below(atom.arguments()),
                "pro" => self.random.below(atom.parts.len()),
                _ => 0,
            };
        }
        if uses_second(rule) {
            (b, j) = self.pick_place(seconds)?;
        } else if rule == "fac" {
            j = self.random.below(self.derivation.clause(a).len());
        }
        Some([a, i, b, j, k])
    }

    /// One of some places, which are in the order of their clauses.
    fn pick_place(&mut self, places: &[Place]) -> Option<Place> {
        let recent = self.style.recent > 0 && self.random.percent(self.style.recent);
        let first = match recent {
            true => places.len().saturating_sub(RECENT),
            false => 0,
        };
        let places = &places[first..];
        (!places.is_empty()).then(|| *self.random.pick(places))
    }

    /// The step by which the rule applies at these numbers, if it does. The
    /// literals are known to fit the rule's shape, but for fac's pair.
    fn apply(&mut self, rule: &'static str, numbers: [usize; 5]) -> Option<Step> {
        if rule == "refl" {
            return Some(self.reflexivity());
        }
        let [a, i, b, j, k] = numbers;
        let first = self.derivation.clause(a).clone();
        let second: Clause = if uses_second(rule) {
            (self.derivation.clause(b).iter())
                .map(|literal| map_literal(literal, |n| Term::Var(n + APART)))
                .collect()
        } else {
            Vec::new()
        };

        let mut unifier = Unifier::default();
        if !agree(&mut unifier, rule, &first, i, &second, j, k) {
            return None;
        }
        let names = self.instantiate(&mut unifier, &first, &second);
        let terms = || clause_terms(&first).chain(clause_terms(&second));
        if unifier.size(terms()) > FILLED_SIZE {
            return None;
        }
        let fill_term = |term: &Term| {
            let resolved = unifier.resolve(term);
            resolved.map_variables(&mut |variable| Term::Var(names[&variable]))
        };
        let fill =
            |literal: &Literal| Literal::new(literal.positive, literal.atom.map_terms(fill_term));

        let mut claim: Clause = new_literal(rule, &first, i, &second, j, k, &fill)
            .into_iter()
            .collect();
        let dropped = match rule {
            "fac" if first[i].positive => j,
            _ => i,
        };
        let others = |clause: &[Literal], dropped: usize| -> Clause {
            (clause.iter().enumerate())
                .filter(|&(place, _)| place != dropped)
                .map(|(_, literal)| fill(literal))
                .collect()
        };
        claim.extend(others(&first, dropped));
        claim.extend(others(&second, j));

        let lists = [
            self.list(&clause_variables(&first), 0, fill_term),
            self.list(&clause_variables(&second), APART, fill_term),
        ];
        let step = Step {
            rule,
            numbers,
            lists,
            claim,
        };
        self.is_writable(&step).then_some(step)
    }

    fn reflexivity(&mut self) -> Step {
        let depth = self.style.depth;
        let variables = self.style.variables;
        let term = random_term(self.random, &self.derivation.arities, depth, variables);
        Step {
            rule: "refl",
            numbers: [0; 5],
            claim: vec![self.ground_sub(term.clone(), term.clone())],
            lists: [vec![term], Vec::new()],
        }
    }

    /// Makes the unifier perhaps less general, so that the images of the
    /// parents' variables need no more variables than there are, and gives
    /// the names of those variables.
    fn instantiate(
        &mut self,
        unifier: &mut Unifier,
        first: &[Literal],
        second: &[Literal],
    ) -> BTreeMap<u32, u32> {
        let free =
            |unifier: &Unifier| unifier.variables(clause_terms(first).chain(clause_terms(second)));

        let chance = *self.random.pick(&[0, 0, 20, 60]);
        let before = free(unifier);
        let mut left = before.len();
        for &variable in &before {
            if left <= APART as usize && !self.random.percent(chance) {
                continue;
            }
            let others: Vec<u32> = before.iter().copied().filter(|&n| n > variable).collect();
            let image = if others.is_empty() || self.random.percent(60) {
                self.ground_term()
            } else {
                Term::Var(*self.random.pick(&others))
            };
            unifier.bind(variable, image);
            left -= 1;
        }

        let mut names: Vec<u32> = (0..APART).collect();
        if self.random.percent(15) {
            self.random.shuffle(&mut names);
        }
        free(unifier).into_iter().zip(names).collect()
    }

    /// The list for a clause with these variables, which were renamed by
    /// adding `shift`: the image of each, and any term for one that's missing.
    fn list(
        &mut self,
        variables: &BTreeSet<u32>,
        shift: u32,
        image: impl Fn(&Term) -> Term,
    ) -> Vec<Term> {
        let end = variables.last().map_or(shift, |highest| highest + 1);
        (shift..end)
            .map(|variable| {
                if variables.contains(&variable) {
                    image(&Term::Var(variable))
                } else {
                    let depth = self.style.depth.min(3);
                    random_term(self.random, &self.derivation.arities, depth, APART as usize)
                }
            })
            .collect()
    }

    /// Whether the step keeps the limits on what can be written.
    fn is_writable(&self, step: &Step) -> bool {
        let claimed = clause_terms(&step.claim);
        let listed = step.lists.iter().flatten();
        let mut size = 0;
        let fits = claimed.chain(listed).all(|term| {
            size += term.size();
            term.depth() <= MAX_DEPTH && size <= self.style.size
        });
        let mut claimed = step.claim.iter();
        let parts_fit = claimed.all(|literal| literal.atom.parts.len() <= MAX_PARTS);
        fits && parts_fit && step.claim.len() <= MAX_LITERALS
    }

    // ----- the end -----

    /// Tries to end the derivation in the empty clause: for each literal of
    /// some clause an input is added that resolves it away.
    fn refute(&mut self) {
        let count = self.derivation.count();
        if count == 0 {
            return;
        }
        let target = if self.style.recent > 0 {
            self.derivation.longest_descent()
        } else if self.random.percent(70) {
            count - 1
        } else {
            self.random.below(count)
        };
        let literals = self.derivation.clause(target).clone();
        let inputs = self.derivation.inputs.len();
        for literal in &literals {
            let unit = self.opposite(literal);
            self.derivation.inputs.push(vec![unit]);
        }
        self.derivation.move_steps(inputs, literals.len());
        let units = (inputs..).take(literals.len()).collect();
        self.resolve_away(moved(target, inputs, literals.len()), units);
    }

    /// Resolves the literals of a clause away, each by the unit at its place.
    fn resolve_away(&mut self, mut current: usize, mut units: Vec<usize>) {
        while !units.is_empty() {
            let place = self.random.below(units.len());
            let unit = units.remove(place);
            let literal = &self.derivation.clause(current)[place];
            let step = if !literal.positive && literal.atom.word == "obj" && self.random.percent(50)
            {
                self.apply("eli", [current, place, 0, 0, 0])
            } else if literal.positive {
                self.apply("res", [unit, 0, current, place, 0])
            } else {
                self.apply("res", [current, place, unit, 0, 0])
            };
            match step {
                Some(step) => self.derivation.steps.push(step),
                None => return,
            }
            current = self.derivation.count() - 1;
        }
    }

    /// A literal of the other sign that resolves the given one away: at least
    /// as general, with another atom where one fits into the other.
    fn opposite(&mut self, literal: &Literal) -> Literal {
        let atom = match literal.positive {
            true => self.fitting(&literal.atom),
            false => self.fitted(&literal.atom),
        };
        let mut generaliser = Generaliser {
            free: (0..APART).rev().collect(),
            taken: Vec::new(),
        };
        self.generalise_literal(&Literal::new(!literal.positive, atom), &mut generaliser)
    }
}

/// The number of a clause after `more` inputs were put behind the first `inputs`.
fn moved(number: usize, inputs: usize, more: usize) -> usize {
    match number < inputs {
        true => number,
        false => number + more,
    }
}

fn map_literal(literal: &Literal, mut image: impl FnMut(u32) -> Term) -> Literal {
    let terms = |term: &Term| term.map_variables(&mut image);
    Literal::new(literal.positive, literal.atom.map_terms(terms))
}

/// Whether a literal can stand at I.
pub fn fits_first(rule: &str, literal: &Literal) -> bool {
    let atom = &literal.atom;
    match rule {
        "refl" => false,
        "res" => !literal.positive,
        "fac" | "par" => true,
        "acy" | "tra" => literal.positive && atom.word == "sub",
        "inc" => literal.positive && atom.word == "mem",
        "inh" => literal.positive && atom.is_signature(),
        "inp" => literal.positive && atom.is_signature() && atom.arguments() > 0,
        "out" => literal.positive && atom.is_signature() && !atom.none,
        "sca" => literal.positive && atom.is_scalar(),
        "mer" => literal.positive && (atom.is_arrow() || atom.is_molecule()),
        "pro" => literal.positive && atom.is_molecule(),
        _ => !literal.positive && atom.word == "obj",
    }
}

/// Whether a literal of B can stand at J.
pub fn fits_second(rule: &str, literal: &Literal) -> bool {
    match rule {
        "mer" => fits_first(rule, literal),
        "res" => literal.positive,
        "par" => literal.positive && literal.atom.word == "eq",
        "sca" => literal.positive && literal.atom.is_scalar(),
        "refl" | "fac" | "eli" | "pro" => false,
        _ => literal.positive && literal.atom.word == "sub",
    }
}

/// Extends the substitution so that the agreement holds; for fac the pair I, J
/// must have its shape too. After a failure it is of no use.
fn agree(
    unifier: &mut Unifier,
    rule: &str,
    first: &[Literal],
    i: usize,
    second: &[Literal],
    j: usize,
    k: usize,
) -> bool {
    match rule {
        "eli" | "pro" => true,
        "res" => fit(unifier, &first[i].atom, &second[j].atom),
        "fac" if i == j || first[i].positive != first[j].positive => false,
        "fac" => fit(unifier, &first[i].atom, &first[j].atom),
        _ => {
            let pairs = equations(rule, &first[i].atom, &second[j].atom, k);
            pairs.is_some_and(|pairs| unify_all(unifier, &pairs))
        }
    }
}

fn unify_all(unifier: &mut Unifier, pairs: &[(&Term, &Term)]) -> bool {
    (pairs.iter()).all(|(left, right)| unifier.unify(left, right))
}

/// Extends the substitution so that an atom fits into another, each of its parts
/// into the first that can cover it.
fn fit(unifier: &mut Unifier, atom: &Atom, other: &Atom) -> bool {
    let (parts, others) = (atom.atoms(), other.atoms());
    if parts.is_empty() || others.is_empty() {
        return cover(unifier, other, atom);
    }
    parts.iter().all(|part| {
        others.iter().any(|other| {
            let mut extended = unifier.clone();
            let covers = cover(&mut extended, other, part);
            if covers {
                *unifier = extended;
            }
            covers
        })
    })
}

/// Extends the substitution so that one atom, which is no molecule, covers
/// another.
fn cover(unifier: &mut Unifier, atom: &Atom, covered: &Atom) -> bool {
    let pairs = covering(atom, covered);
    pairs.is_some_and(|pairs| unify_all(unifier, &pairs))
}

/// The pairs of terms that the agreement asks to be equal, for rules that ask
/// no more than that.
fn equations<'a>(
    rule: &str,
    left: &'a Atom,
    right: &'a Atom,
    k: usize,
) -> Option<Vec<(&'a Term, &'a Term)>> {
    let (x, y) = (&left.terms, &right.terms);
    Some(match rule {
        "par" => vec![(occurrence_in(x, k)?, &y[0])],
        "acy" => vec![(&x[0], &y[1]), (&x[1], &y[0])],
        "tra" | "inc" => vec![(&x[1], &y[0])],
        "inh" => vec![(&x[0], &y[1])],
        "inp" => vec![(&x[2 + k], &y[1])],
        "out" => vec![(x.last()?, &y[0])],
        "mer" => vec![(&x[0], &y[0])],
        // sca: all terms but the results.
        _ => {
            if left.word != right.word || x.len() != y.len() {
                return None;
            }
            x[..x.len() - 1].iter().zip(y).collect()
        }
    })
}

/// The pairs of terms that must be equal for one atom to cover another.
fn covering<'a>(atom: &'a Atom, covered: &'a Atom) -> Option<Vec<(&'a Term, &'a Term)>> {
    let emptied = covered.none && !atom.none;
    let terms = atom.terms.len() - usize::from(emptied);
    if atom.word != covered.word || (atom.none && !covered.none) || terms != covered.terms.len() {
        return None;
    }
    Some(atom.terms.iter().zip(&covered.terms).collect())
}

/// The new literal of the rule's claim, filled.
fn new_literal(
    rule: &str,
    first: &[Literal],
    i: usize,
    second: &[Literal],
    j: usize,
    k: usize,
    fill: &impl Fn(&Literal) -> Literal,
) -> Option<Literal> {
    if matches!(rule, "res" | "fac" | "eli") {
        return None;
    }
    let mut new = fill(&first[i]);
    if rule == "pro" {
        new.atom = new.atom.atoms().swap_remove(k);
        return Some(new);
    }
    if rule == "mer" {
        let parts = [new.atom.atoms(), fill(&second[j]).atom.atoms()];
        new.atom = Atom::molecule(&parts.concat());
        return Some(new);
    }
    let mut other = fill(&second[j]).atom.terms;
    let result = new.atom.terms.len() - 1;
    match rule {
        "acy" => new.atom.word = "eq",
        "tra" | "inc" => new.atom.terms[1] = other.swap_remove(1),
        "inh" => new.atom.terms[0] = other.swap_remove(0),
        "inp" => new.atom.terms[2 + k] = other.swap_remove(0),
        "out" => new.atom.terms[result] = other.swap_remove(1),
        "sca" => {
            let results = vec![new.atom.terms.pop()?, other.pop()?];
            new.atom = Atom::new("eq", results);
        }
        // par: filling keeps the outline of the literal, so the occurrence is
        // found again as the filled image of everything before it.
        _ => {
            let place = filled_occurrence(&first[i].atom.terms, &new.atom.terms, k)?;
            *occurrence_in_mut(&mut new.atom.terms, place)? = other.swap_remove(1);
        }
    }
    Some(new)
}

/// The number that occurrence `k` of some terms has once they are filled.
pub fn filled_occurrence(terms: &[Term], filled: &[Term], mut k: usize) -> Option<usize> {
    let mut place = 0;
    for (term, image) in terms.iter().zip(filled) {
        if k == 0 {
            return Some(place);
        }
        if k < term.size() {
            return match (term, image) {
                (Term::App(_, parts), Term::App(_, images)) => {
                    Some(place + 1 + filled_occurrence(parts, images, k - 1)?)
                }
                _ => None,
            };
        }
        k -= term.size();
        place += image.size();
    }
    None
}
