//! Damage to valid texts, in their structure and in their bytes.

use super::derive::{filled_occurrence, random_term, Derivation};
use super::model::{
    clause_variables, used_numbers, uses_first, uses_second, write_lines, Atom, Clause, Line,
    Literal, Step, Term, ARROWS, MOLECULE, PAIRS, RULES,
};
use super::random::Random;
use crate::{MAX_ARGUMENTS, MAX_LIST_TERMS, MAX_LITERALS, MAX_PARTS, MAX_VARIABLE};

/// Damages the structure of a derivation's text, mostly in one step, where
/// it can of the given rule.
pub fn damage_structure(random: &mut Random, derivation: &Derivation, rule: &str) -> Vec<u8> {
    let whole = write_lines(&derivation.lines());
    let mut damager = Damager::new(random, derivation, rule);
    let mut times = *damager.random.pick(&[1, 1, 1, 1, 1, 1, 1, 1, 2, 3]);
    for _ in 0..20 {
        damager.damage();
        let text = write_lines(&damager.lines);
        if text != whole {
            times -= 1;
            if times == 0 {
                return text;
            }
        }
    }
    write_lines(&damager.lines)
}

struct Damager<'a> {
    random: &'a mut Random,
    arities: &'a [usize],
    lines: Vec<Line>,
    /// The index of the line to damage.
    target: usize,
}

impl<'a> Damager<'a> {
    fn new(random: &'a mut Random, derivation: &'a Derivation, rule: &str) -> Self {
        let lines = derivation.lines();
        let steps = |fits: &dyn Fn(&Step) -> bool| -> Vec<usize> {
            (0..lines.len())
                .filter(|&index| matches!(&lines[index], Line::By(step) if fits(step)))
                .collect()
        };
        // Where the parents are inputs they can be damaged as well.
        let inputs = derivation.inputs.len();
        let from_inputs = |step: &Step| step.numbers[0] < inputs && step.numbers[2] < inputs;
        let mut targets = Vec::new();
        if random.percent(70) {
            targets = steps(&|step| step.rule == rule && from_inputs(step));
        }
        if targets.is_empty() {
            targets = steps(&|step| step.rule == rule);
        }
        if targets.is_empty() {
            targets = steps(&|_| true);
        }
        let target = if targets.is_empty() {
            lines.len() - 1
        } else {
            *random.pick(&targets)
        };
        Damager {
            random,
            arities: &derivation.arities,
            lines,
            target,
        }
    }

    /// Does one kind of damage, perhaps in vain. Each kind is named for the
    /// check that it is most likely to fail.
    fn damage(&mut self) {
        match self.random.below(100) {
            0..=5 => self.spoil_order(),
            6..=8 => self.spoil_constants(),
            9..=14 => self.pass_limit(),
            15..=20 => self.spoil_symbol(),
            21..=27 => self.spoil_parent(),
            28..=36 => self.spoil_unused(),
            37..=53 => self.spoil_shape(),
            54..=73 => self.spoil_agreement(),
            74..=84 => self.provoke_mistake(),
            _ => self.spoil_claim(),
        }
    }

    // ----- parts of the text -----

    /// Edits the target if it is a step.
    fn edit_step(&mut self, edit: impl FnOnce(&mut Random, &[usize], &mut Step)) {
        if let Some(Line::By(step)) = self.lines.get_mut(self.target) {
            edit(self.random, self.arities, step);
        }
    }

    /// Where the literals are that the target names: the parent's number and
    /// the position of the one at I in A, or of the one at J.
    fn premise_place(&self, second: bool) -> Option<(usize, usize)> {
        let Some(Line::By(step)) = self.lines.get(self.target) else {
            return None;
        };
        let [a, i, b, j, _] = step.numbers;
        match step.rule {
            "refl" => None,
            "fac" if second => Some((a, j)),
            rule if second && uses_second(rule) => Some((b, j)),
            _ => Some((a, i)),
        }
    }

    /// Edits one of the literals that the target names.
    fn edit_premise(
        &mut self,
        second: bool,
        edit: impl FnOnce(&mut Random, &[usize], &mut Literal),
    ) {
        let Some((parent, position)) = self.premise_place(second) else {
            return;
        };
        let mut clauses = self.lines.iter_mut().filter_map(line_clause);
        let clause = clauses.nth(parent);
        if let Some(literal) = clause.and_then(|clause| clause.get_mut(position)) {
            edit(self.random, self.arities, literal);
        }
    }

    /// Whether the literal that [`Self::edit_premise`] would edit is one of an
    /// input, so that no earlier step claims it.
    fn premise_is_input(&self, second: bool) -> bool {
        let inputs = self.lines.iter().filter(|line| matches!(line, Line::In(_)));
        (self.premise_place(second)).is_some_and(|(parent, _)| parent < inputs.count())
    }

    /// The literal that [`Self::edit_premise`] would edit.
    fn premise(&mut self, second: bool) -> Option<Literal> {
        let mut found = None;
        self.edit_premise(second, |_, _, literal| found = Some(literal.clone()));
        found
    }

    /// Edits one occurrence of a term in the target, lists included.
    fn edit_term(&mut self, edit: impl FnOnce(&mut Random, &[usize], &mut Term)) {
        let Some(line) = self.lines.get_mut(self.target) else {
            return;
        };
        let mut terms: Vec<&mut Term> = match line {
            Line::Sym(_) => return,
            Line::In(clause) => terms_mut(clause).collect(),
            Line::By(step) => (step.lists.iter_mut().flatten())
                .chain(terms_mut(&mut step.claim))
                .collect(),
        };
        if terms.is_empty() {
            return;
        }
        let choice = self.random.below(terms.len());
        let term = &mut terms[choice];
        let place = self.random.below(term.size());
        if let Some(part) = term.occurrence_mut(place) {
            edit(self.random, self.arities, part);
        }
    }

    /// The number that the target's clause has.
    fn own_number(&mut self) -> usize {
        let before = self.lines.iter_mut().take(self.target);
        before.filter_map(line_clause).count()
    }

    /// The number of literals of a clause.
    fn clause_len(&mut self, number: usize) -> usize {
        let clause = self.lines.iter_mut().filter_map(line_clause).nth(number);
        clause.map_or(0, |clause| clause.len())
    }

    // ----- check 3 -----

    /// Moves, copies or adds a sym or in line to a place behind its own.
    fn spoil_order(&mut self) {
        let movable: Vec<usize> = (0..self.lines.len())
            .filter(|&index| !matches!(self.lines[index], Line::By(_)))
            .collect();
        if movable.is_empty() {
            return;
        }
        let from = *self.random.pick(&movable);
        let line = if self.random.percent(40) {
            self.lines.remove(from)
        } else {
            self.lines[from].clone()
        };
        let to = self
            .random
            .between(from.min(self.lines.len()), self.lines.len());
        self.lines.insert(to, line);
    }

    // ----- check 4 -----

    /// Leaves no symbol that takes no term.
    fn spoil_constants(&mut self) {
        match self.random.below(4) {
            0 => self.lines.retain(|line| !matches!(line, Line::Sym(_))),
            1 => self.lines.retain(|line| !matches!(line, Line::Sym(0))),
            2 => {
                // The text ends without one.
                self.lines.retain(|line| matches!(line, Line::Sym(1..)));
            }
            _ => {
                for line in &mut self.lines {
                    if let Line::Sym(arity @ 0) = line {
                        *arity = self.random.between(1, 8);
                    }
                }
            }
        }
    }

    // ----- check 5 -----

    fn pass_limit(&mut self) {
        match self.random.below(7) {
            0..=2 => self.edit_term(|random, _, term| {
                let highest = u32::from(MAX_VARIABLE);
                *term = Term::Var(*random.pick(&[highest + 1, highest + 2, 100, 65_535]));
            }),
            3 => self.edit_step(|random, arities, step| {
                let list = random.below(2);
                while step.lists[list].len() <= MAX_LIST_TERMS {
                    let term = random_term(random, arities, 1, 2);
                    step.lists[list].push(term);
                }
            }),
            4 => self.edit_step(|_, _, step| {
                if let Some(last) = step.claim.last().cloned() {
                    step.claim.resize(MAX_LITERALS + 1, last);
                }
            }),
            case => {
                let wide = match case {
                    5 => add_arguments,
                    _ => add_parts,
                };
                if self.random.percent(50) {
                    self.edit_premise(false, |random, _, literal| wide(random, &mut literal.atom));
                } else {
                    self.edit_step(|random, _, step| {
                        if let Some(literal) = step.claim.first_mut() {
                            wide(random, &mut literal.atom);
                        }
                    });
                }
            }
        }
    }

    // ----- check 6 -----

    fn spoil_symbol(&mut self) {
        match self.random.below(10) {
            0..=3 => self.edit_term(|random, arities, term| {
                let next = arities.len() as u32;
                let symbol = *random.pick(&[next, next + 1, 255, 256, 65_535]);
                match term {
                    Term::App(old, _) => *old = symbol,
                    Term::Var(_) => *term = Term::App(symbol, Vec::new()),
                }
            }),
            4..=7 => self.edit_term(|random, arities, term| match term {
                Term::App(_, parts) if !parts.is_empty() && random.percent(50) => {
                    parts.pop();
                }
                Term::App(_, parts) => parts.push(random_term(random, arities, 1, 2)),
                Term::Var(_) => {
                    let symbol = random.below(arities.len());
                    let parts = vec![term.clone(); arities[symbol] + 1];
                    *term = Term::App(symbol as u32, parts);
                }
            }),
            8 => {
                // One sym line less: later symbols shift, or one is missing.
                let symbol = self.random.below(self.arities.len());
                if matches!(self.lines.get(symbol), Some(Line::Sym(_))) {
                    self.lines.remove(symbol);
                }
            }
            _ => {
                let symbol = self.random.below(self.arities.len());
                let other = self.random.below(10);
                if let Some(Line::Sym(arity)) = self.lines.get_mut(symbol) {
                    *arity = other;
                }
            }
        }
    }

    // ----- check 7 -----

    fn spoil_parent(&mut self) {
        let own = self.own_number();
        self.edit_step(|random, _, step| {
            let mut parents = Vec::new();
            if uses_first(step.rule) {
                parents.push(0);
            }
            if uses_second(step.rule) {
                parents.push(2);
            }
            if !parents.is_empty() {
                let number = *random.pick(&[own, own, own + 1, own + 2, 65_535]);
                step.numbers[*random.pick(&parents)] = number;
            }
        });
    }

    // ----- check 8 -----

    fn spoil_unused(&mut self) {
        self.edit_step(|random, arities, step| {
            let used = used_numbers(step.rule);
            let unused: Vec<usize> = (0..5).filter(|&place| !used[place]).collect();
            let list = random.below(2);
            match random.below(4) {
                0..=1 if !unused.is_empty() => {
                    let number = *random.pick(&[1, 1, 2, 7, 65_535]);
                    step.numbers[*random.pick(&unused)] = number;
                }
                2 if !step.lists[list].is_empty() => {
                    step.lists[list].pop();
                }
                3 if !step.lists[list].is_empty() => {
                    let term = step.lists[list].remove(0);
                    step.lists[1 - list].push(term);
                }
                _ => step.lists[list].push(random_term(random, arities, 2, 3)),
            }
        });
    }

    // ----- check 9 -----

    fn spoil_shape(&mut self) {
        let Some(Line::By(step)) = self.lines.get(self.target) else {
            return;
        };
        let rule = step.rule;
        let [a, i, b, _, _] = step.numbers;
        let own = self.own_number();
        let first_len = self.clause_len(a);
        let second_len = match rule {
            "fac" => first_len,
            _ => self.clause_len(b),
        };
        let occurrences = self.premise(false).map(|literal| literal.atom);
        match self.random.below(10) {
            0 => {
                // A position behind the last, or another.
                let position = self.random.below(first_len + 2);
                self.edit_step(|_, _, step| step.numbers[1] = position);
            }
            1 => {
                let position = self.random.below(second_len + 2);
                self.edit_step(|_, _, step| step.numbers[3] = position);
            }
            2 if rule == "fac" => self.edit_step(|_, _, step| step.numbers[3] = i),
            2 | 3 if matches!(rule, "par" | "inp" | "pro") => {
                let end = match (rule, occurrences) {
                    ("par", Some(atom)) => atom.occurrences(),
                    ("inp", Some(atom)) if atom.is_arrow() => atom.arguments(),
                    ("pro", Some(atom)) => atom.parts.len(),
                    _ => 0,
                };
                let number = end + *self.random.pick(&[0, 0, 1, 2]);
                self.edit_step(|_, _, step| step.numbers[4] = number);
            }
            2..=4 => {
                // The literal keeps its variables, so the lists still fit.
                let second = self.random.percent(50);
                self.edit_premise(second, |random, _, literal| match random.below(3) {
                    0 => literal.positive = !literal.positive,
                    1 => {
                        let word = random_word(random);
                        reword(random, &mut literal.atom, word);
                    }
                    // Either result will do, but not a value.
                    _ if matches!(rule, "inh" | "inp") && literal.atom.is_signature() => {
                        let word = *random.pick(&["mv", "mi"]);
                        reword(random, &mut literal.atom, word);
                    }
                    _ => toggle_none(random, &mut literal.atom),
                });
            }
            5 => self.edit_step(|random, _, step| {
                step.rule = *random.pick(&RULES);
            }),
            6 => {
                let other = self.random.below(own);
                let place = *self.random.pick(&[0, 2]);
                self.edit_step(|_, _, step| step.numbers[place] = other);
            }
            7 => self.edit_step(|_, _, step| {
                // The parents change places, with all that belongs to them.
                step.numbers.swap(0, 2);
                step.numbers.swap(1, 3);
                step.lists.swap(0, 1);
            }),
            _ => self.edit_step(|random, _, step| {
                let place = random.below(5);
                let number = *random.pick(&[0, 1, 2, 3, 31, 32, 33, 255, 65_535]);
                step.numbers[place] = number;
            }),
        }
    }

    // ----- check 10 -----

    fn spoil_agreement(&mut self) {
        let second = self.random.percent(60);
        let literal = self.premise(false);
        let merges =
            matches!(self.lines.get(self.target), Some(Line::By(step)) if step.rule == "mer");
        match self.random.below(14) {
            0 => self.edit_step(|random, _, step| {
                let list = &mut step.lists[random.below(2)];
                random.shuffle(list);
            }),
            1 => self.edit_step(|random, _, step| {
                if random.percent(50) {
                    // One list filling both parents.
                    step.lists[1] = step.lists[0].clone();
                } else {
                    step.lists.swap(0, 1);
                }
            }),
            2 | 3 => self.edit_step(|random, _, step| match step.rule {
                "fac" => step.numbers.swap(1, 3),
                "par" | "inp" | "pro" => {
                    let end = literal.map_or(0, |literal| match step.rule {
                        "inp" if literal.atom.is_arrow() => literal.atom.arguments(),
                        "pro" => literal.atom.parts.len(),
                        _ => literal.atom.occurrences(),
                    });
                    step.numbers[4] = random.below(end);
                }
                _ => step.numbers.swap(0, 2),
            }),
            4 | 5 => self.edit_step(|_, _, step| {
                if let (Some(literal), "par") = (literal, step.rule) {
                    count_after_filling(step, &literal);
                }
            }),
            // A sub link turned round, in the parent.
            6 | 7 if self.premise_is_input(second) => {
                self.edit_premise(second, |_, _, literal| literal.atom.terms.reverse());
            }
            8..=10 if self.premise_is_input(second) => {
                self.edit_premise(second, |random, arities, literal| match merges {
                    true => distort_term(random, arities, &mut literal.atom.terms[0]),
                    false => distort_atom(random, arities, &mut literal.atom),
                });
            }
            _ => self.spoil_entry(second),
        }
    }

    /// Changes the list entry for a variable of a literal that is named.
    fn spoil_entry(&mut self, second: bool) {
        let premise = self.premise(second);
        let variables: Vec<u32> = clause_variables(premise.as_slice()).into_iter().collect();
        self.edit_step(|random, arities, step| {
            let list = &mut step.lists[usize::from(second && uses_second(step.rule))];
            if variables.is_empty() {
                return;
            }
            let variable = *random.pick(&variables) as usize;
            if let Some(entry) = list.get_mut(variable) {
                distort_term(random, arities, entry);
            }
        });
    }

    // ----- check 10 or 11, by a mistake that checkers are known to make -----

    /// Changes the step so that it stays right for a checker that makes one
    /// of the mistakes met in the trade.
    fn provoke_mistake(&mut self) {
        let Some(Line::By(step)) = self.lines.get(self.target) else {
            return;
        };
        let rule = step.rule;
        let literals = [self.premise(false), self.premise(true)];
        let second = self.random.percent(50);
        match (rule, self.random.below(6)) {
            ("refl", _) => self.spoil_claim(),
            ("eli", _) => self.edit_premise(false, |_, _, literal| literal.positive ^= true),
            ("fac", 0) => self.edit_step(|_, _, step| drop_the_other(step, literals)),
            ("res", 0) => self.edit_premise(second, |_, _, literal| literal.positive ^= true),
            ("res" | "fac", 1) => {
                // The covering turned round.
                self.edit_premise(true, |_, _, literal| literal.atom = literal.atom.emptied());
                self.edit_premise(false, |random, _, literal| {
                    for part in 0..literal.atom.atoms().len() {
                        literal.atom.edit_part(part, |atom| {
                            if atom.none {
                                toggle_none(random, atom);
                            }
                        });
                    }
                });
            }
            ("res" | "fac" | "sca", 2) => self.edit_premise(second, |random, _, literal| {
                change_argument_count(random, &mut literal.atom);
            }),
            ("res" | "fac" | "sca", 3) => self.edit_premise(second, |random, _, literal| {
                to_nearest_word(random, &mut literal.atom);
            }),
            // The objects aren't compared.
            ("res" | "fac", 4) | ("mer", 0..=2) => {
                self.edit_premise(second, |random, arities, literal| {
                    distort_term(random, arities, &mut literal.atom.terms[0]);
                })
            }
            // Some parts of the first are covered, but not each.
            ("res" | "fac", _) => {
                if self.random.percent(50) {
                    self.edit_premise(false, |random, arities, literal| {
                        add_part(random, arities, &mut literal.atom);
                    });
                } else {
                    self.edit_premise(true, |random, _, literal| {
                        drop_part(random, &mut literal.atom);
                    });
                }
            }
            // B's parts before A's, or parts elsewhere.
            ("mer", _) => self.edit_step(|random, _, step| {
                let [Some(first), _] = &literals else {
                    return;
                };
                let count = first.atom.atoms().len();
                if let Some(new) = step.claim.first_mut() {
                    move_parts(random, &mut new.atom, count);
                }
            }),
            // Another part.
            ("pro", 0..=3) => self.edit_step(|random, _, step| {
                let next = step.numbers[4] + 1;
                step.numbers[4] = *random.pick(&[next, next.saturating_sub(2)]);
            }),
            // The part itself at I.
            ("pro", _) => {
                self.edit_premise(false, |random, _, literal| {
                    reword(random, &mut literal.atom, "mv");
                });
                self.edit_step(|_, _, step| step.numbers[4] = 0);
            }
            ("par", 0..=2) => self.edit_step(|_, _, step| {
                if let [Some(literal), _] = &literals {
                    count_after_filling(step, literal);
                }
            }),
            // A term dropped for none, or none for a term.
            ("inh" | "inp", 0 | 1) => self.edit_step(|random, _, step| {
                if let Some(new) = step.claim.first_mut() {
                    toggle_none(random, &mut new.atom);
                }
            }),
            // none widened, and kept.
            ("out", 0 | 1) => {
                let empty = |literal: &mut Literal| literal.atom = literal.atom.emptied();
                self.edit_premise(false, |_, _, literal| empty(literal));
                self.edit_step(|_, _, step| step.claim.first_mut().into_iter().for_each(empty));
            }
            // An equality or a sub link turned round.
            _ => self.edit_premise(true, |_, _, literal| literal.atom.terms.reverse()),
        }
    }

    // ----- check 11 -----

    fn spoil_claim(&mut self) {
        let literals = [self.premise(false), self.premise(true)];
        self.edit_step(|random, arities, step| {
            if step.rule == "fac" && random.percent(30) {
                return drop_the_other(step, literals);
            }
            let len = step.claim.len();
            let place = random.below(len);
            let other = random.below(len);
            match random.below(12) {
                _ if len == 0 => {
                    let atom = Atom::new("obj", vec![random_term(random, arities, 1, 0)]);
                    step.claim.push(Literal::new(random.percent(50), atom));
                }
                0 | 1 => {
                    step.claim.remove(place);
                }
                2 => {
                    let literal = step.claim[place].clone();
                    step.claim.insert(other, literal);
                }
                3 => step.claim.swap(place, other),
                4 => step.claim[place].positive ^= true,
                5 => {
                    let atom = &mut step.claim[place].atom;
                    if !atom.is_arrow() {
                        atom.terms.reverse();
                    }
                }
                6 => {
                    let [first, second] = literals;
                    step.claim.extend(first.or(second));
                }
                7 => step.claim.rotate_left(1),
                _ => distort_atom(random, arities, &mut step.claim[place].atom),
            }
        });
    }
}

fn line_clause(line: &mut Line) -> Option<&mut Clause> {
    match line {
        Line::Sym(_) => None,
        Line::In(clause) => Some(clause),
        Line::By(step) => Some(&mut step.claim),
    }
}

fn terms_mut(clause: &mut Clause) -> impl Iterator<Item = &mut Term> {
    (clause.iter_mut()).flat_map(|literal| literal.atom.terms.iter_mut())
}

fn fill(term: &Term, list: &[Term]) -> Term {
    term.map_variables(&mut |variable| match list.get(variable as usize) {
        Some(image) => image.clone(),
        None => Term::Var(variable),
    })
}

/// Gives par the number that its occurrence has in the filled literal.
fn count_after_filling(step: &mut Step, literal: &Literal) {
    let terms = &literal.atom.terms;
    let filled: Vec<Term> = (terms.iter())
        .map(|term| fill(term, &step.lists[0]))
        .collect();
    if let Some(place) = filled_occurrence(terms, &filled, step.numbers[4]) {
        step.numbers[4] = place;
    }
}

/// Makes the claim of a fac step the one with the wrong literal dropped.
fn drop_the_other(step: &mut Step, [first, second]: [Option<Literal>; 2]) {
    let [_, i, _, j, _] = step.numbers;
    let (Some(first), Some(second)) = (first, second) else {
        return;
    };
    let filled = |literal: &Literal| {
        let image = |term: &Term| fill(term, &step.lists[0]);
        Literal::new(literal.positive, literal.atom.map_terms(image))
    };
    // The place of the literal that stays, once the other is gone.
    let after = |stays: usize, goes: usize| stays - usize::from(goes < stays);
    let (stays, goes, back) = if first.positive {
        (i, j, filled(&second))
    } else {
        (j, i, filled(&first))
    };
    let place = after(stays, goes);
    if place < step.claim.len() {
        step.claim.remove(place);
        let place = after(goes, stays).min(step.claim.len());
        step.claim.insert(place, back);
    }
}

fn random_word(random: &mut Random) -> &'static str {
    let words: &[&'static str] = match random.below(12) {
        0 => &["obj"],
        1..=4 => &PAIRS,
        5 | 6 => &[MOLECULE],
        _ => &ARROWS,
    };
    words[random.below(words.len())]
}

/// Gives the atom another word, with as few changes to its terms as can be. Of a
/// molecule a part stays, and of a part two make one.
fn reword(random: &mut Random, atom: &mut Atom, word: &'static str) {
    match (atom.is_molecule(), word == MOLECULE) {
        (true, true) => return,
        (true, false) => *atom = some_part(random, atom),
        (false, true) => {
            if !atom.is_arrow() {
                reword(random, atom, "mv");
            }
            *atom = Atom::molecule(&[atom.clone(), atom.clone()]);
            return;
        }
        (false, false) => {}
    }
    let padding = atom.terms[0].clone();
    let arrow = ARROWS.contains(&word);
    if word == "obj" {
        atom.terms.truncate(1);
    } else if !arrow {
        atom.terms.resize(2, padding);
    } else if !atom.is_arrow() {
        atom.terms.resize(3, padding);
    } else if atom.none && matches!(word, "sv" | "si") && random.percent(90) {
        // Otherwise it becomes a scalar with none, which isn't a form.
        atom.terms.push(padding);
        atom.none = false;
    }
    atom.none &= arrow;
    atom.word = word;
}

/// The arrow atom of some part of a molecule.
fn some_part(random: &mut Random, atom: &Atom) -> Atom {
    random.pick(&atom.atoms()).clone()
}

/// Edits an arrow atom, or that of some part of a molecule.
fn edit_some_part(random: &mut Random, atom: &mut Atom, edit: impl FnOnce(&mut Random, &mut Atom)) {
    let parts = atom.atoms().len();
    if parts > 0 {
        let place = random.below(parts);
        atom.edit_part(place, |part| edit(random, part));
    }
}

/// Makes more arguments than there may be.
fn add_arguments(random: &mut Random, atom: &mut Atom) {
    if !atom.is_molecule() && !atom.is_arrow() {
        reword(random, atom, "mv");
    }
    edit_some_part(random, atom, |_, part| {
        let term = part.terms[0].clone();
        while part.arguments() <= MAX_ARGUMENTS.into() {
            part.terms.insert(2, term.clone());
        }
    });
}

/// Makes more parts than there may be.
fn add_parts(random: &mut Random, atom: &mut Atom) {
    if !atom.is_molecule() && !atom.is_arrow() {
        reword(random, atom, "mv");
    }
    let mut atoms = atom.atoms();
    while atoms.len() <= MAX_PARTS {
        let part = random.pick(&atoms).clone();
        atoms.push(part);
    }
    *atom = Atom::molecule(&atoms);
}

/// Gives an arrow atom or a molecule one part more.
fn add_part(random: &mut Random, arities: &[usize], atom: &mut Atom) {
    let mut atoms = atom.atoms();
    if !atoms.is_empty() {
        let mut part = some_part(random, atom);
        let place = random.between(1, part.terms.len() - 1);
        distort_term(random, arities, &mut part.terms[place]);
        atoms.insert(random.below(atoms.len() + 1), part);
        *atom = Atom::molecule(&atoms);
    }
}

/// Takes a part of a molecule away; what is left of two is mostly an arrow
/// atom.
fn drop_part(random: &mut Random, atom: &mut Atom) {
    let mut atoms = atom.atoms();
    if atom.is_molecule() && atoms.len() > 1 {
        atoms.remove(random.below(atoms.len()));
        // A molecule of one part isn't a form.
        *atom = match random.percent(90) {
            true => Atom::joined(&atoms),
            false => Atom::molecule(&atoms),
        };
    }
}

/// Moves so many parts of a molecule to its end, or some others.
fn move_parts(random: &mut Random, atom: &mut Atom, count: usize) {
    let mut atoms = atom.atoms();
    if !atom.is_molecule() {
        return;
    }
    let place = random.below(atoms.len());
    match random.below(4) {
        0 | 1 => {
            let count = count.min(atoms.len());
            atoms.rotate_left(count);
        }
        2 => atoms.swap(0, place),
        _ => atoms[place..].reverse(),
    }
    *atom = Atom::molecule(&atoms);
}

/// Puts `none` for a term result, or a term for `none`.
fn toggle_none(random: &mut Random, atom: &mut Atom) {
    if atom.is_molecule() {
        return edit_some_part(random, atom, toggle_none);
    }
    if atom.none {
        let term = random.pick(&atom.terms).clone();
        atom.terms.push(term);
        atom.none = false;
    } else if atom.is_arrow() && (!atom.is_scalar() || random.percent(15)) {
        atom.terms.pop();
        atom.none = true;
    }
}

/// Gives the atom the nearest other word of its kind.
fn to_nearest_word(random: &mut Random, atom: &mut Atom) {
    if atom.is_molecule() {
        return edit_some_part(random, atom, to_nearest_word);
    }
    let word = match atom.word {
        "sv" => "si",
        "si" => "sv",
        "mv" => "mi",
        "mi" => "mv",
        "st" => "mt",
        "mt" => "st",
        "eq" => "sub",
        "sub" => "mem",
        "mem" => "sub",
        _ => "obj",
    };
    reword(random, atom, word);
}

/// Gives an arrow one argument more or less at the end, so that the arguments
/// are alike up to the shorter list.
fn change_argument_count(random: &mut Random, atom: &mut Atom) {
    if !atom.is_arrow() {
        return edit_some_part(random, atom, change_argument_count);
    }
    let end = 2 + atom.arguments();
    if atom.arguments() > 0 && random.percent(50) {
        atom.terms.remove(end - 1);
    } else {
        let term = random.pick(&atom.terms).clone();
        atom.terms.insert(end, term);
    }
}

/// Changes an atom somewhere.
fn distort_atom(random: &mut Random, arities: &[usize], atom: &mut Atom) {
    if atom.is_molecule() && random.percent(40) {
        return match random.below(3) {
            0 => add_part(random, arities, atom),
            1 => drop_part(random, atom),
            _ => move_parts(random, atom, 1),
        };
    }
    let place = random.below(atom.terms.len());
    match random.below(8) {
        0 => to_nearest_word(random, atom),
        1 => {
            let word = random_word(random);
            reword(random, atom, word);
        }
        2 => toggle_none(random, atom),
        3 | 4 if atom.is_arrow() || atom.is_molecule() => change_argument_count(random, atom),
        5 => {
            let other = random.below(atom.terms.len());
            atom.terms.swap(place, other);
        }
        _ => distort_term(random, arities, &mut atom.terms[place]),
    }
}

/// Changes one part of a term.
fn distort_term(random: &mut Random, arities: &[usize], term: &mut Term) {
    let place = random.below(term.size());
    let inner = term.occurrence(random.below(term.size())).cloned();
    let Some(part) = term.occurrence_mut(place) else {
        return;
    };
    match (random.below(4), part) {
        (0, Term::Var(number)) => *number = (*number + 1) % (u32::from(MAX_VARIABLE) + 1),
        (1, part) => *part = inner.unwrap_or(Term::Var(0)),
        (2, Term::App(_, parts)) if parts.len() > 1 => parts.rotate_left(1),
        (_, part) => *part = random_term(random, arities, 2, 4),
    }
}

/// Damages the bytes of a text.
pub fn damage_bytes(random: &mut Random, text: &mut Vec<u8>) {
    for _ in 0..*random.pick(&[1, 1, 1, 2, 3]) {
        let place = random.below(text.len());
        let end = (place + random.between(1, 12)).min(text.len());
        match random.below(16) {
            _ if text.is_empty() => text.push(b'\n'),
            0 => text[place] ^= 1 << random.below(8),
            1 => text[place] = random.next_u64() as u8,
            2 => text[place] = *random.pick(b"()+- 0123456789fvabeghilmnoprstuy\n"),
            3 => text.insert(place, *random.pick(b"()+- 0123456789fvnone\n\r\t")),
            4 => {
                text.remove(place);
            }
            5 => {
                text.drain(place..end);
            }
            6 => {
                let copy = text[place..end].to_vec();
                text.splice(place..place, copy);
            }
            7 => text.truncate(place),
            8 => {
                text.pop();
            }
            9 => change_lines(random, text),
            10 => {
                let tails: &[&[u8]] = &[b"\n", b" ", b"(in (or))", b"x\n", b"(sym 0)\n", b"\0"];
                text.extend_from_slice(tails[random.below(tails.len())]);
            }
            _ => change_digit(random, text, place),
        }
    }
}

/// Changes the first digit behind a place.
fn change_digit(random: &mut Random, text: &mut Vec<u8>, from: usize) {
    let digit = text[from..].iter().position(u8::is_ascii_digit);
    let Some(place) = digit.map(|offset| from + offset) else {
        return;
    };
    match random.below(10) {
        0 => text.insert(place, b'0'),
        1 => text.insert(place, b'1'),
        2 => {
            let number = *random.pick(&[b"65535", b"65536", b"99999", b"00000"]);
            text.splice(place..=place, number.iter().copied());
        }
        _ => text[place] = b'0' + random.below(10) as u8,
    }
}

/// Drops, copies or moves a line.
fn change_lines(random: &mut Random, text: &mut Vec<u8>) {
    let mut lines: Vec<Vec<u8>> = text
        .split_inclusive(|&byte| byte == b'\n')
        .map(<[u8]>::to_vec)
        .collect();
    let (one, other) = (random.below(lines.len()), random.below(lines.len()));
    match random.below(3) {
        0 => lines.swap(one, other),
        1 => {
            let line = lines[one].clone();
            lines.insert(other, line);
        }
        _ => {
            lines.remove(one);
        }
    }
    *text = lines.concat();
}
