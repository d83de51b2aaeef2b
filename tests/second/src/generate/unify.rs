//! Unification of terms, with the occurs check.
//!
//! Terms that share parts through bindings may be exponentially large once
//! the bindings are put in, so no function but [`Unifier::resolve`] does so.

use std::collections::{BTreeMap, BTreeSet};

use super::model::Term;

/// After so many pairs of terms a unification is given up.
const MOST_PAIRS: usize = 10_000;

/// A substitution, kept as bindings that may refer to one another.
#[derive(Clone, Debug, Default)]
pub struct Unifier {
    bindings: BTreeMap<u32, Term>,
}

impl Unifier {
    /// Extends the substitution so that the two terms become equal. After a
    /// failure the substitution is of no use.
    pub fn unify(&mut self, left: &Term, right: &Term) -> bool {
        let mut pending = vec![(left.clone(), right.clone())];
        for _ in 0..MOST_PAIRS {
            let Some((left, right)) = pending.pop() else {
                return true;
            };
            match (self.walk(left), self.walk(right)) {
                (Term::Var(x), Term::Var(y)) if x == y => {}
                (Term::Var(x), term) | (term, Term::Var(x)) => {
                    if self.reached([&term]).contains(&x) {
                        return false;
                    }
                    self.bind(x, term);
                }
                (Term::App(f, left), Term::App(g, right)) => {
                    if f != g || left.len() != right.len() {
                        return false;
                    }
                    pending.extend(left.into_iter().zip(right));
                }
            }
        }
        pending.is_empty()
    }

    /// Binds a variable that has no binding yet and doesn't occur in the term.
    pub fn bind(&mut self, variable: u32, term: Term) {
        self.bindings.insert(variable, term);
    }

    /// The term with all bindings put in; [`Unifier::size`] tells beforehand
    /// how large it is.
    pub fn resolve(&self, term: &Term) -> Term {
        term.map_variables(&mut |variable| match self.bindings.get(&variable) {
            Some(bound) => self.resolve(bound),
            None => Term::Var(variable),
        })
    }

    /// The number of occurrences of terms in these once all bindings are put
    /// in, or `usize::MAX` where it is larger.
    pub fn size<'t>(&self, terms: impl IntoIterator<Item = &'t Term>) -> usize {
        let mut known = BTreeMap::new();
        let sizes = terms
            .into_iter()
            .map(|term| self.add_size(term, &mut known));
        sizes.fold(0, usize::saturating_add)
    }

    /// The variables of these terms once all bindings are put in.
    pub fn variables<'t>(&self, terms: impl IntoIterator<Item = &'t Term>) -> BTreeSet<u32> {
        let mut found = self.reached(terms);
        found.retain(|variable| !self.bindings.contains_key(variable));
        found
    }

    /// The size of one term; `known` has those of bound variables, each
    /// computed once.
    fn add_size(&self, term: &Term, known: &mut BTreeMap<u32, usize>) -> usize {
        match term {
            Term::Var(variable) => match (known.get(variable), self.bindings.get(variable)) {
                (Some(&size), _) => size,
                (None, None) => 1,
                (None, Some(bound)) => {
                    let size = self.add_size(bound, known);
                    known.insert(*variable, size);
                    size
                }
            },
            Term::App(_, parts) => {
                let sizes = parts.iter().map(|part| self.add_size(part, known));
                sizes.fold(1, usize::saturating_add)
            }
        }
    }

    /// All variables that come up on the way through the bindings.
    fn reached<'t>(&self, terms: impl IntoIterator<Item = &'t Term>) -> BTreeSet<u32> {
        let mut visited = BTreeSet::new();
        for term in terms {
            self.reach(term, &mut visited);
        }
        visited
    }

    /// Goes through a term and through the binding of each variable that
    /// hasn't been visited.
    fn reach(&self, term: &Term, visited: &mut BTreeSet<u32>) {
        match term {
            Term::Var(variable) => {
                if let (true, Some(bound)) =
                    (visited.insert(*variable), self.bindings.get(variable))
                {
                    self.reach(bound, visited);
                }
            }
            Term::App(_, parts) => parts.iter().for_each(|part| self.reach(part, visited)),
        }
    }

    /// Follows bindings until the term isn't a bound variable.
    fn walk(&self, mut term: Term) -> Term {
        while let Term::Var(variable) = term {
            match self.bindings.get(&variable) {
                Some(bound) => term = bound.clone(),
                None => break,
            }
        }
        term
    }
}
