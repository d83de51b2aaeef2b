//! What is held from line to line, and checks 2 to 6.

use crate::descent::{rests_on, Parents};
use crate::parser::parse_line;
use crate::rules::{check_step, used_parents};
use crate::syntax::{Clause, Line, Literal, Node, Step};
use crate::{
    Answer, Check, Verdict, MAX_ARGUMENTS, MAX_ARITY, MAX_LIST_TERMS, MAX_LITERALS, MAX_PARTS,
    MAX_SYMBOLS, MAX_VARIABLE,
};

/// T19: "After each line the reading holds the argument counts of up to 256
/// symbols, and the place of every clause." Here the clauses themselves are
/// held, so that no line is read twice.
#[derive(Default)]
pub(crate) struct Reading {
    /// The number of terms that each declared symbol takes.
    arities: Vec<u16>,
    /// The clauses of all in and by lines so far, by number.
    clauses: Vec<Clause>,
    /// The used parents of all by lines so far, in order.
    parents: Vec<Parents>,
    /// The number of the first empty clause.
    first_empty: Option<usize>,
}

impl Reading {
    /// Runs checks 2 to 11 on the next line, given with its line end, and
    /// takes the line in if it passes them all. V3: "number the first check that
    /// it fails". So they are made in the order of their numbers, each over the
    /// whole line.
    pub(crate) fn read_line(&mut self, line: &[u8]) -> Result<(), Check> {
        // T2: "Bytes after the last line end are one more line, and that line
        // isn't a form."
        let form = line.strip_suffix(b"\n").and_then(parse_line);
        match form.ok_or(Check::Form)? {
            Line::Symbol(arity) => self.declare_symbol(arity),
            Line::Input(clause) => self.take_input(clause),
            Line::Step(step) => self.take_step(step),
        }
    }

    /// The answer after all lines have passed.
    pub(crate) fn answer(&self) -> Answer {
        let count = self.clauses.len();
        if self.require_constant().is_err() {
            return Check::Constant.refuse(0);
        }
        match self.first_empty {
            Some(first) => Answer {
                verdict: Verdict::Refuted { count, first },
                rests: rests_on(first, count - self.parents.len(), &self.parents),
            },
            None => Verdict::Open { count }.into(),
        }
    }

    /// T7: "`(sym K)` declares the next symbol of the symbol table, counted from
    /// 0. It takes K terms."
    fn declare_symbol(&mut self, arity: u16) -> Result<(), Check> {
        Check::Order.require(self.clauses.is_empty())?;
        Check::Limit.require(self.arities.len() < MAX_SYMBOLS && arity <= MAX_ARITY)?;
        self.arities.push(arity);
        Ok(())
    }

    /// T8: "`(in CLAUSE)` is an input clause."
    fn take_input(&mut self, clause: Clause) -> Result<(), Check> {
        Check::Order.require(self.parents.is_empty())?;
        self.require_constant()?;
        Check::Limit.require(clause_within_limits(&clause))?;
        Check::Symbol.require(self.symbols_fit(clause.nodes()))?;
        self.add_clause(clause);
        Ok(())
    }

    /// A by line (T9).
    fn take_step(&mut self, step: Step) -> Result<(), Check> {
        let Step { lists, claim, .. } = &step;
        self.require_constant()?;
        Check::Limit.require(
            clause_within_limits(claim)
                && lists.iter().all(|list| {
                    list.len() <= MAX_LIST_TERMS && variables_within_limit(list.nodes())
                }),
        )?;
        Check::Symbol.require(
            self.symbols_fit(claim.nodes())
                && lists.iter().all(|list| self.symbols_fit(list.nodes())),
        )?;
        check_step(&step, &self.clauses)?;
        self.parents.push(used_parents(&step));
        self.add_clause(step.claim);
        Ok(())
    }

    /// T17: "Clauses, of in and by lines together, are numbered from 0."
    fn add_clause(&mut self, clause: Clause) {
        if clause.is_empty() && self.first_empty.is_none() {
            self.first_empty = Some(self.clauses.len());
        }
        self.clauses.push(clause);
    }

    /// V14, check 4: some symbol of K = 0 is declared.
    fn require_constant(&self) -> Result<(), Check> {
        Check::Constant.require(self.arities.contains(&0))
    }

    /// V16, check 6: each applied symbol is declared and has its number of
    /// terms.
    fn symbols_fit(&self, nodes: &[Node]) -> bool {
        nodes.iter().all(|node| match *node {
            Node::Variable(_) => true,
            Node::Application { symbol, arity } => {
                self.arities.get(usize::from(symbol)) == Some(&arity)
            }
        })
    }
}

/// T18: "arguments of a method", "parts of a molecule", "literals of a clause",
/// "a variable's number".
fn clause_within_limits(clause: &Clause) -> bool {
    let parts_fit = |literal: Literal| {
        let mut parts = literal.parts.iter();
        literal.parts.len() <= MAX_PARTS && parts.all(|part| part.arguments <= MAX_ARGUMENTS)
    };
    clause.len() <= MAX_LITERALS
        && clause.literals().all(parts_fit)
        && variables_within_limit(clause.nodes())
}

/// T18: "a variable's number".
fn variables_within_limit(nodes: &[Node]) -> bool {
    nodes.iter().all(|node| match *node {
        Node::Variable(number) => number <= MAX_VARIABLE,
        Node::Application { .. } => true,
    })
}
