//! The fourteen rules (R8 to R19, R25, R26), checks 7 to 11 (V17 to V21).
//!
//! Nothing is copied to be filled: a filled part of a clause is walked node
//! by node, with the list's terms put in for variables on the way.

use std::ops::Range;

use crate::descent::Parents;
use crate::syntax::{first_terms_len, Clause, Head, Literal, Node, Part, Rule, Step, Substitution};
use crate::Check;

/// Runs checks 7 to 11 on a step; `clauses` are those before it, so that
/// their number is the step's own.
pub(crate) fn check_step(step: &Step, clauses: &[Clause]) -> Result<(), Check> {
    let used = uses(step.rule);
    let [a_used, _, b_used, _, _] = used;
    let [a, i, b, j, k] = step.numbers.map(usize::from);
    let [first_list, second_list] = &step.lists;

    // An unused parent is taken to be the empty clause.
    let none = Clause::default();
    let parent = |used: bool, number: usize| {
        if used {
            clauses.get(number).ok_or(Check::Parent)
        } else {
            Ok(&none)
        }
    };
    let first = Parent::new(parent(a_used, a)?, first_list);
    let second = Parent::new(parent(b_used, b)?, second_list);

    // R7: "Numbers that a rule doesn't use are 0."
    for (used, number) in used.into_iter().zip(step.numbers) {
        Check::Unused.require(used || number == 0)?;
    }
    // R3: "The list of a used parent has exactly as many terms as the parent's
    // highest variable plus 1, and 0 where it has no variable. The list of an
    // unused parent has none, but for refl, whose first list has one term T."
    let first_length = match step.rule {
        Rule::Reflexivity => 1,
        _ => first.clause.variable_bound(),
    };
    Check::Unused.require(first_list.len() == first_length)?;
    Check::Unused.require(second_list.len() == second.clause.variable_bound())?;

    let conclusion = conclude(step.rule, first, second, [i, j, k])?;

    // R21: "The claim, all of it filled, is the new literal, if there is one,
    // then A's other literals, then B's other literals, in order."
    let expected = (conclusion.new.into_iter())
        .chain(first.without(conclusion.dropped))
        .chain(second.without(j));
    Check::Claim.require(is_claim(&step.claim, expected))
}

/// R6: "Which numbers each rule uses": for each of A I B J K, whether the rule
/// uses it.
fn uses(rule: Rule) -> [bool; 5] {
    const NO: bool = false;
    const YES: bool = true;
    match rule {
        Rule::Reflexivity => [NO, NO, NO, NO, NO],
        Rule::Resolution => [YES, YES, YES, YES, NO],
        Rule::Factoring => [YES, YES, NO, YES, NO],
        Rule::Paramodulation => [YES, YES, YES, YES, YES],
        Rule::Acyclicity => [YES, YES, YES, YES, NO],
        Rule::Transitivity => [YES, YES, YES, YES, NO],
        Rule::Inclusion => [YES, YES, YES, YES, NO],
        Rule::SignatureInheritance => [YES, YES, YES, YES, NO],
        Rule::InputRestriction => [YES, YES, YES, YES, YES],
        Rule::OutputRelaxation => [YES, YES, YES, YES, NO],
        Rule::Scalarity => [YES, YES, YES, YES, NO],
        Rule::Elimination => [YES, YES, NO, NO, NO],
        Rule::Merging => [YES, YES, YES, YES, NO],
        Rule::Projection => [YES, YES, NO, NO, YES],
    }
}

/// The numbers of a step's parents, each if the rule uses it.
pub(crate) fn used_parents(step: &Step) -> Parents {
    let [a_used, _, b_used, _, _] = uses(step.rule);
    let [a, _, b, _, _] = step.numbers.map(usize::from);
    [a_used.then_some(a), b_used.then_some(b)]
}

/// What a rule makes of its parents, besides the literals that stay.
struct Conclusion<'a> {
    /// The new literal, if the rule has one.
    new: Option<FilledLiteral<'a>>,
    /// The position of the literal of A that doesn't stay. Of B it is always
    /// the one at J.
    dropped: usize,
}

/// Checks 9 and 10: one arm for each row of the rule table, R8 to R19, R25 and
/// R26. In each arm the whole shape is tested before the agreement.
fn conclude<'a>(
    rule: Rule,
    a: Parent<'a>,
    b: Parent<'a>,
    [i, j, k]: [usize; 3],
) -> Result<Conclusion<'a>, Check> {
    let mut dropped = i;
    let new = match rule {
        // R8, refl: "no parent; the first list has one term T", new
        // "+ sub(T,T)".
        Rule::Reflexivity => {
            let term = Filled {
                nodes: &[Node::Variable(0)],
                list: a.list,
            };
            Some(FilledLiteral::pair(Head::Subclass, term, term))
        }
        // R9, res: "- L, + L'", "L fits into L' (R24)". R23: "res and eli drop
        // the literals that they name."
        Rule::Resolution => {
            let (first, second) = (a.premise(i)?, b.premise(j)?);
            Check::Shape.require(!first.literal.positive && second.literal.positive)?;
            Check::Agreement.require(first.fits_into(second))?;
            None
        }
        // R10, fac: "A only; I and J differ, both literals have the same sign",
        // "the literal at I fits into the one at J (R24)". R22: "For fac the
        // claim is A without the literal at J where the two are positive, and
        // without the literal at I where they are negative."
        Rule::Factoring => {
            let (first, second) = (a.premise(i)?, a.premise(j)?);
            let positive = first.literal.positive;
            Check::Shape.require(i != j && positive == second.literal.positive)?;
            Check::Agreement.require(first.fits_into(second))?;
            dropped = if positive { j } else { i };
            None
        }
        // R11, par: "a literal L, with term occurrence K in it, + eq(S,U)", "the
        // occurrence is S", new "L with that occurrence replaced by U".
        Rule::Paramodulation => {
            let first = a.premise(i)?;
            let occurrence = first.literal.occurrence(k).ok_or(Check::Shape)?;
            let [from, to] = b.premise(j)?.positive_pair(Head::Equality)?;
            Some(first.replace(occurrence, from, to)?)
        }
        // R12, acy: "+ sub(P,Q), + sub(Q',P')", "P = P', Q = Q'", new
        // "+ eq(P,Q)".
        Rule::Acyclicity => {
            let [p, q] = a.premise(i)?.positive_pair(Head::Subclass)?;
            let [other_q, other_p] = b.premise(j)?.positive_pair(Head::Subclass)?;
            Check::Agreement.require(p.equals(other_p) && q.equals(other_q))?;
            Some(FilledLiteral::pair(Head::Equality, p, q))
        }
        // R13, tra: "+ sub(P,Q), + sub(Q',R)", "Q = Q'", new "+ sub(P,R)".
        Rule::Transitivity => Some(chain(Head::Subclass, a.premise(i)?, b.premise(j)?)?),
        // R14, inc: "+ mem(P,Q), + sub(Q',R)", "Q = Q'", new "+ mem(P,R)".
        Rule::Inclusion => Some(chain(Head::Membership, a.premise(i)?, b.premise(j)?)?),
        // R15, inh: "+ st or mt with object P and a term result or none, +
        // sub(S,P')", "P = P'", new "the first, with object S".
        Rule::SignatureInheritance => {
            let first = a.premise(i)?;
            first.signature_arguments()?;
            let [lower, upper] = b.premise(j)?.positive_pair(Head::Subclass)?;
            Some(first.replace(first.place(OBJECT)?, upper, lower)?)
        }
        // R16, inp: "+ st or mt with a term result or none and an argument K, +
        // sub(S,Q)", "argument K is Q", new "the first, with S as argument K".
        Rule::InputRestriction => {
            let first = a.premise(i)?;
            let arguments = first.signature_arguments()?;
            Check::Shape.require(k < arguments)?;
            let [lower, upper] = b.premise(j)?.positive_pair(Head::Subclass)?;
            Some(first.replace(first.place(ARGUMENTS + k)?, upper, lower)?)
        }
        // R17, out: "+ st or mt with a term result R, + sub(R',S)", "R = R'",
        // new "the first, with result S". With none there is no place for R.
        Rule::OutputRelaxation => {
            let first = a.premise(i)?;
            let arguments = first.signature_arguments()?;
            let [lower, upper] = b.premise(j)?.positive_pair(Head::Subclass)?;
            Some(first.replace(first.place(ARGUMENTS + arguments)?, lower, upper)?)
        }
        // R18, sca: "+ sv or si with result R, + sv or si with result R'", "same
        // arrow, argument count, object, method, arguments", new "+ eq(R,R')".
        Rule::Scalarity => {
            let (first, second) = (a.premise(i)?, b.premise(j)?);
            let ((object, said), (other_object, other)) = (first.scalar()?, second.scalar()?);
            Check::Agreement.require(object.equals(other_object) && said.is_alike(other))?;
            let (result, other_result) = (said.result(), other.result());
            Some(FilledLiteral::pair(Head::Equality, result, other_result))
        }
        // R19, eli: "A only; - obj(P) at I". R23 drops it.
        Rule::Elimination => {
            let literal = a.premise(i)?.literal;
            Check::Shape.require(!literal.positive && literal.head == Head::Object)?;
            None
        }
        // R25, mer: "two + arrow atoms or molecules, with objects P and P'",
        // "P = P'", new "+ the molecule with object P, A's parts, then B's".
        Rule::Merging => {
            let (first, second) = (a.premise(i)?, b.premise(j)?);
            let (one, other) = (first.positive_molecule()?, second.positive_molecule()?);
            Check::Agreement.require(one.object.equals(other.object))?;
            Some(FilledLiteral {
                positive: true,
                head: Head::Parts,
                parts: [one.parts, other.parts],
                terms: [one.object, one.terms, other.terms],
            })
        }
        // R26, pro: "A only; + a molecule with object P and a part K, counted
        // from 0", new "+ the arrow atom of P and that part".
        Rule::Projection => {
            let molecule = a.premise(i)?.positive_molecule()?;
            Check::Shape.require(molecule.parts.len() > 1)?;
            let said = molecule.each_part().nth(k).ok_or(Check::Shape)?;
            Some(FilledLiteral {
                positive: true,
                head: Head::Parts,
                parts: [&molecule.parts[k..=k], &[]],
                terms: [molecule.object, said.terms, Filled::nothing(a.list)],
            })
        }
    };
    Ok(Conclusion { new, dropped })
}

/// The place of the object among the terms of an arrow atom or a molecule.
const OBJECT: usize = 0;
/// The place of an arrow atom's first argument, after object and method; the
/// result follows the last argument.
const ARGUMENTS: usize = 2;

/// The common part of tra and inc: P below Q, and Q below R by sub.
fn chain<'a>(
    head: Head,
    first: Premise<'a>,
    second: Premise<'a>,
) -> Result<FilledLiteral<'a>, Check> {
    let [p, q] = first.positive_pair(head)?;
    let [other_q, r] = second.positive_pair(Head::Subclass)?;
    Check::Agreement.require(q.equals(other_q))?;
    Ok(FilledLiteral::pair(head, p, r))
}

/// Check 11: whether the claim's literals are the expected ones, in order.
fn is_claim<'a>(claim: &Clause, mut expected: impl Iterator<Item = FilledLiteral<'a>>) -> bool {
    claim
        .literals()
        .all(|literal| expected.next().is_some_and(|other| other.equals(literal)))
        && expected.next().is_none()
}

/// A parent clause with the list that fills it.
#[derive(Clone, Copy)]
struct Parent<'a> {
    clause: &'a Clause,
    list: &'a Substitution,
}

impl<'a> Parent<'a> {
    fn new(clause: &'a Clause, list: &'a Substitution) -> Self {
        Parent { clause, list }
    }

    /// The literal at a position that the step names; a position that the
    /// clause lacks fails check 9.
    fn premise(self, position: usize) -> Result<Premise<'a>, Check> {
        let literal = self.clause.literal(position).ok_or(Check::Shape)?;
        Ok(Premise {
            literal,
            list: self.list,
        })
    }

    /// The other literals, filled: all but the one at a position.
    fn without(self, position: usize) -> impl Iterator<Item = FilledLiteral<'a>> {
        let literals = self.clause.literals().enumerate();
        let others = literals.filter(move |&(place, _)| place != position);
        others.map(move |(_, literal)| FilledLiteral::whole(literal, self.list))
    }
}

/// Terms of a parent, filled. R2: "variable N of A becomes term N of the first
/// list, variable N of B becomes term N of the second list."
#[derive(Clone, Copy)]
struct Filled<'a> {
    nodes: &'a [Node],
    list: &'a Substitution,
}

impl<'a> Filled<'a> {
    /// No terms.
    fn nothing(list: &'a Substitution) -> Self {
        Filled { nodes: &[], list }
    }

    /// The nodes in preorder once every variable is filled.
    fn walk(self) -> impl Iterator<Item = &'a Node> {
        (self.nodes.iter()).flat_map(move |node| self.list.fill(node))
    }

    /// Whether the two are the same terms once filled.
    fn equals(self, other: Filled<'_>) -> bool {
        self.walk().eq(other.walk())
    }
}

/// A part of an arrow atom or a molecule, its terms filled.
#[derive(Clone, Copy)]
struct FilledPart<'a> {
    part: Part,
    terms: Filled<'a>,
}

impl<'a> FilledPart<'a> {
    /// The terms before the result, and the result, if it is a term.
    fn split(self) -> (Filled<'a>, Filled<'a>) {
        let Filled { nodes, list } = self.terms;
        let (call, result) = nodes.split_at(first_terms_len(nodes, self.part.call_terms()));
        let filled = |nodes| Filled { nodes, list };
        (filled(call), filled(result))
    }

    /// Method and arguments.
    fn call(self) -> Filled<'a> {
        self.split().0
    }

    fn result(self) -> Filled<'a> {
        self.split().1
    }

    /// R18, but for the object: "same arrow, argument count, object, method,
    /// arguments".
    fn is_alike(self, other: FilledPart<'_>) -> bool {
        self.part == other.part && self.call().equals(other.call())
    }

    /// R4, of parts: "if they are equal, or if Y is X with none in place of a
    /// term result."
    fn covers(self, other: FilledPart<'_>) -> bool {
        if self.part == other.part {
            return self.terms.equals(other.terms);
        }
        other.part == self.part.emptied() && self.call().equals(other.terms)
    }
}

/// A molecule, or an arrow atom as one with a single part, filled.
#[derive(Clone, Copy)]
struct Molecule<'a> {
    object: Filled<'a>,
    parts: &'a [Part],
    /// The terms of all parts, one after another.
    terms: Filled<'a>,
}

impl<'a> Molecule<'a> {
    /// Its parts in order, each with its own terms.
    fn each_part(self) -> impl Iterator<Item = FilledPart<'a>> {
        let Filled { mut nodes, list } = self.terms;
        self.parts.iter().map(move |&part| {
            let (own, behind) = nodes.split_at(first_terms_len(nodes, part.terms()));
            nodes = behind;
            let terms = Filled { nodes: own, list };
            FilledPart { part, terms }
        })
    }

    /// R24: "if their objects are equal and each part of X is covered by some
    /// part of Y; a part covers another as R4 says."
    fn fits_into(self, other: Molecule<'_>) -> bool {
        let others: Vec<FilledPart> = other.each_part().collect();
        let is_covered = |part| others.iter().any(|other| other.covers(part));
        self.object.equals(other.object) && self.each_part().all(is_covered)
    }
}

/// A literal of a parent that the step names, with the list that fills it.
#[derive(Clone, Copy)]
struct Premise<'a> {
    literal: Literal<'a>,
    list: &'a Substitution,
}

impl<'a> Premise<'a> {
    /// Some of the literal's nodes, filled.
    fn nodes(self, range: Range<usize>) -> Filled<'a> {
        Filled {
            nodes: &self.literal.nodes[range],
            list: self.list,
        }
    }

    /// All of the literal's nodes, filled.
    fn terms(self) -> Filled<'a> {
        self.nodes(0..self.literal.nodes.len())
    }

    /// The nodes of the atom's term at a place.
    fn place(self, index: usize) -> Result<Range<usize>, Check> {
        self.literal.place(index).ok_or(Check::Shape)
    }

    /// The two terms of a literal that must be positive and of this head, one
    /// of eq, mem and sub.
    fn positive_pair(self, head: Head) -> Result<[Filled<'a>; 2], Check> {
        Check::Shape.require(self.literal.positive && self.literal.head == head)?;
        Ok([self.nodes(self.place(0)?), self.nodes(self.place(1)?)])
    }

    /// The number of arguments of a literal that must be, R15 to R17, "+ st or
    /// mt", with any result.
    fn signature_arguments(self) -> Result<usize, Check> {
        match self.literal.parts {
            [part] if self.literal.positive && part.arrow.is_signature() => {
                Ok(part.arguments.into())
            }
            _ => Err(Check::Shape),
        }
    }

    /// The molecule of a literal that is one, or an arrow atom.
    fn molecule(self) -> Option<Molecule<'a>> {
        if self.literal.head != Head::Parts {
            return None;
        }
        let object = self.literal.place(OBJECT)?;
        Some(Molecule {
            object: self.nodes(object.clone()),
            parts: self.literal.parts,
            terms: self.nodes(object.end..self.literal.nodes.len()),
        })
    }

    /// The molecule of a literal that must be one, or an arrow atom, and
    /// positive.
    fn positive_molecule(self) -> Result<Molecule<'a>, Check> {
        Check::Shape.require(self.literal.positive)?;
        self.molecule().ok_or(Check::Shape)
    }

    /// The object and the part of a literal that must be, R18, "+ sv or si".
    fn scalar(self) -> Result<(Filled<'a>, FilledPart<'a>), Check> {
        let Molecule {
            object,
            parts,
            terms,
        } = self.positive_molecule()?;
        match *parts {
            [part] if part.arrow.is_scalar() => Ok((object, FilledPart { part, terms })),
            _ => Err(Check::Shape),
        }
    }

    /// R24: "X *fits into* Y, both arrow atoms or molecules", and "Any other
    /// atom fits into one that covers it (R4)." R4: "if they are equal". Only
    /// the atoms are compared.
    fn fits_into(self, other: Premise<'_>) -> bool {
        match (self.molecule(), other.molecule()) {
            (Some(molecule), Some(other)) => molecule.fits_into(other),
            _ => self.literal.head == other.literal.head && self.terms().equals(other.terms()),
        }
    }

    /// The literal, filled, with one of its terms replaced. The agreement is
    /// that this term, filled, is `from`.
    fn replace(
        self,
        range: Range<usize>,
        from: Filled<'a>,
        to: Filled<'a>,
    ) -> Result<FilledLiteral<'a>, Check> {
        Check::Agreement.require(self.nodes(range.clone()).equals(from))?;
        Ok(FilledLiteral {
            positive: self.literal.positive,
            head: self.literal.head,
            parts: [self.literal.parts, &[]],
            terms: [
                self.nodes(0..range.start),
                to,
                self.nodes(range.end..self.literal.nodes.len()),
            ],
        })
    }
}

/// A literal of the conclusion: its parts are those of two rows, one after
/// another, and its terms those of three rows, each filled by its own list.
struct FilledLiteral<'a> {
    positive: bool,
    head: Head,
    parts: [&'a [Part]; 2],
    terms: [Filled<'a>; 3],
}

impl<'a> FilledLiteral<'a> {
    /// A literal of a parent as it is, filled.
    fn whole(literal: Literal<'a>, list: &'a Substitution) -> Self {
        let none = Filled::nothing(list);
        FilledLiteral {
            positive: literal.positive,
            head: literal.head,
            parts: [literal.parts, &[]],
            terms: [
                Filled {
                    nodes: literal.nodes,
                    list,
                },
                none,
                none,
            ],
        }
    }

    /// A new positive literal of two terms.
    fn pair(head: Head, left: Filled<'a>, right: Filled<'a>) -> Self {
        let none = Filled::nothing(right.list);
        FilledLiteral {
            positive: true,
            head,
            parts: [&[], &[]],
            terms: [left, right, none],
        }
    }

    /// Whether this is the literal as the claim writes it.
    fn equals(&self, literal: Literal<'_>) -> bool {
        self.positive == literal.positive
            && self.head == literal.head
            && self.parts.into_iter().flatten().eq(literal.parts)
            && (self.terms.iter())
                .flat_map(|terms| terms.walk())
                .eq(literal.nodes)
    }
}
