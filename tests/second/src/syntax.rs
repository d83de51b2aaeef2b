//! Terms, literals, clauses and lines (T7 to T16, T21), as kept in memory.
//!
//! Terms are kept flat, in preorder: a term stands before its parts, and the
//! parts follow from left to right. Each application carries the number of
//! its parts, so a sequence of nodes can be cut into terms in one way only.
//! Two sequences of terms are therefore equal exactly when their nodes are.

use std::ops::Range;

/// One variable or applied symbol of a term.
#[derive(Clone, Copy, Debug, PartialEq, Eq)]
pub enum Node {
    /// T11: "`(v N)` is variable N."
    Variable(u16),
    /// T11: "`(f N TERM ...)` is symbol N applied to the terms." `arity` terms
    /// follow.
    Application { symbol: u16, arity: u16 },
}

impl Node {
    /// The number of terms directly below this node.
    fn parts(self) -> usize {
        match self {
            Node::Variable(_) => 0,
            Node::Application { arity, .. } => arity.into(),
        }
    }
}

/// The number of nodes of the first terms, so many, in a preorder sequence.
pub fn first_terms_len(nodes: &[Node], count: usize) -> usize {
    (0..count).fold(0, |len, _| len + first_term_len(&nodes[len..]))
}

/// The number of nodes of the first term in a preorder sequence.
fn first_term_len(nodes: &[Node]) -> usize {
    let mut pending = 1;
    for (index, node) in nodes.iter().enumerate() {
        pending += node.parts();
        pending -= 1;
        if pending == 0 {
            return index + 1;
        }
    }
    nodes.len()
}

/// T14: "The arrows: sv is a scalar value, si an inheritable scalar value, mv a
/// set value, mi an inheritable set value, st a scalar signature, mt a set
/// signature."
#[derive(Clone, Copy, Debug, PartialEq, Eq)]
pub enum Arrow {
    /// `sv`
    ScalarValue,
    /// `si`
    InheritableScalar,
    /// `mv`
    SetValue,
    /// `mi`
    InheritableSet,
    /// `st`
    ScalarSignature,
    /// `mt`
    SetSignature,
}

impl Arrow {
    /// The two scalar arrows sv and si, the subject of rule sca (R18).
    pub fn is_scalar(self) -> bool {
        matches!(self, Arrow::ScalarValue | Arrow::InheritableScalar)
    }

    /// The two signature arrows st and mt, the subject of inh, inp and out (R15
    /// to R17).
    pub fn is_signature(self) -> bool {
        matches!(self, Arrow::ScalarSignature | Arrow::SetSignature)
    }

    /// T15: "With mv, mi, st and mt it may be the word `none` instead".
    pub fn allows_none(self) -> bool {
        !self.is_scalar()
    }
}

/// What an arrow atom (T13) or a part of a molecule (T21) says of its object,
/// but for the terms: method, arguments and, unless the result is `none`, the
/// result.
#[derive(Clone, Copy, Debug, PartialEq, Eq)]
pub struct Part {
    pub arrow: Arrow,
    pub arguments: u16,
    pub has_result: bool,
}

impl Part {
    /// The number of its terms but for the result: method and arguments.
    pub fn call_terms(self) -> usize {
        1 + usize::from(self.arguments)
    }

    /// The number of all its terms.
    pub fn terms(self) -> usize {
        self.call_terms() + usize::from(self.has_result)
    }

    /// R4: the part "with none in place of a term result".
    pub fn emptied(self) -> Part {
        Part {
            has_result: false,
            ..self
        }
    }
}

/// The kind of an atom (T13, T21). Atoms of equal head and parts have equally
/// many terms in the same places.
#[derive(Clone, Copy, Debug, PartialEq, Eq)]
pub enum Head {
    /// `(eq T U)`
    Equality,
    /// `(mem T U)`
    Membership,
    /// `(sub T U)`
    Subclass,
    /// `(obj T)`
    Object,
    /// `(ARROW O M (T ...) R)`, with one part, or `(mol T PART PART ...)`, with
    /// two or more: the terms are the object and those of the parts.
    Parts,
}

/// T16: "`(+ ATOM)` is a positive literal, `(- ATOM)` a negative one." It is a
/// view of the clause that holds it.
#[derive(Clone, Copy, Debug, PartialEq, Eq)]
pub struct Literal<'a> {
    pub positive: bool,
    pub head: Head,
    /// The parts of an arrow atom, one, or of a molecule; others have none.
    pub parts: &'a [Part],
    /// The terms of the atom, one after another.
    pub nodes: &'a [Node],
}

impl Literal<'_> {
    /// The nodes of the term that starts at a node.
    ///
    /// R20: "Occurrences are counted from 0 in the literal at I as it is before
    /// filling, from left to right, a term before its parts, variables
    /// included: of a molecule in its object, then part by part in the method,
    /// the arguments and the result." That is the preorder, so occurrence K
    /// starts at node K.
    pub fn occurrence(&self, start: usize) -> Option<Range<usize>> {
        let tail = self.nodes.get(start..).filter(|tail| !tail.is_empty())?;
        Some(start..start + first_term_len(tail))
    }

    /// The nodes of the atom's term at a place, counted from 0: object,
    /// method, arguments, result for an arrow.
    pub fn place(&self, index: usize) -> Option<Range<usize>> {
        let mut start = 0;
        for _ in 0..index {
            start = self.occurrence(start)?.end;
        }
        self.occurrence(start)
    }
}

/// What a clause stores of a literal besides its parts and nodes.
#[derive(Clone, Debug)]
struct StoredLiteral {
    positive: bool,
    head: Head,
    parts: Range<usize>,
    nodes: Range<usize>,
}

/// T16: "`(or LIT ...)` is the clause of these literals, `(or)` the empty one."
#[derive(Clone, Debug, Default)]
pub struct Clause {
    parts: Vec<Part>,
    nodes: Vec<Node>,
    literals: Vec<StoredLiteral>,
    variable_bound: usize,
}

impl Clause {
    /// The number of literals.
    pub fn len(&self) -> usize {
        self.literals.len()
    }

    /// Whether this is the empty clause.
    pub fn is_empty(&self) -> bool {
        self.literals.is_empty()
    }

    /// The literal at a position, counted from 0.
    pub fn literal(&self, position: usize) -> Option<Literal<'_>> {
        self.literals.get(position).map(|stored| self.view(stored))
    }

    /// All literals in order.
    pub fn literals(&self) -> impl Iterator<Item = Literal<'_>> {
        self.literals.iter().map(|stored| self.view(stored))
    }

    /// The nodes of all literals in order.
    pub fn nodes(&self) -> &[Node] {
        &self.nodes
    }

    /// R3: its "highest variable plus 1, and 0 where it has no variable".
    pub fn variable_bound(&self) -> usize {
        self.variable_bound
    }

    /// The place where the terms of the next literal are to be written.
    pub(crate) fn nodes_mut(&mut self) -> &mut Vec<Node> {
        &mut self.nodes
    }

    /// Adds a part to the next literal.
    pub(crate) fn add_part(&mut self, part: Part) {
        self.parts.push(part);
    }

    /// Makes all parts and nodes written since the last literal into a literal.
    pub(crate) fn end_literal(&mut self, positive: bool, head: Head) {
        let last = self.literals.last();
        let part = last.map_or(0, |last| last.parts.end);
        let start = last.map_or(0, |last| last.nodes.end);
        for node in &self.nodes[start..] {
            if let Node::Variable(number) = *node {
                self.variable_bound = self.variable_bound.max(usize::from(number) + 1);
            }
        }
        self.literals.push(StoredLiteral {
            positive,
            head,
            parts: part..self.parts.len(),
            nodes: start..self.nodes.len(),
        });
    }

    fn view(&self, stored: &StoredLiteral) -> Literal<'_> {
        Literal {
            positive: stored.positive,
            head: stored.head,
            parts: &self.parts[stored.parts.clone()],
            nodes: &self.nodes[stored.nodes.clone()],
        }
    }
}

/// A LET (T9), the substitution for the variables of one parent: term N stands
/// for variable N (R2).
#[derive(Clone, Debug, Default)]
pub struct Substitution {
    nodes: Vec<Node>,
    terms: Vec<Range<usize>>,
}

impl Substitution {
    /// The number of terms.
    pub fn len(&self) -> usize {
        self.terms.len()
    }

    /// Whether the list has no term.
    pub fn is_empty(&self) -> bool {
        self.terms.is_empty()
    }

    /// The nodes of all terms in order.
    pub fn nodes(&self) -> &[Node] {
        &self.nodes
    }

    /// R2: "variable N of A becomes term N of the first list". These are the
    /// nodes that stand for a node once it is filled.
    pub fn fill<'a>(&'a self, node: &'a Node) -> &'a [Node] {
        match *node {
            Node::Variable(number) => &self.nodes[self.terms[usize::from(number)].clone()],
            Node::Application { .. } => std::slice::from_ref(node),
        }
    }

    /// The place where the next term is to be written.
    pub(crate) fn nodes_mut(&mut self) -> &mut Vec<Node> {
        &mut self.nodes
    }

    /// Makes all nodes written since the last term into a term.
    pub(crate) fn end_term(&mut self) {
        let start = self.terms.last().map_or(0, |last| last.end);
        self.terms.push(start..self.nodes.len());
    }
}

/// A word of the rule table (R8 to R19, R25, R26).
#[derive(Clone, Copy, Debug, PartialEq, Eq)]
pub enum Rule {
    /// `refl`: reflexivity of sub.
    Reflexivity,
    /// `res`: resolution.
    Resolution,
    /// `fac`: factoring.
    Factoring,
    /// `par`: paramodulation.
    Paramodulation,
    /// `acy`: acyclicity of sub.
    Acyclicity,
    /// `tra`: transitivity of sub.
    Transitivity,
    /// `inc`: class inclusion.
    Inclusion,
    /// `inh`: inheritance of a signature by a subclass.
    SignatureInheritance,
    /// `inp`: restriction of a signature's argument.
    InputRestriction,
    /// `out`: relaxation of a signature's result.
    OutputRelaxation,
    /// `sca`: scalarity.
    Scalarity,
    /// `eli`: elimination of a negative obj literal.
    Elimination,
    /// `mer`: merging of two molecules or arrow atoms.
    Merging,
    /// `pro`: projection of a molecule to one part.
    Projection,
}

/// T9: "`(by RULE A I B J K LET LET CLAUSE)` is a step."
#[derive(Clone, Debug)]
pub struct Step {
    pub rule: Rule,
    /// A I B J K, in that order.
    pub numbers: [u16; 5],
    /// The lists for A and for B.
    pub lists: [Substitution; 2],
    pub claim: Clause,
}

/// A line that is a form.
#[derive(Clone, Debug)]
pub enum Line {
    /// T7: "`(sym K)` declares the next symbol of the symbol table".
    Symbol(u16),
    /// T8: "`(in CLAUSE)` is an input clause."
    Input(Clause),
    /// A step.
    Step(Step),
}
