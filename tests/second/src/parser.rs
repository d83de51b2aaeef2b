//! One line of text to its syntax (V12: "the line isn't a form"), by the grammar
//! of T6.
//!
//! Every function takes the bytes it has read off the front of the cursor.
//! `None` means that the line isn't a form.

use crate::syntax::{Arrow, Clause, Head, Line, Node, Part, Rule, Step, Substitution};
use crate::MAX_DEPTH;

/// Reads a line without its line end. T1: "is one form, of nested brackets".
pub(crate) fn parse_line(line: &[u8]) -> Option<Line> {
    let mut cursor = Cursor { rest: line };
    let form = cursor.line()?;
    cursor.rest.is_empty().then_some(form)
}

/// The bytes of the line that are still to be read.
struct Cursor<'a> {
    rest: &'a [u8],
}

impl<'a> Cursor<'a> {
    /// Reads exactly these bytes. T3: "One space stands between two items, and
    /// none inside the ends of a bracket." So every space is asked for by name.
    fn expect(&mut self, bytes: &[u8]) -> Option<()> {
        self.rest = self.rest.strip_prefix(bytes)?;
        Some(())
    }

    /// Reads these bytes if they come next.
    fn accept(&mut self, bytes: &[u8]) -> bool {
        self.expect(bytes).is_some()
    }

    /// Reads the longest run of bytes of one kind.
    fn take_while(&mut self, kind: impl Fn(&u8) -> bool) -> &'a [u8] {
        let end = self.rest.iter().position(|byte| !kind(byte));
        let (run, rest) = self.rest.split_at(end.unwrap_or(self.rest.len()));
        self.rest = rest;
        run
    }

    /// Reads a word of small letters, perhaps empty.
    fn word(&mut self) -> &'a [u8] {
        self.take_while(u8::is_ascii_lowercase)
    }

    /// T4: "A number N is decimal, 0 to 65,535, without leading zeros."
    fn number(&mut self) -> Option<u16> {
        match self.take_while(u8::is_ascii_digit) {
            [] | [b'0', _, ..] => None,
            digits => digits.iter().try_fold(0u16, |value, digit| {
                value.checked_mul(10)?.checked_add((digit - b'0').into())
            }),
        }
    }

    /// One of the three forms of a line (T7 to T9).
    fn line(&mut self) -> Option<Line> {
        self.expect(b"(")?;
        let word = self.word();
        self.expect(b" ")?;
        let line = match word {
            b"sym" => Line::Symbol(self.number()?),
            b"in" => Line::Input(self.clause()?),
            b"by" => Line::Step(self.step()?),
            _ => return None,
        };
        self.expect(b")")?;
        Some(line)
    }

    /// T9: "`(by RULE A I B J K LET LET CLAUSE)` is a step. Its two lists are
    /// followed by the clause that it claims, which begins wherever the second
    /// list ends." It is read from the rule's word on.
    fn step(&mut self) -> Option<Step> {
        let rule = rule(self.word())?;
        let mut numbers = [0; 5];
        for number in &mut numbers {
            self.expect(b" ")?;
            *number = self.number()?;
        }
        self.expect(b" ")?;
        let first = self.list()?;
        self.expect(b" ")?;
        let second = self.list()?;
        self.expect(b" ")?;
        let claim = self.clause()?;
        Some(Step {
            rule,
            numbers,
            lists: [first, second],
            claim,
        })
    }

    /// The form `let` of T6.
    fn list(&mut self) -> Option<Substitution> {
        let mut list = Substitution::default();
        self.expect(b"(let")?;
        while self.accept(b" ") {
            self.term(list.nodes_mut(), MAX_DEPTH)?;
            list.end_term();
        }
        self.expect(b")")?;
        Some(list)
    }

    /// T16: "`(or LIT ...)` is the clause of these literals, `(or)` the empty
    /// one. `(+ ATOM)` is a positive literal, `(- ATOM)` a negative one."
    fn clause(&mut self) -> Option<Clause> {
        let mut clause = Clause::default();
        self.expect(b"(or")?;
        while self.accept(b" ") {
            let positive = self.accept(b"(+ ");
            if !positive {
                self.expect(b"(- ")?;
            }
            let head = self.atom(&mut clause)?;
            clause.end_literal(positive, head);
            self.expect(b")")?;
        }
        self.expect(b")")?;
        Some(clause)
    }

    /// T13: "`(eq T U)` is equality; `(mem T U)` is T : U; `(sub T U)` is T ::
    /// U; `(obj T)` is T[]; `(ARROW O M (T ...) R)` has the object O". T21:
    /// "`(mol T PART PART ...)`, a molecule". The terms and the parts go to the
    /// clause.
    fn atom(&mut self, clause: &mut Clause) -> Option<Head> {
        self.expect(b"(")?;
        let head = match self.word() {
            b"eq" => self.spaced_terms(clause, 2, Head::Equality),
            b"mem" => self.spaced_terms(clause, 2, Head::Membership),
            b"sub" => self.spaced_terms(clause, 2, Head::Subclass),
            b"obj" => self.spaced_terms(clause, 1, Head::Object),
            b"mol" => self.molecule(clause),
            word => self.arrow_atom(clause, arrow(word)?),
        }?;
        self.expect(b")")?;
        Some(head)
    }

    /// So many terms, a space before each.
    fn spaced_terms(&mut self, clause: &mut Clause, count: usize, head: Head) -> Option<Head> {
        for _ in 0..count {
            self.expect(b" ")?;
            self.term(clause.nodes_mut(), MAX_DEPTH)?;
        }
        Some(head)
    }

    /// T13: "the object O, the method M, the arguments T ..., perhaps none at
    /// all, and the result R", from the space before the object on.
    fn arrow_atom(&mut self, clause: &mut Clause, arrow: Arrow) -> Option<Head> {
        let head = self.spaced_terms(clause, 1, Head::Parts)?;
        self.part(clause, arrow)?;
        Some(head)
    }

    /// T21: "the object T and two parts or more; a PART is `(ARROW M (T ...)
    /// R)`", from the space before the object on. "With fewer than two parts it
    /// isn't a form."
    fn molecule(&mut self, clause: &mut Clause) -> Option<Head> {
        let head = self.spaced_terms(clause, 1, Head::Parts)?;
        let mut parts = 0;
        while self.accept(b" (") {
            let arrow = arrow(self.word())?;
            self.part(clause, arrow)?;
            self.expect(b")")?;
            parts += 1;
        }
        (parts >= 2).then_some(head)
    }

    /// A part, from the space before its method on.
    fn part(&mut self, clause: &mut Clause, arrow: Arrow) -> Option<()> {
        let nodes = clause.nodes_mut();
        self.expect(b" ")?;
        self.term(nodes, MAX_DEPTH)?;
        self.expect(b" (")?;
        let mut arguments: u16 = 0;
        if !self.accept(b")") {
            loop {
                self.term(nodes, MAX_DEPTH)?;
                arguments = arguments.checked_add(1)?;
                if self.accept(b")") {
                    break;
                }
                self.expect(b" ")?;
            }
        }
        self.expect(b" ")?;
        let has_result = !(arrow.allows_none() && self.accept(b"none"));
        if has_result {
            self.term(nodes, MAX_DEPTH)?;
        }
        clause.add_part(Part {
            arrow,
            arguments,
            has_result,
        });
        Some(())
    }

    /// T11: "`(v N)` is variable N. `(f N TERM ...)` is symbol N applied to the
    /// terms." T12: "A line with a deeper term isn't a form." The term goes to
    /// `nodes`; `depth` is the number of levels left, this term's included.
    fn term(&mut self, nodes: &mut Vec<Node>, depth: usize) -> Option<()> {
        let below = depth.checked_sub(1)?;
        if self.accept(b"(v ") {
            nodes.push(Node::Variable(self.number()?));
        } else {
            self.expect(b"(f ")?;
            let symbol = self.number()?;
            let place = nodes.len();
            nodes.push(Node::Application { symbol, arity: 0 });
            let mut arity: u16 = 0;
            while self.accept(b" ") {
                self.term(nodes, below)?;
                arity = arity.checked_add(1)?;
            }
            nodes[place] = Node::Application { symbol, arity };
        }
        self.expect(b")")
    }
}

/// T10: "RULE is one of the fourteen words (R8 to R19, R25, R26). A line with
/// any other isn't a form."
fn rule(word: &[u8]) -> Option<Rule> {
    Some(match word {
        b"refl" => Rule::Reflexivity,
        b"res" => Rule::Resolution,
        b"fac" => Rule::Factoring,
        b"par" => Rule::Paramodulation,
        b"acy" => Rule::Acyclicity,
        b"tra" => Rule::Transitivity,
        b"inc" => Rule::Inclusion,
        b"inh" => Rule::SignatureInheritance,
        b"inp" => Rule::InputRestriction,
        b"out" => Rule::OutputRelaxation,
        b"sca" => Rule::Scalarity,
        b"eli" => Rule::Elimination,
        b"mer" => Rule::Merging,
        b"pro" => Rule::Projection,
        _ => return None,
    })
}

/// The word of an arrow (T14).
fn arrow(word: &[u8]) -> Option<Arrow> {
    Some(match word {
        b"sv" => Arrow::ScalarValue,
        b"si" => Arrow::InheritableScalar,
        b"mv" => Arrow::SetValue,
        b"mi" => Arrow::InheritableSet,
        b"st" => Arrow::ScalarSignature,
        b"mt" => Arrow::SetSignature,
        _ => return None,
    })
}
