//! Steps with each form of a literal at I and at J: which atoms fit into which,
//! and which literals have a rule's shape.

use super::{step, Made};

/// What an arrow atom says of its object, and each part of a molecule; all of
/// its terms are A.
#[derive(Clone, Copy, Debug, PartialEq, Eq)]
struct Part {
    arrow: &'static str,
    arguments: usize,
    none: bool,
}

impl Part {
    /// As it is written behind the arrow, and in an arrow atom the object.
    fn write(self) -> String {
        let arguments = vec!["A"; self.arguments].join(" ");
        let result = if self.none { "none" } else { "A" };
        format!("A ({arguments}) {result}")
    }

    fn is_scalar(self) -> bool {
        matches!(self.arrow, "sv" | "si")
    }

    fn is_signature(self) -> bool {
        matches!(self.arrow, "st" | "mt")
    }

    /// Equal, or the other is this one with none.
    fn covers(self, other: Part) -> bool {
        let emptied = Part { none: true, ..self };
        self == other || (!self.is_scalar() && emptied == other)
    }
}

/// A form of an atom, all of whose terms are A but for the arguments.
#[derive(Clone, Debug, PartialEq, Eq)]
struct Form {
    /// Of an atom that isn't one of the two below.
    word: &'static str,
    /// One of an arrow atom, two or more of a molecule.
    parts: Vec<Part>,
}

const ARROWS: [&str; 6] = ["sv", "si", "mv", "mi", "st", "mt"];

/// The molecules that stand among the forms: two arrows, each perhaps with
/// none.
const MOLECULES: [[(&str, bool); 2]; 6] = [
    [("sv", false), ("mv", false)],
    [("mv", true), ("sv", false)],
    [("mv", false), ("mv", true)],
    [("si", false), ("mi", false)],
    [("st", true), ("mt", true)],
    [("st", false), ("st", false)],
];

impl Form {
    fn new(word: &'static str) -> Self {
        let parts = Vec::new();
        Form { word, parts }
    }

    fn of_parts(parts: Vec<Part>) -> Self {
        Form { word: "", parts }
    }

    fn write(&self) -> String {
        match (self.word, &self.parts[..]) {
            ("obj", _) => "(obj A)".into(),
            (word, []) => format!("({word} A A)"),
            (_, [part]) => format!("({} A {})", part.arrow, part.write()),
            (_, parts) => {
                let part = |part: &Part| format!(" ({} {})", part.arrow, part.write());
                let parts: String = parts.iter().map(part).collect();
                format!("(mol A{parts})")
            }
        }
    }

    /// Whether it fits into the other. All objects are equal.
    fn fits_into(&self, other: &Form) -> bool {
        let covered = |part: &Part| other.parts.iter().any(|other| other.covers(*part));
        self.word == other.word && self.parts.iter().all(covered)
    }

    fn is_molecule(&self) -> bool {
        self.parts.len() > 1
    }

    /// Whether it is an arrow atom of this kind.
    fn is_arrow(&self, kind: fn(Part) -> bool) -> bool {
        matches!(self.parts[..], [part] if kind(part))
    }
}

/// The arrows with so many arguments, with a term result and with none.
fn arrows(arguments: usize) -> Vec<Form> {
    let arrow = |&arrow: &&'static str| {
        let part = |none| Part {
            arrow,
            arguments,
            none,
        };
        let parts = [part(false), part(true)];
        let count = 2 - usize::from(parts[0].is_scalar());
        parts[..count].to_vec()
    };
    let parts = ARROWS.iter().flat_map(arrow);
    parts.map(|part| Form::of_parts(vec![part])).collect()
}

/// The molecules whose parts have so many arguments.
fn molecules(arguments: usize) -> Vec<Form> {
    let part = |(arrow, none)| Part {
        arrow,
        arguments,
        none,
    };
    let form = |parts: [(&'static str, bool); 2]| Form::of_parts(parts.map(part).to_vec());
    MOLECULES.map(form).to_vec()
}

/// All forms with as many arguments.
fn forms(arguments: usize) -> Vec<Form> {
    let others = ["eq", "mem", "sub", "obj"].map(Form::new);
    [others.to_vec(), arrows(arguments), molecules(arguments)].concat()
}

pub fn texts() -> Vec<Made> {
    [coverings(), scalars(), shapes()].concat()
}

/// A literal in a clause of its own or behind others.
fn literal(positive: bool, form: &Form) -> String {
    let sign = if positive { '+' } else { '-' };
    format!("({sign} {})", form.write())
}

/// res and fac between any two forms, and between arrows of the same word with
/// different numbers of arguments.
fn coverings() -> Vec<Made> {
    let mut pairs: Vec<(Form, Form)> = Vec::new();
    for first in forms(0) {
        pairs.extend(forms(0).into_iter().map(|second| (first.clone(), second)));
    }
    let counted: Vec<Form> = (0..3).flat_map(arrows).collect();
    for first in &counted {
        let alike = |other: &&Form| {
            let [one, other] = [first.parts[0], other.parts[0]];
            other.arrow == one.arrow && other.arguments != one.arguments
        };
        let alike = counted.iter().filter(alike).cloned();
        pairs.extend(alike.map(|second| (first.clone(), second)));
    }
    pairs.iter().flat_map(covering).collect()
}

/// A literal at I and one at J, by res and by both kinds of fac.
fn covering((first, second): &(Form, Form)) -> Vec<Made> {
    let refused = if first.fits_into(second) {
        None
    } else {
        Some(10)
    };
    let units = [
        format!("(or {})", literal(false, first)),
        format!("(or {})", literal(true, second)),
    ];
    let line = "(by res 0 0 1 0 0 (let) (let) (or))";
    let mut all = vec![step(&units, line.into(), refused, "refuted 3 2\nrests 0 1")];
    for positive in [true, false] {
        let pair = [literal(positive, first), literal(positive, second)];
        // The weaker of two positive literals stays, or the stronger of two
        // negative ones.
        let stays = if positive { &pair[0] } else { &pair[1] };
        let line = format!("(by fac 0 0 0 1 0 (let) (let) (or {stays}))");
        let clause = format!("(or {} {})", pair[0], pair[1]);
        all.push(step(&[clause], line, refused, "open 2"));
    }
    all
}

/// sca between any two scalar forms.
fn scalars() -> Vec<Made> {
    let counted = (0..3).flat_map(arrows);
    let counted: Vec<Form> = counted
        .filter(|form| form.is_arrow(Part::is_scalar))
        .collect();
    let mut all = Vec::new();
    for first in &counted {
        for second in &counted {
            let inputs = [first, second].map(|form| format!("(or {})", literal(true, form)));
            let line = "(by sca 0 0 1 0 0 (let) (let) (or (+ (eq A A))))";
            let refused = if first == second { None } else { Some(10) };
            all.push(step(&inputs, line.into(), refused, "open 3"));
        }
    }
    all
}

/// For each rule whether a literal has the shape asked for at I and at J.
fn fits(rule: &str, at_second: bool, positive: bool, form: &Form) -> bool {
    match (rule, at_second) {
        ("res", false) => !positive,
        ("res", true) => positive,
        ("par", false) => true,
        ("par", true) => positive && form.word == "eq",
        ("acy" | "tra", false) => positive && form.word == "sub",
        ("inc", false) => positive && form.word == "mem",
        ("inh" | "inp", false) => positive && form.is_arrow(Part::is_signature),
        ("out", false) => positive && form.is_arrow(|part| part.is_signature() && !part.none),
        ("sca", _) => positive && form.is_arrow(Part::is_scalar),
        ("eli", _) => !positive && form.word == "obj",
        ("mer", _) => positive && !form.parts.is_empty(),
        ("pro", _) => positive && form.is_molecule(),
        _ => positive && form.word == "sub",
    }
}

/// For each rule but refl and fac a literal that fits at I, and its sign, and
/// a positive one at J. The arrows have an argument, which inp needs.
const FITTING: [(&str, (bool, &str), Option<&str>); 12] = [
    ("res", (false, "(mem A A)"), Some("(mem A A)")),
    ("par", (true, "(mem A A)"), Some("(eq A A)")),
    ("acy", (true, "(sub A A)"), Some("(sub A A)")),
    ("tra", (true, "(sub A A)"), Some("(sub A A)")),
    ("inc", (true, "(mem A A)"), Some("(sub A A)")),
    ("inh", (true, "(st A A (A) A)"), Some("(sub A A)")),
    ("inp", (true, "(mt A A (A) A)"), Some("(sub A A)")),
    ("out", (true, "(mt A A (A) A)"), Some("(sub A A)")),
    ("sca", (true, "(sv A A (A) A)"), Some("(sv A A (A) A)")),
    ("eli", (false, "(obj A)"), None),
    ("mer", (true, "(mi A A (A) A)"), Some("(sv A A (A) A)")),
    ("pro", (true, "(mol A (mi A (A) A) (sv A (A) A))"), None),
];

/// Steps in which one of the two literals is replaced by each literal that
/// doesn't fit, and for the rules of signatures the one at I by each that does.
fn shapes() -> Vec<Made> {
    let signed = |positive: bool, atom: &str| {
        let sign = if positive { '+' } else { '-' };
        format!("({sign} {atom})")
    };
    let mut all = Vec::new();
    for (rule, (positive, first), second) in FITTING {
        let (first, second) = (
            signed(positive, first),
            second.map(|second| signed(true, second)),
        );
        for (positive, form) in forms(1)
            .iter()
            .flat_map(|form| [(true, form), (false, form)])
        {
            let other = literal(positive, form);
            let refused = |at_second| (!fits(rule, at_second, positive, form)).then_some(9);
            if refused(false).is_some() || matches!(rule, "inh" | "inp" | "out") {
                all.push(shape(rule, &other, second.as_deref(), refused(false)));
            }
            if second.is_some() && refused(true).is_some() {
                all.push(shape(rule, &first, Some(&other), refused(true)));
            }
        }
    }
    all
}

/// A step on two literals. The claim is what there is besides and the literal
/// at I, which the rules of signatures keep by a link between equal terms.
fn shape(rule: &str, first: &str, second: Option<&str>, refused: Option<u8>) -> Made {
    let mut inputs = vec![format!("(or {first} (+ (obj B)))")];
    inputs.extend(second.map(|literal| format!("(or {literal})")));
    let b = usize::from(second.is_some());
    let line = format!("(by {rule} 0 0 {b} 0 0 (let) (let) (or {first} (+ (obj B))))");
    step(&inputs, line, refused, "open 3")
}
