//! The stored corpus: complete, within its bounds, and the one that is made.

use std::fs;
use std::path::Path;

use compare::corpus::{read_file, Corpus, LONGEST};
use compare::coverage::{Coverage, Subject};
use compare::made::{jobs, made, refutations};
use compare::pairs::Pairs;
use compare::sides;

#[test]
fn the_stored_corpus_is_complete_and_the_one_that_is_made() {
    let root = Path::new(env!("CARGO_MANIFEST_DIR")).join("../..");
    let corpus = Corpus::make(&root.join("examples")).unwrap();
    assert_eq!(corpus.missing(), Vec::<String>::new());
    assert!(corpus.texts().iter().all(|text| text.len() <= LONGEST));
    let file = corpus.file();
    assert!(file.len() < 3_700_000);
    assert_eq!(read_file(&file).as_deref(), Some(corpus.texts()));
    let stored = root.join("crates/corpus");
    assert!(fs::read(stored.join("data/corpus.bin")).unwrap() == file);

    let pairs = Pairs::make(&root.join("examples")).unwrap();
    assert_eq!(pairs.missing(), Vec::<String>::new());
    let file = pairs.file();
    assert!(file.len() < 1_500_000);
    let texts = read_file(&file).unwrap();
    let read = texts
        .chunks(2)
        .map(|pair| (pair[0].clone(), pair[1].clone()));
    assert_eq!(read.collect::<Vec<_>>(), pairs.pairs());
    assert!(texts.iter().all(|text| text.len() <= LONGEST));
    assert!(fs::read(stored.join("data/pairs.bin")).unwrap() == file);
    let answers = [corpus.answers(), pairs.answers()].concat();
    assert!(fs::read(stored.join("stdout")).unwrap() == answers);
}

#[test]
fn texts_get_the_answer_that_they_are_made_for() {
    for made in [made(), refutations()].concat() {
        let text = String::from_utf8_lossy(&made.text);
        assert_eq!(
            second::check(&made.text).to_string(),
            made.expected,
            "{text}"
        );
    }
}

#[test]
fn pairs_get_the_answer_that_they_are_made_for() {
    for made in jobs::pairs() {
        let answer = second::check_job(&made.base, &made.job).to_string();
        assert_eq!(answer, made.expected, "{:?}", (made.base, made.job));
    }
}

#[test]
fn what_goes_across_is_counted() {
    let base = b"(sym 0)\n(in (or (+ (sub (f 0) (f 0)))))\n";
    let job = b"(in (or (- (sub (f 0) (f 0)))))\n(by res 1 0 0 0 0 (let) (let) (or))\n";
    let names = |job: &[u8]| sides::names(base, job, &second::check_job(base, job));
    let all = [
        sides::REFUTED,
        sides::PARENTS,
        "res with A in the job and B in the base",
    ];
    let all = [&all[..], &[sides::EMPTY_IN_JOB, sides::RESTS_ON_BOTH]].concat();
    assert_eq!(names(job), all);
    assert_eq!(names(b""), ["open"]);
    assert_eq!(names(b"("), ["job refused by 2"]);
    assert_eq!(
        sides::names(b"", job, &second::check(b"")),
        ["base refused by 4"]
    );
}

#[test]
fn steps_on_signatures_with_none_are_counted() {
    let examples = Path::new(env!("CARGO_MANIFEST_DIR")).join("../../examples");
    let mut coverage = Coverage::default();
    let mut counts = |name: &str| {
        coverage.add(&fs::read(examples.join(name)).unwrap());
        let [inh, inp] = ["inh", "inp"].map(|rule| coverage.bare(rule, None));
        [inh, inp, coverage.bare("out", Some(9))]
    };
    assert_eq!(counts("rule-inh-none.flogic"), [1, 0, 0]);
    assert_eq!(counts("rule-inp-none.flogic"), [1, 1, 0]);
    assert_eq!(counts("refused-09-out.flogic"), [1, 1, 1]);
    assert_eq!(counts("survey-bare.flogic"), [2, 2, 1]);
    // These have a term, or no step by these rules.
    for name in ["rule-inh", "rule-inp", "rule-out", "refused-09", "c08"] {
        assert_eq!(counts(&format!("{name}.flogic")), [2, 2, 1]);
    }
}

#[test]
fn steps_on_molecules_are_counted() {
    let start = "(sym 0)\n\
        (in (or (+ (mol (f 0) (sv (f 0) () (f 0)) (mv (f 0) () none)))))\n\
        (in (or (- (sv (f 0) (f 0) () (f 0)))))\n";
    let counts = |rule: &'static str, refused: Option<u8>, step: &str| {
        let mut coverage = Coverage::default();
        coverage.add(format!("{start}{step}\n").as_bytes());
        [Subject::MoleculeAtI, Subject::MoleculeAtJ].map(|on| coverage.on(on, rule, refused))
    };
    let res = "(by res 1 0 0 0 0 (let) (let) (or))";
    assert_eq!(counts("res", None, res), [0, 1]);
    assert_eq!(counts("res", Some(9), res), [0, 0]);
    assert_eq!(counts("par", None, res), [0, 0]);
    let pro = "(by pro 0 0 0 0 K (let) (let) (or (+ (sv (f 0) (f 0) () (f 0)))))";
    assert_eq!(counts("pro", None, &pro.replace('K', "0")), [1, 0]);
    assert_eq!(counts("pro", Some(11), &pro.replace('K', "1")), [1, 0]);
    assert_eq!(counts("pro", Some(9), &pro.replace('K', "2")), [1, 0]);
    let fac = "(by fac 0 0 0 0 0 (let) (let) (or))";
    assert_eq!(counts("fac", Some(9), fac), [1, 1]);
    let eli = "(by eli 1 0 0 0 0 (let) (let) (or))";
    assert_eq!(counts("eli", Some(9), eli), [0, 0]);
}
