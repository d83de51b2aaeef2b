//! The program `compare`, on the second checker itself and on wrong programs.

mod common;

use std::fs;
use std::thread;
use std::time::Duration;

use common::{compare, folder, last_line, printed, script, COMPARE};
use compare::generated::{self, Run};
use compare::program::Program;
use compare::second_answer;
use second::generate::{sample, Sample};
use second::Verdict;

#[test]
fn the_second_checker_agrees_with_itself() {
    let folder = folder("agrees");
    let keep = folder.join("keep");
    let program = script(&folder, "SECOND");
    let output = compare(&[&program, "300", "7", keep.to_str().unwrap()]);
    assert_eq!(last_line(&output), "300 passed, 0 failed");
    assert!(output.status.success());
    assert!(!keep.exists());
}

#[test]
fn differences_are_found_printed_and_kept() {
    let folder = folder("differs");
    let keep = folder.join("keep");
    let keep = keep.to_str().unwrap();
    let program = script(&folder, "SECOND | sed 's/^refused 8 /refused 9 /'");
    let output = compare(&[&program, "300", "7", keep]);
    let (passed, failed) = match last_line(&output).split_once(" passed, ") {
        Some((passed, failed)) => (
            passed.parse::<u64>().unwrap(),
            failed
                .strip_suffix(" failed")
                .unwrap()
                .parse::<u64>()
                .unwrap(),
        ),
        None => panic!("{}", printed(&output)),
    };
    assert_eq!(passed + failed, 300);
    assert!(failed > 10);
    assert_eq!(output.status.code(), Some(1));
    let shown = printed(&output);
    let shown: Vec<&str> = shown
        .lines()
        .filter(|line| line.starts_with("seed "))
        .collect();
    assert_eq!(shown.len(), 10);
    assert!(printed(&output).contains("  program:   refused 9 "));
    assert!(printed(&output).contains("  second:    refused 8 "));

    // The kept texts are examples: the wrong program fails them all, and the
    // second checker passes them. Both tell three failures.
    let output = compare(&[&program, "--examples", keep]);
    assert_eq!(last_line(&output), "3 passed, 10 failed");
    assert_eq!(output.status.code(), Some(1));
    let right = script(&folder, "SECOND");
    let output = compare(&[&right, "--examples", keep]);
    assert_eq!(last_line(&output), "13 passed, 0 failed");
    assert!(output.status.success());
}

#[test]
fn the_seeds_and_a_table_of_rules_by_numbers_are_printed() {
    let folder = folder("table");
    let program = script(&folder, "SECOND");
    let output = printed(&compare(&[&program, "50", "100"]));
    assert_eq!(output.lines().next(), Some("seeds 100 to 149"));
    let heading = "         accepted     2     3     4     5     6     7     8     9    10    11";
    let (_, table) = output.split_once(heading).unwrap();
    for rule in second::generate::model::RULES {
        assert!(table.contains(&format!("\n{rule}")), "{rule}");
    }
}

/// A right program.
fn answer(sample: &Sample) -> Vec<u8> {
    second_answer(&sample.text)
}

/// The texts of a few seeds, with time for each.
const FEW: Run = Run {
    seed: 0,
    count: 40,
    workers: 2,
    limit: Duration::from_secs(10),
};

#[test]
fn what_the_generator_expects_is_compared() {
    let wrong = |seed| Sample {
        expected: Some(Verdict::Open { count: 9_999 }.into()),
        ..sample(seed)
    };
    let outcome = generated::compare(wrong, answer, FEW);
    assert_eq!((outcome.texts, outcome.differences.len()), (40, 40));
    let outcome = generated::compare(sample, answer, FEW);
    assert_eq!((outcome.texts, outcome.differences.len()), (40, 0));
    assert_eq!(outcome.late, None);
}

#[test]
fn a_generator_that_takes_too_long_or_panics_ends_the_run() {
    let slow = |seed| match seed {
        7 => loop {
            thread::sleep(Duration::from_secs(1));
        },
        _ => sample(seed),
    };
    let limit = Duration::from_secs(2);
    let outcome = generated::compare(slow, answer, Run { limit, ..FEW });
    assert_eq!(outcome.late, Some(7));
    let panics = |seed| match seed {
        7 => panic!("on purpose"),
        _ => sample(seed),
    };
    let outcome = generated::compare(panics, answer, FEW);
    assert_eq!((outcome.texts, outcome.late), (39, Some(7)));
}

#[test]
fn a_program_that_takes_too_long_is_ended() {
    let folder = folder("slow");
    for commands in ["sleep 60", "echo open 0; exec >&- 2>&-; sleep 60", "yes"] {
        let program = script(&folder, commands);
        let program = Program::new(&program, Duration::from_millis(500), false).unwrap();
        let failure = program.answer_or_failure(b"(sym 0)\n");
        assert!(failure.starts_with(b"failed: "), "{commands}");
    }
}

#[test]
fn an_exit_status_that_tells_is_compared() {
    let folder = folder("status");
    let examples = concat!(env!("CARGO_MANIFEST_DIR"), "/../../examples");
    let tells = "line=$(SECOND) || exit 2; echo \"$line\"; case $line in refused*) exit 1; esac";
    let program = script(&folder, tells);
    let output = compare(&["--status", &program, "--examples", examples]);
    assert!(output.status.success(), "{}", printed(&output));
    let output = compare(&["--status", &program, "100", "0"]);
    assert_eq!(last_line(&output), "100 passed, 0 failed");
    // Not so without the flag, nor with it where the status is always 0.
    let output = compare(&[&program, "--examples", examples]);
    assert_eq!(output.status.code(), Some(1));
    let program = script(&folder, "SECOND || true");
    let output = compare(&["--status", &program, "--examples", examples]);
    assert_eq!(output.status.code(), Some(1));
    let printed = printed(&output);
    assert!(
        printed.contains("standard input that can't be read"),
        "{printed}"
    );
}

#[test]
fn closed_ends_have_to_be_told() {
    let folder = folder("closed");
    let examples = concat!(env!("CARGO_MANIFEST_DIR"), "/../../examples");
    for (commands, what) in [
        ("exec < /dev/null; SECOND", "standard input that is closed"),
        ("SECOND > /dev/null", "standard output that is closed"),
    ] {
        // Without the test that a program of shell commands begins with.
        let program = script(&folder, commands);
        let lines = fs::read_to_string(&program).unwrap();
        let lines: Vec<&str> = lines
            .lines()
            .filter(|line| !line.contains("exit 2"))
            .collect();
        fs::write(&program, lines.join("\n")).unwrap();
        let output = compare(&[&program, "--examples", examples]);
        assert!(printed(&output).contains(what), "{what}");
    }
}

#[test]
fn help_version_and_messages_are_held_to_their_places() {
    let folder = folder("arguments");
    let help = "[ \"$*\" = --help ] && { echo usage: program TEXT; exit; }; ";
    let version = "[ \"$*\" = --version ] && { echo program 0.1; exit; }; ";
    let rest = "echo program: no such argument >&2";
    let right = [help, version, rest].concat();
    for (commands, counts) in [
        (right.clone(), "4 passed, 0 failed"),
        ([help, rest].concat(), "3 passed, 1 failed"),
        ([version, rest].concat(), "3 passed, 1 failed"),
        (right.replace("program:", "other:"), "2 passed, 2 failed"),
        (right.replace(" >&2", ""), "2 passed, 2 failed"),
        (
            right.replace("; exit;", " >&2; exit;"),
            "2 passed, 2 failed",
        ),
    ] {
        let program = script(&folder, &commands);
        let output = compare(&[&program, "--arguments"]);
        assert_eq!(last_line(&output), counts, "{commands}");
    }
}

#[test]
fn a_missing_line_end_and_a_failing_program_are_differences() {
    let folder = folder("fails");
    let keep = folder.join("keep");
    for commands in [
        "SECOND | tr -d '\\n'",
        "SECOND; exit 1",
        "SECOND; echo more",
        "true",
    ] {
        let program = script(&folder, commands);
        let output = compare(&[&program, "5", "0", keep.to_str().unwrap()]);
        assert_eq!(last_line(&output), "0 passed, 5 failed", "{commands}");
        assert_eq!(output.status.code(), Some(1), "{commands}");
    }
}

#[test]
fn a_wrong_second_line_is_a_difference() {
    let folder = folder("second-line");
    let examples = concat!(env!("CARGO_MANIFEST_DIR"), "/../../examples");
    for commands in [
        "SECOND | head -n 1",
        "SECOND | sed 's/^rests 0 2$/rests 0 1 2/'",
        "SECOND | sed 's/^rests 0 2$/rests 2 0/'",
        "SECOND | sed 's/^rests 0 2$/rests 0 2 /'",
        "SECOND | sed '/^rests 0 2$/p'",
        "SECOND | sed 's/^\\(open.*\\)$/\\1\\nrests/'",
    ] {
        let program = script(&folder, commands);
        let output = compare(&[&program, "--examples", examples]);
        assert_eq!(output.status.code(), Some(1), "{commands}");
    }
}

#[test]
fn bad_usage_has_a_status_of_its_own() {
    for arguments in [
        &["/no/such/program", "1", "0"][..],
        &[COMPARE, "many", "0"],
        &[COMPARE, "0", "1"],
        &[COMPARE, "--examples", "/no/such/folder"],
        &[],
    ] {
        let output = compare(arguments);
        assert_eq!(output.status.code(), Some(2), "{arguments:?}");
        assert!(output.stdout.is_empty());
        assert!(!output.stderr.is_empty());
    }
}

#[test]
fn the_examples_have_the_second_checkers_answers() {
    let folder = folder("examples");
    let program = script(&folder, "SECOND");
    let examples = concat!(env!("CARGO_MANIFEST_DIR"), "/../../examples");
    let output = compare(&[&program, "--examples", examples]);
    assert!(output.status.success(), "{}", printed(&output));
    assert!(last_line(&output).ends_with(" passed, 0 failed"));
}
