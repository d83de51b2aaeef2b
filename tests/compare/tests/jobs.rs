//! The program `compare` on pairs of a base and a job, with the second checker as
//! the program and with wrong ones.

mod common;

use std::fs;

use common::{compare, folder, last_line, printed, script, COMPARE};

const EXAMPLES: &str = concat!(env!("CARGO_MANIFEST_DIR"), "/../../examples/jobs");

/// A program that wants one argument.
const ONE: &str = "[ $# = 1 ] || { echo usage >&2; exit; }; ";

/// A right one.
fn right() -> String {
    format!("{ONE}SECOND \"$1\"")
}

#[test]
fn the_second_checker_agrees_with_itself_on_pairs() {
    let folder = folder("pairs-agree");
    let keep = folder.join("keep");
    let program = script(&folder, &right());
    let output = compare(&[&program, "--jobs", "300", "7", keep.to_str().unwrap()]);
    assert_eq!(last_line(&output), "300 passed, 0 failed");
    assert!(output.status.success());
    assert!(!keep.exists());
    let output = printed(&output);
    assert_eq!(output.lines().next(), Some("seeds 7 to 306"));
    for start in ["open ", "base refused by 1: ", "the two refused by 1: "] {
        assert!(
            output.lines().any(|line| line.starts_with(start)),
            "{start}"
        );
    }
}

#[test]
fn differing_pairs_are_found_printed_and_kept() {
    let folder = folder("pairs-differ");
    let keep = folder.join("keep");
    let keep = keep.to_str().unwrap();
    let wrong = script(&folder, &(right() + " | sed 's/^open /refused 4 /'"));
    let output = compare(&[&wrong, "--jobs", "200", "7", keep]);
    assert_eq!(output.status.code(), Some(1));
    let output = printed(&output);
    assert_eq!(output.matches("/job.flogic").count(), 10, "{output}");
    assert!(output.contains("  program:   refused 4 "));
    assert!(output.contains("  second:    open "));

    // The kept pairs are examples. Both tell seven failures.
    let output = compare(&[&wrong, "--job-examples", keep]);
    assert_eq!(last_line(&output), "7 passed, 10 failed");
    let program = script(&folder, &right());
    let output = compare(&[&program, "--job-examples", keep]);
    assert_eq!(last_line(&output), "17 passed, 0 failed");
}

#[test]
fn programs_that_take_the_parts_wrongly_differ() {
    let folder = folder("pairs-wrong");
    let keep = folder.join("keep");
    for commands in [
        "SECOND",
        "SECOND < \"$1\"",
        "cat \"$1\" - | SECOND",
        "cat - \"$1\" | SECOND",
        "SECOND \"$1\" < \"$1\"",
        "SECOND \"$1\" | head -n 1",
        "SECOND \"$1\"; echo more >&2",
        "SECOND \"$1\"; exit 1",
    ] {
        let program = script(&folder, &format!("{ONE}{commands}"));
        let output = compare(&[&program, "--job-examples", EXAMPLES]);
        assert_eq!(output.status.code(), Some(1), "{commands}");
        let output = compare(&[&program, "--jobs", "60", "0", keep.to_str().unwrap()]);
        assert_eq!(output.status.code(), Some(1), "{commands}");
    }
}

#[test]
fn the_job_examples_have_the_second_checkers_answers() {
    let folder = folder("job-examples");
    let program = script(&folder, &right());
    let output = compare(&[&program, "--job-examples", EXAMPLES]);
    assert!(output.status.success(), "{}", printed(&output));
    assert!(last_line(&output).ends_with(" passed, 0 failed"));
}

#[test]
fn what_can_not_be_read_has_to_be_told() {
    let folder = folder("job-failures");
    for (commands, what) in [
        (
            "[ -f \"$1\" ] || [ -d \"$1\" ] || { echo open 0; exit; }; SECOND \"$1\"",
            "a base that isn't there",
        ),
        (
            "[ -d \"$1\" ] && { echo open 0; exit; }; SECOND \"$1\"",
            "a base that can't be read",
        ),
        (
            "SECOND \"$1\" 2>/dev/null",
            "standard input that can't be read",
        ),
    ] {
        let program = script(&folder, &format!("{ONE}{commands}"));
        let output = compare(&[&program, "--job-examples", EXAMPLES]);
        assert_eq!(output.status.code(), Some(1), "{what}");
        assert!(printed(&output).contains(what), "{what}");
    }
    for (commands, what) in [
        ("[ $# -gt 0 ] && SECOND \"$1\" || echo usage", "no base"),
        ("SECOND \"$1\"", "two bases"),
    ] {
        let program = script(&folder, commands);
        let output = compare(&[&program, "--job-examples", EXAMPLES]);
        assert!(printed(&output).contains(what), "{what}");
    }
}

#[test]
fn an_exit_status_that_tells_is_compared() {
    let folder = folder("job-status");
    let tells = "[ $# -lt 2 ] || { echo usage >&2; exit 2; }; \
                 line=$(SECOND \"$@\") || exit 2; echo \"$line\"; \
                 case $line in refused*) exit 1; esac";
    let program = script(&folder, tells);
    let output = compare(&["--status", &program, "--job-examples", EXAMPLES]);
    assert!(output.status.success(), "{}", printed(&output));
    let output = compare(&["--status", &program, "--jobs", "60", "0"]);
    assert_eq!(last_line(&output), "60 passed, 0 failed");
    // Not so without the flag, nor with it where the status is always 0.
    let output = compare(&[&program, "--job-examples", EXAMPLES]);
    assert_eq!(output.status.code(), Some(1));
    let program = script(&folder, &right());
    let output = compare(&["--status", &program, "--job-examples", EXAMPLES]);
    assert_eq!(output.status.code(), Some(1));
}

#[test]
fn bad_usage_and_folders_without_jobs_have_a_status_of_their_own() {
    let empty = folder("job-folders");
    let empty = empty.to_str().unwrap();
    let without = folder("job-folders-without-base");
    fs::create_dir_all(without.join("one")).unwrap();
    fs::write(without.join("one/job.flogic"), "").unwrap();
    fs::write(without.join("one/job.answer"), "refused 4 0\n").unwrap();
    for arguments in [
        &[COMPARE, "--jobs", "0", "1"][..],
        &[COMPARE, "--jobs", "many", "1"],
        &[COMPARE, "--jobs", "1"],
        &["/no/such/program", "--jobs", "1", "1"],
        &[COMPARE, "--job-examples", "/no/such/folder"],
        &[COMPARE, "--job-examples", empty],
        &[COMPARE, "--job-examples", without.to_str().unwrap()],
    ] {
        let output = compare(arguments);
        assert_eq!(output.status.code(), Some(2), "{arguments:?}");
        assert!(output.stdout.is_empty() && !output.stderr.is_empty());
    }
}
