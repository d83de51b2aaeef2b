//! The program: standard input to one line, or two where it is refuted.

use std::io::Write;
use std::process::{Command, Output, Stdio};

fn run(text: &[u8]) -> Output {
    run_with(&[], text)
}

fn run_with(arguments: &[&str], text: &[u8]) -> Output {
    let mut child = Command::new(env!("CARGO_BIN_EXE_second"))
        .args(arguments)
        .stdin(Stdio::piped())
        .stdout(Stdio::piped())
        .stderr(Stdio::piped())
        .spawn()
        .unwrap();
    // The program may stop reading before the end of a text that's too long.
    let _ = child.stdin.take().unwrap().write_all(text);
    child.wait_with_output().unwrap()
}

#[test]
fn prints_the_answer() {
    for (text, lines) in [
        ("", "refused 4 0\n"),
        ("(sym 0)\n", "open 0\n"),
        ("(sym 0)\n(in (or))\n", "refuted 1 0\nrests 0\n"),
        ("(sym 0)\n(in (or))", "refused 2 2\n"),
    ] {
        let output = run(text.as_bytes());
        assert!(output.status.success());
        assert_eq!(String::from_utf8_lossy(&output.stdout), lines);
        assert!(output.stderr.is_empty());
    }
}

#[test]
fn stops_reading_past_the_limit() {
    let output = run(&vec![b'('; 1_000_000]);
    assert_eq!(output.stdout, b"refused 1 0\n");
    let output = run(&vec![b'('; 65_535]);
    assert_eq!(output.stdout, b"refused 2 1\n");
}

#[test]
fn a_file_that_is_named_is_the_base() {
    let base = concat!(env!("CARGO_TARGET_TMPDIR"), "/base");
    std::fs::write(base, "(sym 0)\n(in (or))\n").unwrap();
    let output = run_with(&[base], b"(in (or))\n");
    assert_eq!(output.stdout, b"refuted 2 0\nrests 0\n");
    assert!(output.stderr.is_empty());
    // Not there, not to be read, or two.
    for arguments in [&["/no/such/file"][..], &["/"], &[base, base]] {
        let output = run_with(arguments, b"");
        assert_eq!(output.status.code(), Some(1), "{arguments:?}");
        assert!(output.stdout.is_empty() && !output.stderr.is_empty());
    }
}

#[test]
#[cfg(target_os = "linux")]
fn a_failed_read_gives_no_answer() {
    // A directory can be opened but not read.
    let directory = std::fs::File::open("/").unwrap();
    let output = Command::new(env!("CARGO_BIN_EXE_second"))
        .stdin(Stdio::from(directory))
        .output()
        .unwrap();
    assert_eq!(output.status.code(), Some(1));
    assert!(output.stdout.is_empty());
    assert!(!output.stderr.is_empty());
}
