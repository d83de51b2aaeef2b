//! Helpers for the tests of the program `compare`.

#![allow(dead_code)]

use std::fs;
use std::os::unix::fs::PermissionsExt;
use std::path::{Path, PathBuf};
use std::process::{Command, Output};

pub const COMPARE: &str = env!("CARGO_BIN_EXE_compare");

const OPEN: &str = "(: 3<&0 4>&1) || exit 2";

/// A folder of a test's own.
pub fn folder(name: &str) -> PathBuf {
    let folder = Path::new(env!("CARGO_TARGET_TMPDIR")).join(name);
    let _ = fs::remove_dir_all(&folder);
    fs::create_dir_all(&folder).unwrap();
    folder
}

/// A program made of shell commands, in which SECOND is the second checker. It
/// ends where standard input or output is closed, which the second checker, in
/// Rust, doesn't see.
pub fn script(folder: &Path, commands: &str) -> String {
    let path = folder.join("program");
    let commands = commands.replace("SECOND", &format!("'{COMPARE}' --second"));
    fs::write(&path, format!("#!/bin/sh\n{OPEN}\n{commands}\n")).unwrap();
    fs::set_permissions(&path, fs::Permissions::from_mode(0o755)).unwrap();
    path.to_str().unwrap().to_string()
}

pub fn compare(arguments: &[&str]) -> Output {
    Command::new(COMPARE).args(arguments).output().unwrap()
}

pub fn printed(output: &Output) -> String {
    String::from_utf8(output.stdout.clone()).unwrap()
}

pub fn last_line(output: &Output) -> String {
    printed(output).lines().last().unwrap_or("").to_string()
}
