//! Where the figures come from: the processor and the commit.

use std::fs;
use std::process::Command;

pub fn description() -> String {
    format!("CPU: {}; commit: {}", processor(), commit())
}

fn processor() -> String {
    let unknown = "unknown".to_string();
    let Ok(info) = fs::read_to_string("/proc/cpuinfo") else {
        return unknown;
    };
    let model = info.lines().find(|line| line.starts_with("model name"));
    let name = model.and_then(|line| line.split_once(": "));
    name.map_or(unknown, |(_, name)| name.to_string())
}

/// The commit, and whether files differ from it.
fn commit() -> String {
    let git = |words: &[&str]| {
        let folder = env!("CARGO_MANIFEST_DIR");
        let output = Command::new("git")
            .arg("-C")
            .arg(folder)
            .args(words)
            .output();
        output.ok().filter(|output| output.status.success())
    };
    let Some(head) = git(&["rev-parse", "--short", "HEAD"]) else {
        return "unknown".into();
    };
    let changed = git(&["status", "--porcelain"]).is_some_and(|output| !output.stdout.is_empty());
    let name = String::from_utf8_lossy(&head.stdout).trim().to_string();
    name + if changed { ", changed" } else { "" }
}
