//! Runs each check of a file once, for callgrind.

#[path = "../run.rs"]
mod run;

fn main() {
    run::each(|check| check());
}
