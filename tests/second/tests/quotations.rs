//! Every quotation in the comments of this package stands in `docs/TEXT-FORM.md`,
//! in the statement whose number was named last before it.

use std::collections::HashMap;
use std::fs;
use std::path::Path;

/// The text with one space for each run of white space.
fn on_one_line(text: &str) -> String {
    text.split_whitespace().collect::<Vec<_>>().join(" ")
}

/// What each statement of the page says, by its number.
fn statements(page: &str) -> HashMap<&str, String> {
    let pieces: Vec<_> = page.split("**").skip(1).collect();
    (pieces.chunks(2))
        .map(|pair| (pair[0], on_one_line(pair[1])))
        .collect()
}

/// The comments of a source, lines that follow each other taken together.
fn comments(source: &str) -> Vec<String> {
    let mut comments = vec![String::new()];
    for line in source.lines().map(str::trim_start) {
        match line.strip_prefix("//") {
            Some(words) => {
                let words = words.trim_start_matches(['/', '!']);
                comments.last_mut().unwrap().push_str(words);
            }
            None => comments.push(String::new()),
        }
    }
    comments
}

/// The last word that is a letter and a number.
fn last_number(words: &str) -> Option<&str> {
    let words = words.split(|c: char| !c.is_ascii_alphanumeric());
    words.rev().find(|word| {
        let digits = word.strip_prefix(|c: char| c.is_ascii_uppercase());
        digits.is_some_and(|digits| digits.parse::<u32>().is_ok())
    })
}

/// Holds a comment's quotations to the statements, and counts them.
fn quotations(comment: &str, statements: &HashMap<&str, String>) -> usize {
    let pieces: Vec<_> = comment.split('"').collect();
    let mut number = None;
    for pair in pieces.chunks_exact(2) {
        number = last_number(pair[0]).or(number);
        let said = number.and_then(|number| statements.get(number));
        let quoted = on_one_line(pair[1]);
        assert!(
            said.is_some_and(|said| said.contains(&quoted)),
            "{number:?} doesn't say \"{quoted}\""
        );
    }
    pieces.len() / 2
}

#[test]
fn quotations_are_the_statements_words() {
    let package = Path::new(env!("CARGO_MANIFEST_DIR"));
    let page = fs::read_to_string(package.join("../../docs/TEXT-FORM.md")).unwrap();
    let statements = statements(&page);
    let mut count = 0;
    for folder in ["src", "src/bin", "src/generate", "tests"] {
        for entry in fs::read_dir(package.join(folder)).unwrap() {
            let path = entry.unwrap().path();
            if path.extension().is_some_and(|extension| extension == "rs") {
                let source = fs::read_to_string(path).unwrap();
                let held = comments(&source)
                    .iter()
                    .map(|c| quotations(c, &statements))
                    .sum::<usize>();
                count += held;
            }
        }
    }
    assert!(count > 50, "{count} quotations");
}
