//! Holds a checker, run as a program, against expected answers.
//!
//! * [`program`]: runs the program on one text;
//! * [`examples`]: texts in a folder, each with its expected answer beside it;
//! * [`generated`]: generated texts, whose answers come from the second checker;
//! * [`coverage`]: what a set of texts covers;
//! * [`sides`]: what a set of pairs of a base and a job covers;
//! * [`corpus`], [`pairs`]: the stored corpus, its texts and its pairs;
//! * [`made`]: those of them that are made for an answer.

pub mod corpus;
pub mod coverage;
pub mod examples;
pub mod generated;
pub mod made;
pub mod pairs;
pub mod program;
pub mod sides;

/// What the second checker answers, as it is printed.
pub fn second_answer(text: &[u8]) -> Vec<u8> {
    printed(&second::check(text))
}

/// An answer as it is printed: its lines, each with its line end.
pub fn printed(answer: &second::Answer) -> Vec<u8> {
    format!("{answer}\n").into_bytes()
}

/// An answer as it is shown to people: its lines with a comma between them, or
/// with every byte visible if they aren't plain lines, each with its line end.
pub fn shown(answer: &[u8]) -> String {
    let bare = answer.strip_suffix(b"\n").unwrap_or(b"");
    let mut lines = bare.split(|&byte| byte == b'\n');
    let plain = |byte: &u8| byte.is_ascii_graphic() || *byte == b' ';
    if lines.all(|line| !line.is_empty() && line.iter().all(plain)) {
        String::from_utf8_lossy(bare).replace('\n', ", ")
    } else {
        format!("{:?}", String::from_utf8_lossy(answer))
    }
}
