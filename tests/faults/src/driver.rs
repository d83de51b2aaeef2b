
/// How a copy answers to a text, and to a base and a job.
type Copy = (fn(&[u8]) -> String, fn(&[u8], &[u8]) -> String);

/// Prints the answer of one of the copies to each text of a corpus and then to
/// each pair, on one line: the answer's lines with a comma between them, or
/// "panic" where the copy panics.
fn main() {
    std::panic::set_hook(Box::new(|_| {}));
    let arguments: Vec<String> = std::env::args().collect();
    let (check, check_job) = COPIES[arguments[1].parse::<usize>().expect("a number")];
    for text in texts(&arguments[2]) {
        print(std::panic::catch_unwind(|| check(&text)));
    }
    for pair in texts(&arguments[3]).chunks(2) {
        print(std::panic::catch_unwind(|| check_job(&pair[0], &pair[1])));
    }
}

/// The texts of a file, each behind its length.
fn texts(file: &str) -> Vec<Vec<u8>> {
    let file = std::fs::read(file).expect("a corpus");
    let mut texts = Vec::new();
    let mut rest = &file[..];
    while let Some((length, behind)) = rest.split_first_chunk::<4>() {
        let (text, behind) = behind.split_at(u32::from_le_bytes(*length) as usize);
        texts.push(text.to_vec());
        rest = behind;
    }
    texts
}

fn print(answer: std::thread::Result<String>) {
    match answer {
        Ok(answer) => println!("{}", answer.replace('\n', ", ")),
        Err(_) => println!("panic"),
    }
}
