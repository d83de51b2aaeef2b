//! Makes the stored corpus.

use std::fs;
use std::path::Path;
use std::process::ExitCode;

use compare::corpus::Corpus;
use compare::pairs::Pairs;

const USAGE: &str = "\
usage: corpus OUT_DIR   writes data/corpus.bin, data/pairs.bin and stdout of OUT_DIR";

fn main() -> ExitCode {
    let arguments: Vec<String> = std::env::args().skip(1).collect();
    let result = match &arguments[..] {
        [folder] => make(Path::new(folder)),
        _ => Err(USAGE.into()),
    };
    match result {
        Ok(()) => ExitCode::SUCCESS,
        Err(message) => {
            eprintln!("corpus: {message}");
            ExitCode::FAILURE
        }
    }
}

fn make(folder: &Path) -> Result<(), String> {
    let examples = Path::new(env!("CARGO_MANIFEST_DIR")).join("../../examples");
    let tell = |error| format!("{}: {error}", examples.display());
    let corpus = Corpus::make(&examples).map_err(tell)?;
    let pairs = Pairs::make(&examples).map_err(tell)?;
    let missing = [corpus.missing(), pairs.missing()].concat();
    if !missing.is_empty() {
        return Err(missing.join("\n"));
    }
    let (texts_file, pairs_file) = (corpus.file(), pairs.file());
    let answers = [corpus.answers(), pairs.answers()].concat();
    let write = |name: &str, bytes: &[u8]| {
        let path = folder.join(name);
        let parent = path.parent().unwrap_or(folder);
        let written = fs::create_dir_all(parent).and_then(|()| fs::write(&path, bytes));
        written.map_err(|error| format!("{}: {error}", path.display()))
    };
    write("data/corpus.bin", &texts_file)?;
    write("data/pairs.bin", &pairs_file)?;
    write("stdout", &answers)?;
    println!(
        "{} texts, data/corpus.bin {} bytes; {} pairs, data/pairs.bin {} bytes; stdout {} bytes",
        corpus.texts().len(),
        texts_file.len(),
        pairs.pairs().len(),
        pairs_file.len(),
        answers.len()
    );
    print!("{}{}{}", corpus.coverage, corpus.limits(), pairs.sides);
    Ok(())
}
