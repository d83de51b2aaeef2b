//! Holds a checker, run as a program, against the second checker.

use std::fmt::Display;
use std::fs::File;
use std::io::{self, Read, Write};
use std::path::{Path, PathBuf};
use std::process::ExitCode;
use std::time::Duration;

use compare::examples::{read_examples, read_job_examples, write_example, write_job, Example};
use compare::generated::{self, Case, Difference, Run};
use compare::program::Program;
use compare::{printed, second_answer, shown};
use second::generate::pairs::{pair, Pair};
use second::generate::{sample, Sample};

const USAGE: &str = "\
usage: compare [--status] FCHECK COUNT SEED [KEEP_DIR]   the texts of COUNT seeds from SEED on
       compare [--status] FCHECK --examples DIR   the texts DIR/*.flogic, against DIR/*.answer
       compare [--status] FJOB --jobs COUNT SEED [KEEP_DIR]   the pairs of COUNT seeds
       compare [--status] FJOB --job-examples DIR   the jobs DIR/*/*.flogic to DIR/*/base.flogic
       compare PROGRAM --arguments   its help, its version, and its message for other arguments
       compare --second [BASE]   the second checker itself, on standard input
FCHECK is a program that reads a text on standard input and prints its answer; FJOB one that reads
a base from the file that is named and its job on standard input. With --status the exit status is
0 where the text is accepted, 1 where it is refused and 2 where something can't be read; without,
it is 0 after every text. The texts of the first differences are kept in KEEP_DIR (target/compare).";

/// Where texts are kept.
const KEEP: &str = "target/compare";
/// How many differences are printed and kept.
const SHOWN: usize = 10;
/// How many texts are run at a time.
const WORKERS: usize = 2;
/// How long the generator and the program each may take for a text.
const LIMIT: Duration = Duration::from_secs(10);

/// How many texts passed and how many failed.
#[derive(Default)]
struct Count {
    passed: u64,
    failed: u64,
}

fn main() -> ExitCode {
    let arguments: Vec<String> = std::env::args().skip(1).collect();
    match run(&arguments) {
        Ok(None) => ExitCode::SUCCESS,
        Ok(Some(count)) => {
            println!("{} passed, {} failed", count.passed, count.failed);
            ExitCode::from(u8::from(count.failed > 0))
        }
        Err(message) => {
            eprintln!("compare: {message}");
            ExitCode::from(2)
        }
    }
}

fn run(arguments: &[String]) -> Result<Option<Count>, String> {
    let arguments: Vec<&str> = arguments.iter().map(String::as_str).collect();
    let tell = |error: io::Error| error.to_string();
    let (tells, arguments) = match &arguments[..] {
        ["--status", rest @ ..] => (true, rest),
        rest => (false, rest),
    };
    let count = match *arguments {
        ["--second"] => return second(None).map_err(tell).map(|()| None),
        ["--second", base] => return second(Some(base)).map_err(tell).map(|()| None),
        [program, "--examples", folder] | ["--examples", folder, program] => {
            run_examples(&open(program, tells)?, Path::new(folder))
        }
        [program, "--job-examples", folder] => {
            run_job_examples(&open(program, tells)?, Path::new(folder))
        }
        [program, "--arguments"] => Ok(run_arguments(&open(program, tells)?)),
        [program, "--jobs", count, seed] => {
            let program = open(program, tells)?;
            run_generated(&PAIRS, program, number(count)?, number(seed)?, KEEP)
        }
        [program, "--jobs", count, seed, keep] => {
            let program = open(program, tells)?;
            run_generated(&PAIRS, program, number(count)?, number(seed)?, keep)
        }
        [program, count, seed] => {
            let program = open(program, tells)?;
            run_generated(&TEXTS, program, number(count)?, number(seed)?, KEEP)
        }
        [program, count, seed, keep] => {
            let program = open(program, tells)?;
            run_generated(&TEXTS, program, number(count)?, number(seed)?, keep)
        }
        _ => return Err(USAGE.into()),
    };
    count.map(Some).map_err(tell)
}

fn open(program: &str, tells: bool) -> Result<Program, String> {
    let opened = Program::new(program, LIMIT, tells);
    opened.map_err(|error| format!("{program}: {error}"))
}

fn number(argument: &str) -> Result<u64, String> {
    let number = argument.parse();
    number.map_err(|error| format!("{argument}: {error}\n{USAGE}"))
}

/// The second checker as a program, to try this one on.
fn second(base: Option<&str>) -> io::Result<()> {
    let answer = match base {
        None => second_answer(&some(io::stdin())?),
        Some(base) => {
            let base = some(File::open(base)?)?;
            printed(&second::check_job(&base, &some(io::stdin())?))
        }
    };
    io::stdout().write_all(&answer)
}

/// One byte above the limit is enough to see that a text has too many.
fn some(input: impl Read) -> io::Result<Vec<u8>> {
    let mut text = Vec::new();
    let enough = second::MAX_BYTES as u64 + 1;
    input.take(enough).read_to_end(&mut text)?;
    Ok(text)
}

/// What is generated: how it is made, run and kept.
struct Kind<C> {
    make: fn(u64) -> C,
    run: fn(&Program, &C) -> Vec<u8>,
    keep: fn(&Path, &Difference) -> io::Result<PathBuf>,
}

const TEXTS: Kind<Sample> = Kind {
    make: sample,
    run: |program, sample| program.answer_or_failure(&sample.text),
    keep: |folder, difference| {
        let example = Example {
            name: format!("seed-{}", difference.seed),
            text: sample(difference.seed).text,
            expected: difference.second.clone(),
        };
        write_example(folder, &example)
    },
};

const PAIRS: Kind<Pair> = Kind {
    make: pair,
    run: |program, pair| program.pair_answer_or_failure(&pair.base, &pair.job),
    keep: |folder, difference| {
        let Pair { base, job, .. } = pair(difference.seed);
        let folder = folder.join(format!("pair-{}", difference.seed));
        write_job(&folder, &base, &job, &difference.second)
    },
};

fn run_generated<C>(
    kind: &Kind<C>,
    program: Program,
    count: u64,
    seed: u64,
    keep: &str,
) -> io::Result<Count>
where
    C: Case<Coverage: Display>,
{
    if count == 0 {
        return Err(io::Error::other("nothing to run"));
    }
    println!("seeds {seed} to {}", seed.wrapping_add(count - 1));
    let options = Run {
        seed,
        count,
        workers: WORKERS,
        limit: LIMIT,
    };
    let run = kind.run;
    let answer = move |case: &C| run(&program, case);
    let outcome = generated::compare(kind.make, answer, options);
    for difference in outcome.differences.iter().take(SHOWN) {
        let path = (kind.keep)(Path::new(keep), difference)?;
        print_difference(difference, &path);
    }
    print!("{}", outcome.coverage);
    if let Some(seed) = outcome.late {
        let seconds = LIMIT.as_secs();
        println!("seed {seed}: not made and checked within {seconds} seconds; the run ends here");
    }
    // A text that wasn't run has failed.
    let passed = outcome.texts - outcome.differences.len() as u64;
    let failed = count - passed;
    Ok(Count { passed, failed })
}

fn print_difference(difference: &Difference, path: &Path) {
    println!("seed {}: {}", difference.seed, path.display());
    println!("  program:   {}", shown(&difference.program));
    println!("  second:    {}", shown(&difference.second));
    if let Some(expected) = &difference.expected {
        println!("  generator: {}", shown(expected));
    }
}

/// What the program prints for the arguments that ask for its help and its
/// version, and what it says of both together and of a file that isn't there.
fn run_arguments(program: &Program) -> Count {
    let name = program.name();
    let mut count = Count::default();
    let help = format!("usage: {name} ");
    count.add_failure("--help", program.prints("--help", &help));
    let version = format!("{name} 0.");
    count.add_failure("--version", program.prints("--version", &version));
    let both = ["--help", "--version"];
    count.add_failure("two arguments", program.complains(&both));
    count.add_failure("./--help", program.complains(&["./--help"]));
    count
}

/// Each example's expected answer must be the second checker's too. A failed
/// read and closed ends are more.
fn run_examples(program: &Program, folder: &Path) -> io::Result<Count> {
    let mut count = Count::default();
    for example in read_examples(folder)? {
        let answer = program.answer_or_failure(&example.text);
        let second = second_answer(&example.text);
        count.add_example(&example.name, &example.expected, &answer, &second);
    }
    count.add_failures(program, None);
    Ok(count)
}

/// The same for jobs. A base that isn't there, one that can't be read and wrong
/// numbers of arguments are others; without its base a program whose exit status
/// tells reads a text.
fn run_job_examples(program: &Program, folder: &Path) -> io::Result<Count> {
    let mut count = Count::default();
    let examples = read_job_examples(folder)?;
    for example in &examples {
        let answer = program.job_answer_or_failure(&example.base_path, &example.job);
        let second = printed(&second::check_job(&example.base, &example.job));
        count.add_example(&example.name, &example.expected, &answer, &second);
    }
    let base = examples[0].base_path.as_path();
    count.add_failures(program, Some(base));
    let missing = folder.join("no-such-folder/base.flogic");
    let wrong: [(&str, &[&Path]); 4] = [
        ("a base that isn't there", &[&missing]),
        ("a base that can't be read", &[folder]),
        ("two bases", &[base, base]),
        ("no base", &[]),
    ];
    let most = if program.tells() { 3 } else { 4 };
    for (what, arguments) in &wrong[..most] {
        count.add_failure(what, program.tells_wrong_arguments(arguments));
    }
    Ok(count)
}

impl Count {
    /// Counts an example, and prints it where it fails.
    fn add_example(&mut self, name: &str, expected: &[u8], answer: &[u8], second: &[u8]) {
        if answer == expected && second == expected {
            self.passed += 1;
            return;
        }
        self.failed += 1;
        println!("{name}");
        println!("  expected: {}", shown(expected));
        println!("  program:  {}", shown(answer));
        println!("  second:   {}", shown(second));
    }

    /// Standard input that can't be read, and either end closed.
    fn add_failures(&mut self, program: &Program, base: Option<&Path>) {
        let read = program.tells_failed_read(base);
        self.add_failure("standard input that can't be read", read);
        for (what, closing) in [
            ("standard input that is closed", "<&-"),
            ("standard output that is closed", ">&-"),
        ] {
            self.add_failure(what, program.tells_closed(closing, base));
        }
    }

    /// Counts a failure that the program has to tell, and prints it where it
    /// doesn't.
    fn add_failure(&mut self, what: &str, told: io::Result<()>) {
        match told {
            Ok(()) => self.passed += 1,
            Err(error) => {
                self.failed += 1;
                println!("{what}");
                println!("  program:  {error}");
            }
        }
    }
}
