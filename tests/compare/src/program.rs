//! Runs the checker that is held against the second one.

use std::ffi::OsStr;
use std::fs::{self, File};
use std::io::{self, Read, Write};
use std::path::{Path, PathBuf};
use std::process::{self, Child, Command, ExitStatus, Stdio};
use std::sync::atomic::{AtomicU64, Ordering};
use std::sync::mpsc;
use std::time::{Duration, Instant};
use std::{env, thread};

/// So much of an output is read; an answer is shorter.
const ENOUGH: u64 = 4_096;
/// How long a program that has closed its output is left before it is looked
/// at again.
const PAUSE: Duration = Duration::from_micros(50);

/// The program, which reads a text on standard input, or the job to a base that
/// is named as its only argument, and prints the answer.
#[derive(Clone, Debug)]
pub struct Program {
    path: PathBuf,
    /// How long it may take for a text.
    limit: Duration,
    /// Whether its exit status tells the answer: 0 accepted, 1 refused, 2 a
    /// failed read. Otherwise it is always 0.
    tells: bool,
}

/// What a run of the program gave.
struct Output {
    answer: Vec<u8>,
    message: Vec<u8>,
    status: ExitStatus,
}

impl Program {
    /// Fails if there is no such file. A path without a slash is a file of
    /// the current folder and not a command to look for.
    pub fn new(path: &str, limit: Duration, tells: bool) -> io::Result<Self> {
        let path = Path::new(path).canonicalize()?;
        Ok(Program { path, limit, tells })
    }

    /// What the program prints on a text, or how it failed.
    fn answer(&self, arguments: &[&OsStr], text: &[u8]) -> io::Result<Vec<u8>> {
        let mut child = self.spawn(arguments, Stdio::piped())?;
        let mut input = child.stdin.take();
        let text = text.to_vec();
        // The program may stop reading before the text's end.
        let output = self.output(child, move || match &mut input {
            Some(input) => input.write_all(&text),
            None => Ok(()),
        })?;
        let refused = self.tells && output.answer.starts_with(b"refused ");
        if output.status.code() != Some(i32::from(refused)) || !output.message.is_empty() {
            return Err(output.failure());
        }
        Ok(output.answer)
    }

    /// The answer to a text, with a failure told in its place.
    pub fn answer_or_failure(&self, text: &[u8]) -> Vec<u8> {
        self.told(&[], text)
    }

    /// The answer to a base, which this file has, and a job, with a failure told
    /// in its place.
    pub fn job_answer_or_failure(&self, base: &Path, job: &[u8]) -> Vec<u8> {
        self.told(&[base.as_os_str()], job)
    }

    /// The same, with the base written to a file for the time of the run.
    pub fn pair_answer_or_failure(&self, base: &[u8], job: &[u8]) -> Vec<u8> {
        static NUMBER: AtomicU64 = AtomicU64::new(0);
        let number = NUMBER.fetch_add(1, Ordering::Relaxed);
        let name = format!("compare-base-{}-{number}", process::id());
        let file = env::temp_dir().join(name);
        if let Err(error) = fs::write(&file, base) {
            return format!("failed: {}: {error}", file.display()).into_bytes();
        }
        let answer = self.job_answer_or_failure(&file, job);
        let _ = fs::remove_file(&file);
        answer
    }

    fn told(&self, arguments: &[&OsStr], text: &[u8]) -> Vec<u8> {
        match self.answer(arguments, text) {
            Ok(answer) => answer,
            Err(error) => format!("failed: {error}").into_bytes(),
        }
    }

    /// Holds the program to what it does where standard input can't be read: it
    /// tells a failure. A folder can be opened and not read.
    pub fn tells_failed_read(&self, base: Option<&Path>) -> io::Result<()> {
        let folder = File::open("/")?;
        let arguments: Vec<&OsStr> = base.into_iter().map(Path::as_os_str).collect();
        self.tells_failure(self.spawn(&arguments, folder.into())?)
    }

    /// The same where the shell closes standard input or output, by `<&-` or
    /// `>&-`.
    pub fn tells_closed(&self, closing: &str, base: Option<&Path>) -> io::Result<()> {
        let mut shell = Command::new("sh");
        let commands = format!("exec \"$@\" {closing}");
        shell
            .args(["-c", &commands, "sh"])
            .arg(&self.path)
            .args(base);
        self.tells_failure(piped(&mut shell, Stdio::null()).spawn()?)
    }

    /// The same for arguments with which it can't do anything.
    pub fn tells_wrong_arguments(&self, arguments: &[&Path]) -> io::Result<()> {
        let arguments: Vec<&OsStr> = arguments.iter().map(|path| path.as_os_str()).collect();
        self.tells_failure(self.spawn(&arguments, Stdio::null())?)
    }

    /// A message on standard error, no answer, and the exit status where that
    /// tells.
    fn tells_failure(&self, child: Child) -> io::Result<()> {
        let output = self.output(child, || Ok(()))?;
        let told = output.answer.is_empty() && !output.message.is_empty();
        if !told || (self.tells && output.status.code() != Some(2)) {
            return Err(output.failure());
        }
        Ok(())
    }

    /// Holds the program to what it prints for an argument that asks for it: on
    /// standard output, and beginning so.
    pub fn prints(&self, argument: &str, start: &str) -> io::Result<()> {
        let child = self.spawn(&[OsStr::new(argument)], Stdio::null())?;
        let output = self.output(child, || Ok(()))?;
        let said = output.answer.starts_with(start.as_bytes()) && output.answer.ends_with(b"\n");
        if !said || !output.message.is_empty() || !output.status.success() {
            return Err(output.failure());
        }
        Ok(())
    }

    /// Holds the program to what it says of arguments with which it can't do
    /// anything: one line, behind its name.
    pub fn complains(&self, arguments: &[&str]) -> io::Result<()> {
        let arguments: Vec<&OsStr> = arguments.iter().map(OsStr::new).collect();
        let output = self.output(self.spawn(&arguments, Stdio::null())?, || Ok(()))?;
        let message = String::from_utf8_lossy(&output.message);
        let said = message.starts_with(&format!("{}: ", self.name())) && message.ends_with('\n');
        if !said || message.lines().count() != 1 || !output.answer.is_empty() {
            return Err(output.failure());
        }
        Ok(())
    }

    /// The file's name.
    pub fn name(&self) -> String {
        let name = self.path.file_name().unwrap_or_default();
        name.to_string_lossy().into_owned()
    }

    /// Whether its exit status tells the answer.
    pub fn tells(&self) -> bool {
        self.tells
    }

    fn spawn(&self, arguments: &[&OsStr], input: Stdio) -> io::Result<Child> {
        let mut program = Command::new(&self.path);
        piped(program.args(arguments), input).spawn()
    }

    /// Gives the program its input, in a thread of its own, and waits for what
    /// it prints. It is ended where it takes too long.
    fn output(
        &self,
        mut child: Child,
        feed: impl FnOnce() -> io::Result<()> + Send + 'static,
    ) -> io::Result<Output> {
        let end = Instant::now() + self.limit;
        let (sender, receiver) = mpsc::channel();
        let (answer, message) = (child.stdout.take(), child.stderr.take());
        thread::spawn(move || sender.send(feed_and_read(feed, answer, message)));
        let read = receiver.recv_timeout(self.limit);
        let status = match &read {
            Ok(_) => wait(&mut child, end)?,
            Err(_) => None,
        };
        let (Ok(read), Some(status)) = (read, status) else {
            child.kill()?;
            child.wait()?;
            let seconds = self.limit.as_secs_f32();
            return Err(io::Error::other(format!(
                "no answer within {seconds} seconds"
            )));
        };
        let (answer, message) = read?;
        Ok(Output {
            answer,
            message,
            status,
        })
    }
}

impl Output {
    /// What went wrong, in words.
    fn failure(&self) -> io::Error {
        let message = String::from_utf8_lossy(&self.message);
        io::Error::other(format!("{}: {}", self.status, message.trim_end()))
    }
}

/// The command with this input, and with both outputs to be read.
fn piped(command: &mut Command, input: Stdio) -> &mut Command {
    let outputs = command.stdout(Stdio::piped()).stderr(Stdio::piped());
    outputs.stdin(input)
}

/// Feeds the program and reads what it prints on both outputs.
fn feed_and_read(
    feed: impl FnOnce() -> io::Result<()>,
    answer: Option<impl Read>,
    message: Option<impl Read>,
) -> io::Result<(Vec<u8>, Vec<u8>)> {
    match feed() {
        Err(error) if error.kind() != io::ErrorKind::BrokenPipe => return Err(error),
        _ => {}
    }
    Ok((read_some(answer)?, read_some(message)?))
}

fn read_some(output: Option<impl Read>) -> io::Result<Vec<u8>> {
    let mut bytes = Vec::new();
    if let Some(output) = output {
        output.take(ENOUGH).read_to_end(&mut bytes)?;
    }
    Ok(bytes)
}

/// Waits for the end of a program until a time.
fn wait(child: &mut Child, end: Instant) -> io::Result<Option<ExitStatus>> {
    loop {
        let status = child.try_wait()?;
        if status.is_some() || Instant::now() > end {
            return Ok(status);
        }
        thread::sleep(PAUSE);
    }
}
