//! A process of the program.
use crate::reply::{self, Progress, Published, Record, Reply, Stats, Versions};
use crate::text::{is_separator, is_silent, words};
use crate::{Error, Result};
use std::ffi::{OsStr, OsString};
use std::fmt::{Display, Write as _};
use std::io::{BufRead, BufReader, Write};
use std::process::{Child, ChildStdin, ChildStdout, Command, Stdio};
use std::time::{Duration, Instant};

/// A line of no form. Its reply shows the end of what was written before it.
const MARK: &str = ".";
const MARKED: &str = "refused line";
/// What a process is given to end, when its input is closed.
const PATIENCE: Duration = Duration::from_secs(10);

/// The program to run: what PERSIST names, or else `persist`, which is looked for on the PATH.
pub fn program_path() -> OsString {
    std::env::var_os("PERSIST").filter(|it| !it.is_empty()).unwrap_or_else(|| "persist".into())
}

/// A process of the program, with the history that it was given so far. When it is let go of, the process ends.
#[derive(Debug)]
pub struct Session {
    child: Child,
    /// None when the input was closed.
    input: Option<ChildStdin>,
    output: BufReader<ChildStdout>,
    /// Whether it began with an image.
    is_served: bool,
}

impl Session {
    /// Starts a process on a program text; `path` is the file of the program, such as `program_path()`.
    pub fn start(path: impl AsRef<OsStr>, program: &str) -> Result<Session> {
        if program.lines().any(is_separator) {
            return Err(Error::WrongText("the program has a separator line, which split_input takes out"));
        }
        let mut session = Session::begin(path, "run")?;
        let end = if program.is_empty() || program.ends_with('\n') { "" } else { "\n" };
        // An accepted program writes nothing, so the reply to a line of no form tells that it was accepted.
        session.send(&format!("{program}{end}%%\n{MARK}\n"))?;
        let first = session.line()?;
        if first == MARKED { Ok(session) } else { Err(Error::of_program(&first, program)) }
    }

    /// Starts a process on an image. Such a session also has `dump` and `changed`.
    pub fn behind(path: impl AsRef<OsStr>, image: &[u8]) -> Result<Session> {
        let length = image_length(image);
        if length.is_some_and(|it| it < image.len()) {
            return Err(Error::WrongText("something stands behind the image"));
        }
        let mut session = Session::begin(path, "serve")?;
        session.is_served = true;
        session.put(image)?;
        match length {
            Some(_) => session.send(&format!("{MARK}\n"))?,
            // It is cut off, and would take what follows for the rest.
            None => session.input = None,
        }
        let first = session.line()?;
        match first.strip_prefix("refused image ").and_then(|it| it.parse().ok()) {
            Some(rule) => Err(Error::ImageRefused(rule)),
            None if first == MARKED => Ok(session),
            None => Err(Error::UnknownReply(first)),
        }
    }

    fn begin(path: impl AsRef<OsStr>, word: &str) -> Result<Session> {
        let mut child = Command::new(path).arg(word).stdin(Stdio::piped()).stdout(Stdio::piped()).spawn()?;
        let (input, output) = (child.stdin.take(), child.stdout.take().expect("it was asked for"));
        Ok(Session { child, input, output: BufReader::new(output), is_served: false })
    }

    /// The number of the process.
    pub fn id(&self) -> u32 {
        self.child.id()
    }

    /// Closes the input, and waits for the end; the status, or none where a signal ended it.
    pub fn end(mut self) -> Result<Option<i32>> {
        self.wait()
    }

    fn wait(&mut self) -> Result<Option<i32>> {
        self.input = None;
        let until = Instant::now() + PATIENCE;
        while Instant::now() < until {
            if let Some(status) = self.child.try_wait()? {
                return Ok(status.code());
            }
            std::thread::sleep(Duration::from_millis(2));
        }
        self.child.kill()?;
        Ok(self.child.wait()?.code())
    }

    fn send(&mut self, text: &str) -> Result<()> {
        self.put(text.as_bytes())
    }

    fn put(&mut self, data: &[u8]) -> Result<()> {
        if let Some(input) = &mut self.input {
            // Where the process has ended, what it wrote before can still be read; and then its end is met.
            match input.write_all(data) {
                Err(error) if error.kind() != std::io::ErrorKind::BrokenPipe => return Err(error.into()),
                _ => (),
            }
        }
        Ok(())
    }

    /// The next line that the process writes.
    fn line(&mut self) -> Result<String> {
        let mut line = vec![];
        self.output.read_until(b'\n', &mut line)?;
        if line.pop() != Some(b'\n') {
            return Err(Error::Ended(self.wait()?));
        }
        String::from_utf8(line).map_err(|error| Error::UnknownReply(error.to_string()))
    }

    /// Sends a line of the script, and gives the reply to it; none where it has none, and is not sent. Traps and refusals are replies.
    pub fn command(&mut self, line: &str) -> Result<Option<Reply>> {
        if line.contains('\n') {
            return Err(Error::WrongText("a command is one line"));
        }
        if is_silent(line) {
            return Ok(None);
        }
        let mut given = words(line);
        let first = given.next().unwrap_or_default();
        if first == "versions" && given.next().is_none() {
            // A list of versions has no last line of its own, so a mark is sent behind it.
            self.send(&format!("{line}\n{MARK}\n"))?;
            let mut lines = vec![];
            loop {
                match self.line()? {
                    it if it == MARKED => return reply::read_versions(&lines).map(Some),
                    it => lines.push(it),
                }
            }
        }
        self.send(&format!("{line}\n"))?;
        let mut last = self.line()?;
        if first == "dump" {
            let mut records = vec![];
            while let Some(record) = reply::record(&last) {
                records.push(record?);
                last = self.line()?;
            }
            return if last == "ok" { Ok(Some(Reply::Dump(records))) } else { reply::read(first, vec![], &last).map(Some) };
        }
        let mut printed = vec![];
        while let Some(number) = reply::printed(&last) {
            printed.push(number?);
            last = self.line()?;
        }
        reply::read(first, printed, &last).map(Some)
    }

    /// Sends a command with its words; traps and refusals are errors.
    fn must(&mut self, command: &str, name: &str, arguments: &[&dyn Display]) -> Result<Reply> {
        if name.bytes().any(|byte| byte.is_ascii_whitespace()) {
            return Err(Error::WrongText("a name is one word"));
        }
        let mut line = command.to_string();
        for argument in arguments {
            write!(line, " {argument}").expect("a String takes all");
        }
        match self.command(&line)? {
            Some(Reply::Trapped(trap)) => Err(Error::Trapped(trap)),
            Some(Reply::Refused(kind)) => Err(Error::Refused(kind)),
            Some(reply) => Ok(reply),
            None => Err(Error::WrongText("a command has a word")),
        }
    }

    /// Runs a procedure on a version.
    pub fn run(&mut self, version: u32, procedure: &str, arguments: &[i64]) -> Result<Published> {
        match self.must("run", procedure, &call(&version, &procedure, arguments))? {
            Reply::Published(it) => Ok(it),
            other => Err(Error::UnknownReply(other.to_string())),
        }
    }

    /// Asks a version; the numbers that the query printed.
    pub fn query(&mut self, version: u32, query: &str, arguments: &[i64]) -> Result<Vec<i64>> {
        match self.must("query", query, &call(&version, &query, arguments))? {
            Reply::Answer(printed) => Ok(printed),
            other => Err(Error::UnknownReply(other.to_string())),
        }
    }

    /// Opens a run on a version, with no call; its number.
    pub fn open(&mut self, version: u32) -> Result<u32> {
        match self.must("open", "", &[&version])? {
            Reply::Opened(run) => Ok(run),
            other => Err(Error::UnknownReply(other.to_string())),
        }
    }

    /// Adds a call to an open run.
    pub fn call(&mut self, run: u32, procedure: &str, arguments: &[i64]) -> Result<Progress> {
        match self.must("call", procedure, &call(&run, &procedure, arguments))? {
            Reply::Went(_, progress) => Ok(progress),
            other => Err(Error::UnknownReply(other.to_string())),
        }
    }

    /// Grants an open run so many more charges.
    pub fn step(&mut self, run: u32, charges: u64) -> Result<Progress> {
        match self.must("step", "", &[&run, &charges])? {
            Reply::Went(_, progress) => Ok(progress),
            other => Err(Error::UnknownReply(other.to_string())),
        }
    }

    /// Carries an open run to its end and publishes it. The session itself is ended by `end`.
    pub fn close(&mut self, run: u32) -> Result<Published> {
        match self.must("close", "", &[&run])? {
            Reply::Published(it) => Ok(it),
            other => Err(Error::UnknownReply(other.to_string())),
        }
    }

    /// Gives an open run up (`drop`).
    pub fn drop_run(&mut self, run: u32) -> Result<()> {
        self.must("drop", "", &[&run]).map(|_| ())
    }

    /// Sets the charges that later runs and queries may take.
    pub fn budget(&mut self, charges: u64) -> Result<()> {
        self.must("budget", "", &[&charges]).map(|_| ())
    }

    /// The version tree.
    pub fn versions(&mut self) -> Result<Versions> {
        match self.must("versions", "", &[])? {
            Reply::Versions(it) => Ok(it),
            other => Err(Error::UnknownReply(other.to_string())),
        }
    }

    /// The records of a version that its roots lead to. Behind an image alone.
    pub fn dump(&mut self, version: u32) -> Result<Vec<Record>> {
        self.must_be_served()?;
        match self.must("dump", "", &[&version])? {
            Reply::Dump(it) => Ok(it),
            other => Err(Error::UnknownReply(other.to_string())),
        }
    }

    /// The version, on the way from this one to version 0, that changed what a path such as `first.next.key` reads. Behind an image alone.
    pub fn changed(&mut self, version: u32, path: &str) -> Result<Option<u32>> {
        self.must_be_served()?;
        match self.must("changed", path, &[&version, &path])? {
            Reply::Changed(it) => Ok(it),
            other => Err(Error::UnknownReply(other.to_string())),
        }
    }

    fn must_be_served(&self) -> Result<()> {
        if self.is_served { Ok(()) } else { Err(Error::WrongText("dump and changed are answered behind an image alone")) }
    }

    /// What all runs made and wrote.
    pub fn stats(&mut self) -> Result<Stats> {
        match self.must("stats", "", &[])? {
            Reply::Stats(it) => Ok(it),
            other => Err(Error::UnknownReply(other.to_string())),
        }
    }
}

impl Drop for Session {
    fn drop(&mut self) {
        let _ = self.wait();
    }
}

/// The words of a call of a procedure: a version or run, the name, and the arguments.
fn call<'a>(number: &'a u32, name: &'a dyn Display, arguments: &'a [i64]) -> Vec<&'a dyn Display> {
    let mut words: Vec<&dyn Display> = vec![number, name];
    words.extend(arguments.iter().map(|it| it as &dyn Display));
    words
}

/// How many bytes an image has by its sizes; none where they promise more than there is.
fn image_length(image: &[u8]) -> Option<usize> {
    let number = |at: usize| -> Option<usize> {
        let bytes = image.get(at..at.checked_add(8)?)?;
        usize::try_from(u64::from_be_bytes(bytes.try_into().ok()?)).ok()
    };
    let behind = |at: usize, each: usize| number(at)?.checked_mul(each)?.checked_add(at + 8);
    // Behind the text six numbers, four of each version, and of each node its slots and stamped values.
    let mut at = behind(behind(8, 1)?.checked_add(48)?, 32)?;
    let nodes = number(at)?;
    at += 8;
    for _ in 0..nodes {
        at = behind(behind(at.checked_add(48)?, 8)?, 24)?;
    }
    (at <= image.len()).then_some(at)
}
