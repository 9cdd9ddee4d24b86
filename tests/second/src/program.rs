//! Runs a program under test: bytes to its standard input, what it prints back. It gets so much time and may print so
//! much for one input.

use std::ffi::{OsStr, OsString};
use std::io::{self, Read, Write};
use std::path::Path;
use std::process::{Child, ChildStdin, Command, ExitStatus, Stdio};
use std::sync::mpsc::{self, Receiver};
use std::thread;
use std::time::{Duration, Instant};

use crate::options::Options;

/// How many bytes a program may print, on each of its two outputs. The longest listing is a quarter of it.
pub const MOST_PRINTED: usize = 1 << 20;

/// How many seconds a program may take, where the command line says nothing else.
pub const PATIENCE: u64 = 10;

/// How long the end of a program that has closed its outputs is waited for without a pause.
const AT_ONCE: Duration = Duration::from_millis(1);

/// How much of what a program says on standard error is told.
const TOLD: usize = 200;

/// The status with which shells, and emulators, say that there is no such program.
const NOT_THERE: i32 = 127;

/// A program under test with its words, and the seconds that it gets for one input.
pub struct Program {
    path: OsString,
    words: Vec<OsString>,
    patience: u64,
}

/// How a program ended, and what it printed.
pub struct Ended {
    pub status: ExitStatus,
    pub output: Vec<u8>,
    pub said: Vec<u8>,
}

/// Why there is nothing of a program to look at.
#[derive(Debug)]
pub enum Trouble {
    NoFile,
    NoProgram,
    CannotStart(io::Error),
    CannotRead(io::Error),
    CannotWait(io::Error),
    /// It took longer than so many seconds, and was ended.
    NoEnd(u64),
    /// It printed more than it may, and was ended.
    TooMuch,
}

impl Trouble {
    /// Whether the program ran and met a limit.
    pub fn is_limit(&self) -> bool {
        matches!(self, Trouble::NoEnd(_) | Trouble::TooMuch)
    }

    /// What the program does or cannot, in words; `reason` puts what the system says.
    pub fn told(&self, reason: impl Fn(&io::Error) -> String) -> String {
        match self {
            Trouble::NoFile => "cannot be started: there is no such file".to_string(),
            Trouble::NoProgram => format!("ended with {NOT_THERE} and no output: is it there?"),
            Trouble::CannotStart(why) => format!("cannot be started: {}", reason(why)),
            Trouble::CannotRead(why) => format!("cannot be read from: {}", reason(why)),
            Trouble::CannotWait(why) => format!("cannot be waited for: {}", reason(why)),
            Trouble::NoEnd(seconds) => format!("does not end: stopped after {seconds} s"),
            Trouble::TooMuch => format!("prints too much: more than {MOST_PRINTED} bytes"),
        }
    }
}

impl Program {
    /// A program that gets so many seconds.
    pub fn new(path: impl AsRef<OsStr>, patience: u64) -> Program {
        Program { path: path.as_ref().into(), words: Vec::new(), patience }
    }

    /// The program with these words behind it.
    pub fn with(self, words: &[OsString]) -> Program {
        Program { words: words.to_vec(), ..self }
    }

    /// The program that a command line names.
    pub fn asked(options: &mut Options) -> Program {
        let patience = options.value("--patience").unwrap_or(PATIENCE);
        Program::new(options.word("PROGRAM"), patience)
    }

    /// Its name.
    pub fn name(&self) -> String {
        self.path.to_string_lossy().into_owned()
    }

    /// The words of a comparison's command line that name the program.
    pub fn asking(&self) -> Vec<String> {
        let mut asking = vec![self.name()];
        if self.patience != PATIENCE {
            asking.extend(["--patience".to_string(), self.patience.to_string()]);
        }
        asking
    }

    /// How long it gets for one input.
    pub fn patience(&self) -> Duration {
        Duration::from_secs(self.patience)
    }

    /// What the program printed for an input, or why there is nothing to compare: it must end with 0.
    pub fn run(&self, input: &[u8]) -> Result<Vec<u8>, String> {
        let Ended { status, output, said } =
            self.call(input).map_err(|trouble| format!("{} {}", self.name(), trouble.told(io::Error::to_string)))?;
        if status.success() {
            return Ok(output);
        }
        match String::from_utf8_lossy(&said).lines().next() {
            None => Err(format!("{} ended badly: {status}", self.name())),
            Some(line) => Err(format!("{} said {:?} and ended badly: {status}", self.name(), cut(line))),
        }
    }

    /// How the program ended for an input, and what it printed. It does not run on afterwards.
    pub fn call(&self, input: &[u8]) -> Result<Ended, Trouble> {
        let begin = Instant::now();
        let mut child = self.start()?;
        let ended = self.follow(&mut child, input, begin);
        if ended.is_err() {
            // It may have ended on its own by now.
            let _ = child.kill().and_then(|()| child.wait());
        }
        match ended {
            Ok(ended) if ended.status.code() == Some(NOT_THERE) && ended.output.is_empty() => Err(Trouble::NoProgram),
            ended => ended,
        }
    }

    /// Starts the program, with pipes for all that it reads and prints. That a path leads to no file is seen ahead:
    /// under an emulator it shows only as a bad end.
    fn start(&self) -> Result<Child, Trouble> {
        let path = Path::new(&self.path);
        if path.components().count() > 1 && !path.is_file() {
            return Err(Trouble::NoFile);
        }
        let mut command = Command::new(path);
        let piped = command.args(&self.words).stdin(Stdio::piped()).stdout(Stdio::piped()).stderr(Stdio::piped());
        piped.spawn().map_err(Trouble::CannotStart)
    }

    /// Hands a running program its input and follows it to its end.
    fn follow(&self, child: &mut Child, input: &[u8], begin: Instant) -> Result<Ended, Trouble> {
        write_all(child.stdin.take().expect("standard input is piped"), input.to_vec());
        let output = read_all(child.stdout.take().expect("standard output is piped"));
        let said = read_all(child.stderr.take().expect("standard error is piped"));
        let output = self.received(&output, begin)?;
        let said = self.received(&said, begin)?;
        Ok(Ended { status: self.status(child, begin)?, output, said })
    }

    /// What one of its outputs had, once it is closed.
    fn received(&self, output: &Receiver<io::Result<Vec<u8>>>, begin: Instant) -> Result<Vec<u8>, Trouble> {
        let left = self.patience().saturating_sub(begin.elapsed());
        let bytes = output.recv_timeout(left).map_err(|_| Trouble::NoEnd(self.patience))?;
        match bytes.map_err(Trouble::CannotRead)? {
            bytes if bytes.len() > MOST_PRINTED => Err(Trouble::TooMuch),
            bytes => Ok(bytes),
        }
    }

    /// The exit status of a program that has closed its outputs.
    fn status(&self, child: &mut Child, begin: Instant) -> Result<ExitStatus, Trouble> {
        let closed = Instant::now();
        loop {
            match child.try_wait().map_err(Trouble::CannotWait)? {
                Some(status) => return Ok(status),
                None if begin.elapsed() >= self.patience() => return Err(Trouble::NoEnd(self.patience)),
                None if closed.elapsed() < AT_ONCE => thread::yield_now(),
                None => thread::sleep(AT_ONCE),
            }
        }
    }
}

/// Writes the input beside all else; a program may stop reading when it has seen enough.
fn write_all(mut stdin: ChildStdin, input: Vec<u8>) {
    thread::spawn(move || stdin.write_all(&input));
}

/// Reads an output beside all else: all of it, or one byte more than is allowed. Nobody waits for the reading to end:
/// what the program has started may hold its outputs open when it has been ended itself.
fn read_all(output: impl Read + Send + 'static) -> Receiver<io::Result<Vec<u8>>> {
    let (sender, receiver) = mpsc::channel();
    thread::spawn(move || {
        let mut bytes = Vec::new();
        let read = output.take(MOST_PRINTED as u64 + 1).read_to_end(&mut bytes);
        sender.send(read.map(|_| bytes))
    });
    receiver
}

/// The beginning of a line.
fn cut(line: &str) -> String {
    line.chars().take(TOLD).collect()
}
