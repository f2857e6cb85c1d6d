//! One run of the program: what it writes, what it says, and its exit status.

use std::ffi::OsString;
use std::fs::File;
use std::io::{self, ErrorKind, IsTerminal, Write};
use std::os::fd::AsFd;

use crate::arguments::Options;
use crate::input::{self, Input};

/// From so many files on progress is shown.
const MANY: usize = 50;
/// Every so many files it is shown again.
const OFTEN: usize = 16;

/// The exit status; of several the largest counts.
#[derive(Clone, Copy, Debug, PartialEq, Eq, PartialOrd, Ord)]
pub enum Status {
    Accepted = 0,
    Refused = 1,
    Failed = 2,
}

/// Nothing more can be written.
pub struct Closed;

pub type Written = Result<(), Closed>;

pub struct Session {
    pub options: Options,
    out: File,
    status: Status,
    /// Whether a line of progress stands on the terminal.
    progress: bool,
}

impl Session {
    pub fn new(options: Options) -> io::Result<Session> {
        // a copy without a buffer: each line is one write
        let out = File::from(io::stdout().as_fd().try_clone_to_owned()?);
        Ok(Session { options, out, status: Status::Accepted, progress: false })
    }

    pub fn status(&self) -> Status {
        self.status
    }

    pub fn set(&mut self, status: Status) {
        self.status = self.status.max(status);
    }

    /// Writes bytes to standard output in one piece. A reader that has gone is no news.
    pub fn write(&mut self, bytes: &[u8]) -> Written {
        let Err(error) = self.out.write_all(bytes) else { return Ok(()) };
        if error.kind() != ErrorKind::BrokenPipe {
            self.say(&format!("standard output: {}", reason(&error)));
        }
        self.set(Status::Failed);
        Err(Closed)
    }

    pub fn line(&mut self, mut line: String) -> Written {
        line.push('\n');
        self.write(line.as_bytes())
    }

    /// The fields of a record, separated by tabs.
    pub fn fields(&mut self, fields: &[&str]) -> Written {
        self.line(fields.join("\t"))
    }

    /// The names of the fields, if they were asked for.
    pub fn header(&mut self, names: &[&str]) -> Written {
        match self.options.header {
            true => self.fields(names),
            false => Ok(()),
        }
    }

    /// A message on standard error.
    pub fn say(&mut self, message: &str) {
        self.clear_progress();
        // there is nowhere to say that this failed
        let _ = io::stderr().write_all(format!("digarumbi: {message}\n").as_bytes());
    }

    /// A message about a file that was refused.
    pub fn say_refused(&mut self, file: &str, why: &str) {
        self.say(&format!("{file}: {why}"));
        self.set(Status::Refused);
    }

    /// A message about a file that can't be read or written.
    pub fn say_failed(&mut self, file: &str, why: &str) {
        self.say(&format!("{file}: {why}"));
        self.set(Status::Failed);
    }

    /// Reads each file and hands it on. A file that can't be read is said, and the others follow.
    pub fn each_input(
        &mut self,
        files: &[OsString],
        mut then: impl FnMut(&mut Session, &Input) -> Written,
    ) -> Written {
        let progress = files.len() >= MANY && io::stderr().is_terminal();
        for (number, file) in files.iter().enumerate() {
            if progress && number % OFTEN == 0 {
                self.show_progress(number, files.len());
            }
            match input::read(file) {
                Ok(input) => then(self, &input)?,
                Err(error) => self.say_failed(&input::shown(file), &reason(&error)),
            }
        }
        self.clear_progress();
        Ok(())
    }

    fn show_progress(&mut self, number: usize, files: usize) {
        self.progress = true;
        let _ = io::stderr().write_all(format!("\r{number} of {files} files").as_bytes());
    }

    fn clear_progress(&mut self) {
        if std::mem::take(&mut self.progress) {
            let _ = io::stderr().write_all(b"\r\x1b[K");
        }
    }
}

/// The words of an error, without its number.
pub fn reason(error: &io::Error) -> String {
    let text = error.to_string();
    match text.find(" (os error") {
        Some(end) => text[..end].to_string(),
        None => text,
    }
}
