//! What the tool prints, and how it ends.

use std::fmt::Write as _;
use std::io::{self, IsTerminal, Write};

/// Exit statuses.
#[derive(Clone, Copy, Debug, Default, PartialEq, Eq, PartialOrd, Ord)]
pub enum Status {
    #[default]
    Fine = 0,
    /// An event was refused.
    Refused = 1,
    /// A file can't be read, or a line of it can't be understood; also wrong use of the tool.
    Malformed = 2,
    /// The output can't be written.
    Unwritten = 3,
}

/// Colours, if standard output is a terminal and NO_COLOR is not set.
#[derive(Clone, Copy)]
pub struct Paint {
    on: bool,
}

impl Paint {
    pub fn for_stdout() -> Paint {
        let refused = std::env::var_os("NO_COLOR").is_some_and(|value| !value.is_empty());
        let dumb = std::env::var_os("TERM").is_some_and(|term| term == "dumb");
        Paint {
            on: io::stdout().is_terminal() && !refused && !dumb,
        }
    }

    fn wrap(self, code: &str, text: &str) -> String {
        match self.on {
            true => format!("\x1b[{code}m{text}\x1b[0m"),
            false => text.to_string(),
        }
    }

    pub fn bold(self, text: &str) -> String {
        self.wrap("1", text)
    }

    pub fn red(self, text: &str) -> String {
        self.wrap("1;31", text)
    }
}

/// Lines that are written to standard output as soon as there are some.
pub struct Out {
    text: String,
    failed: Option<io::ErrorKind>,
    pub paint: Paint,
}

impl Out {
    pub fn new() -> Out {
        Out {
            text: String::new(),
            failed: None,
            paint: Paint::for_stdout(),
        }
    }

    pub fn line(&mut self, line: impl std::fmt::Display) {
        let _ = writeln!(self.text, "{line}");
        if self.text.len() > 1 << 16 {
            self.flush();
        }
    }

    pub fn text(&mut self, text: &str) {
        self.text.push_str(text);
        if self.text.len() > 1 << 16 {
            self.flush();
        }
    }

    fn flush(&mut self) {
        if self.failed.is_none() {
            let mut stdout = io::stdout().lock();
            let written = stdout
                .write_all(self.text.as_bytes())
                .and_then(|()| stdout.flush());
            self.failed = written.err().map(|error| error.kind());
        }
        self.text.clear();
    }

    /// Whether nobody takes the output any more.
    pub fn failed(&self) -> bool {
        self.failed.is_some()
    }

    /// Writes the rest; the status is the given one if all could be written.
    pub fn finish(mut self, status: Status) -> Status {
        self.flush();
        match self.failed {
            None => status,
            // A reader that has seen enough, as `head`, needs no complaint.
            Some(io::ErrorKind::BrokenPipe) => Status::Unwritten,
            Some(_) => {
                complain("the output could not be written");
                Status::Unwritten
            }
        }
    }
}

/// A sentence on standard error.
pub fn complain(sentence: &str) {
    // Nothing is left to do where this fails too.
    let _ = writeln!(io::stderr(), "hydra-desk: {sentence}");
}

pub fn unreadable(name: &str, error: &io::Error) -> String {
    let name = if name == "-" { "standard input" } else { name };
    format!("{name} can't be read: {error}")
}
