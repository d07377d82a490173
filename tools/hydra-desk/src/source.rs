//! A file or standard input, line by line, in constant memory.

use std::fs::File;
use std::io::{self, BufRead, BufReader, Chain, Cursor, Read};
use std::sync::atomic::{AtomicU64, Ordering};
use std::sync::Arc;

use crate::core::TOP_SCRIPT;

/// No line that means anything is as long as this; of a longer one no more is kept.
const TOP_LINE: usize = 200;

/// A line without its newline.
#[derive(Clone, Debug, PartialEq, Eq)]
pub struct Line {
    pub number: u64,
    pub text: Vec<u8>,
    /// Whether byte 10 ends it; only the last line of a file may lack it.
    pub ended: bool,
}

impl Line {
    /// For people: bytes that are no text are replaced.
    pub fn shown(&self) -> String {
        let text = String::from_utf8_lossy(&self.text);
        text.chars()
            .map(|c| if c.is_control() { '\u{fffd}' } else { c })
            .collect()
    }
}

/// A script's lines.
pub struct Source {
    /// As the user typed it; `-` is standard input.
    pub name: String,
    /// The first bytes, as many as the call on a whole script takes.
    pub first: Vec<u8>,
    lines: BufReader<Chain<Cursor<Vec<u8>>, Counted>>,
    number: u64,
}

struct Counted {
    inner: Box<dyn Read>,
    read: Arc<AtomicU64>,
}

impl Read for Counted {
    fn read(&mut self, buffer: &mut [u8]) -> io::Result<usize> {
        let count = self.inner.read(buffer)?;
        self.read.fetch_add(count as u64, Ordering::Relaxed);
        Ok(count)
    }
}

impl Source {
    /// Opens a file, or standard input for `-`. `read` grows by the bytes that are read.
    pub fn open(name: &str, read: Arc<AtomicU64>) -> io::Result<Source> {
        let inner: Box<dyn Read> = if name == "-" {
            Box::new(io::stdin())
        } else {
            Box::new(File::open(name)?)
        };
        Source::new(name, inner, read)
    }

    pub fn from_bytes(name: &str, bytes: Vec<u8>) -> Source {
        let inner = Box::new(Cursor::new(bytes));
        Source::new(name, inner, Arc::default()).expect("bytes can be read")
    }

    fn new(name: &str, inner: Box<dyn Read>, read: Arc<AtomicU64>) -> io::Result<Source> {
        let mut rest = Counted { inner, read };
        let mut first = Vec::new();
        rest.by_ref()
            .take(TOP_SCRIPT as u64)
            .read_to_end(&mut first)?;
        Ok(Source {
            name: name.to_string(),
            lines: BufReader::with_capacity(1 << 16, Cursor::new(first.clone()).chain(rest)),
            first,
            number: 0,
        })
    }

    /// The next line; none at the end.
    pub fn next_line(&mut self) -> io::Result<Option<Line>> {
        let mut text = Vec::new();
        let mut seen = false;
        let ended = loop {
            let available = self.lines.fill_buf()?;
            if available.is_empty() {
                break false;
            }
            seen = true;
            let end = available.iter().position(|&byte| byte == b'\n');
            let part = &available[..end.unwrap_or(available.len())];
            let room = TOP_LINE.saturating_sub(text.len());
            text.extend_from_slice(&part[..part.len().min(room)]);
            let used = part.len() + usize::from(end.is_some());
            self.lines.consume(used);
            if end.is_some() {
                break true;
            }
        };
        if !seen {
            return Ok(None);
        }
        self.number += 1;
        Ok(Some(Line {
            number: self.number,
            text,
            ended,
        }))
    }
}
