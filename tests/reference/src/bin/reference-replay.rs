//! Reads a script from standard input and prints its replay.

#![forbid(unsafe_code)]

use std::io::{self, Read, Write};

use reference::script::{replay, MAX_SCRIPT};

fn main() -> io::Result<()> {
    let mut input = io::stdin().lock();
    // One byte more than a script may have is enough to see it is too long.
    let mut script = Vec::new();
    (&mut input)
        .take(MAX_SCRIPT as u64 + 1)
        .read_to_end(&mut script)?;
    // The rest is read too, so that whoever writes it meets no closed pipe.
    io::copy(&mut input, &mut io::sink())?;
    io::stdout().write_all(&replay(&script))
}
