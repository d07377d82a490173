//! Running the tool and the two programs, and random scripts.
#![allow(dead_code)] // each test file uses a part

pub mod json;
pub mod markup;
pub mod random;
pub mod sites;

use std::io::Write;
use std::path::{Path, PathBuf};
use std::process::{Command, Stdio};

pub struct Ran {
    pub out: String,
    pub err: String,
    pub status: i32,
}

pub fn root() -> PathBuf {
    Path::new(env!("CARGO_MANIFEST_DIR")).join("../..")
}

/// A program with words, and bytes on its standard input.
fn run(mut command: Command, input: &[u8]) -> Ran {
    let mut child = command
        .stdin(Stdio::piped())
        .stdout(Stdio::piped())
        .stderr(Stdio::piped())
        .spawn()
        .expect("the program starts");
    let mut stdin = child.stdin.take().expect("it is piped");
    let input = input.to_vec();
    // A program that ends without reading everything closes the pipe; that is its affair.
    let feeder = std::thread::spawn(move || {
        let _ = stdin.write_all(&input);
    });
    let output = child.wait_with_output().expect("the program ends");
    feeder.join().expect("feeding does not panic");
    Ran {
        out: String::from_utf8(output.stdout).expect("it writes text"),
        err: String::from_utf8(output.stderr).expect("it writes text"),
        status: output.status.code().expect("it ends by itself"),
    }
}

/// The tool; `-` among the words is the input.
pub fn tool(words: &[&str], input: &[u8]) -> Ran {
    let mut command = Command::new(env!("CARGO_BIN_EXE_hydra-desk"));
    command.args(words).current_dir(root());
    run(command, input)
}

/// `replay` or `why`, as they were proved and built.
pub fn program(name: &str, input: &[u8]) -> String {
    let path = root().join("target/bin").join(name);
    run(Command::new(path), input).out
}

/// The samples, by name, with their scripts.
pub fn samples() -> Vec<(String, Vec<u8>)> {
    let mut samples: Vec<(String, Vec<u8>)> = std::fs::read_dir(root().join("samples"))
        .expect("the samples are there")
        .map(|entry| entry.expect("it can be listed").path())
        .filter(|path| {
            path.extension()
                .is_some_and(|extension| extension == "script")
        })
        .map(|path| {
            let name = path
                .file_stem()
                .expect("it has a name")
                .to_string_lossy()
                .into_owned();
            (name, std::fs::read(&path).expect("it can be read"))
        })
        .collect();
    samples.sort();
    assert!(samples.len() > 20);
    samples
}

/// A file of this test run.
pub fn scratch(name: &str, bytes: &[u8]) -> String {
    let path = Path::new(env!("CARGO_TARGET_TMPDIR")).join(name);
    std::fs::write(&path, bytes).expect("it can be written");
    path.to_string_lossy().into_owned()
}
