//! The compiled programs `replay` and `why`, and a C program that runs scripts with the
//! node's C calls alone, beside the second implementation. Scripts go in by
//! standard input, as at the desk.

#![forbid(unsafe_code)]

use std::fs;
use std::io::{ErrorKind, Write};
use std::path::{Path, PathBuf};
use std::process::{Command, Stdio};
use std::thread;

use compare::scripts;
use reference::random::{random_script, Flavour, Random};
use reference::script::{replay, why, MAX_SCRIPT};

fn root() -> PathBuf {
    Path::new(env!("CARGO_MANIFEST_DIR")).join("../..")
}

/// The programs that are compared.
struct Programs {
    replay: PathBuf,
    site: PathBuf,
    why: PathBuf,
}

impl Programs {
    fn new(name: &str) -> Programs {
        Programs {
            replay: root().join("target/bin/replay"),
            site: compile_site(name),
            why: root().join("target/bin/why"),
        }
    }

    /// The programs print what the second implementation prints.
    fn compare(&self, script: &[u8]) {
        self.expect(script, &replay(script));
        let told = output(&self.why, script);
        assert!(
            told == why(script),
            "why printed\n{}\nand not\n{}\nfor\n{}",
            String::from_utf8_lossy(&told),
            String::from_utf8_lossy(&why(script)),
            String::from_utf8_lossy(script),
        );
    }

    fn expect(&self, script: &[u8], listing: &[u8]) {
        for program in [&self.replay, &self.site] {
            let printed = output(program, script);
            assert!(
                printed == listing,
                "{} printed\n{}\nand not\n{}\nfor\n{}",
                program.display(),
                String::from_utf8_lossy(&printed),
                String::from_utf8_lossy(listing),
                String::from_utf8_lossy(script),
            );
        }
    }
}

/// Compiles tests/c/site.c as a host's programs are. Each test has a program
/// of its own, since tests run side by side.
fn compile_site(name: &str) -> PathBuf {
    let program = Path::new(env!("CARGO_TARGET_TMPDIR")).join(format!("site-{name}"));
    let status = Command::new("gcc")
        .args(["-O2", "-Wall", "-Wextra", "-Werror", "-I", "include"])
        .args(["tests/c/site.c", "target/lib/libhydra.a", "-o"])
        .arg(&program)
        .current_dir(root())
        .status()
        .expect("gcc is installed");
    assert!(status.success(), "tests/c/site.c does not compile");
    program
}

/// What the program prints for a script.
fn output(program: &Path, script: &[u8]) -> Vec<u8> {
    let mut child = Command::new(program)
        .stdin(Stdio::piped())
        .stdout(Stdio::piped())
        .spawn()
        .unwrap_or_else(|error| panic!("{}: {error}", program.display()));
    let mut input = child.stdin.take().expect("standard input is piped");
    let script = script.to_vec();
    // A program may print before it has read all, so both go on side by side.
    let writer = thread::spawn(move || input.write_all(&script));
    let output = child.wait_with_output().expect("the program ends");
    assert!(output.status.success(), "{}", program.display());
    match writer.join().expect("the writer ends") {
        // It need not read what is beyond the greatest length.
        Err(error) if error.kind() != ErrorKind::BrokenPipe => panic!("{error}"),
        _ => output.stdout,
    }
}

#[test]
fn random_scripts() {
    let programs = Programs::new("random");
    for (flavour, seeds) in [
        (Flavour::Plausible, 150),
        (Flavour::Chaotic, 150),
        (Flavour::Damaged, 400),
    ] {
        for seed in 0..seeds {
            programs.compare(&random_script(seed, flavour));
        }
    }
    let mut random = Random::new(1);
    for _ in 0..200 {
        programs.compare(&scripts::careless(&mut random));
    }
}

#[test]
fn large_sites() {
    let programs = Programs::new("large");
    for nodes in [1, 2, 3, 7, 31, 32] {
        programs.compare(&scripts::mesh(nodes, 1, MAX_SCRIPT));
        programs.compare(&scripts::mesh(nodes, 2, MAX_SCRIPT));
        programs.compare(&scripts::distribution(nodes, 1, MAX_SCRIPT));
        programs.compare(&scripts::silence(nodes, MAX_SCRIPT));
        programs.compare(&scripts::refusals(nodes, MAX_SCRIPT));
    }
}

/// Nothing, bytes that are no text, and more than a script may have.
#[test]
fn strange_scripts() {
    let programs = Programs::new("strange");
    programs.compare(b"");
    programs.compare(b"\n");
    programs.compare(&[0; 100]);
    programs.compare(&[255; 100]);
    for length in [MAX_SCRIPT, MAX_SCRIPT + 1, 70_000, 1_000_000] {
        programs.compare(&vec![b'\n'; length]);
    }
}

/// The samples, each with its listing beside it.
#[test]
fn samples() {
    let programs = Programs::new("samples");
    let mut count = 0;
    for entry in fs::read_dir(root().join("samples")).expect("samples") {
        let path = entry.expect("a file").path();
        if path
            .extension()
            .is_some_and(|extension| extension == "script")
        {
            let script = fs::read(&path).expect("a script");
            let listing = fs::read(path.with_extension("listing")).expect("a listing");
            assert!(replay(&script) == listing, "{}", path.display());
            programs.expect(&script, &listing);
            count += 1;
        }
    }
    assert!(count > 0, "no samples");
}
