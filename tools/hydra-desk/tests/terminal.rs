//! On a terminal: colours, unless NO_COLOR is set, and a bar where the work takes longer than two seconds.

mod common;

use std::process::Command;

/// A command line of a shell on a terminal of its own, with `TOOL` for the tool: what the terminal gets.
fn on_terminal(line: &str, no_color: &str) -> String {
    let line = line.replace("TOOL", env!("CARGO_BIN_EXE_hydra-desk"));
    let output = Command::new("script")
        .args(["--quiet", "--command", &line, "/dev/null"])
        .env("TERM", "xterm")
        .env("NO_COLOR", no_color)
        .current_dir(common::root())
        .output()
        .expect("`script` is there");
    String::from_utf8(output.stdout).expect("it writes text")
}

/// A script that stands still for longer than two seconds.
const SLOWLY: &str =
    "(head -n 9 samples/whole-case.script; sleep 3.5; tail -n +10 samples/whole-case.script)";

#[test]
fn colours_unless_they_are_refused() {
    let line = "TOOL check samples/whole-case.script";
    let bold = "\x1b[1msamples/whole-case.script\x1b[0m: 8 events";
    let told = on_terminal(line, "");
    assert!(told.contains(bold), "{told}");
    let told = on_terminal(line, "1");
    assert!(
        told.contains("samples/whole-case.script: 8 events") && !told.contains('\x1b'),
        "{told}"
    );
}

#[test]
fn a_bar_after_two_seconds() {
    let told = on_terminal(&format!("{SLOWLY} | TOOL check -"), "1");
    // It is drawn, and taken away before anything else is printed.
    let (bar, behind) = told.split_once("\r\x1b[K").expect("a bar is taken away");
    assert!(bar.contains("\r0 MB"), "{told}");
    assert!(
        behind.starts_with("standard input: 8 events, 1 refused"),
        "{told}"
    );
    // Nobody looks at standard error there.
    let told = on_terminal(&format!("{SLOWLY} | TOOL check - 2>&1 | cat"), "1");
    assert!(told.starts_with("standard input: 8 events"), "{told}");
}

#[test]
fn no_bar_before() {
    let told = on_terminal("TOOL check samples/whole-case.script", "1");
    assert!(!told.contains("MB") && !told.contains('\x1b'), "{told}");
}
