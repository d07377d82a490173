//! A month of 32 boxes: in seconds, and in memory that does not grow with the script.

mod common;

use std::io::Write;
use std::process::{Command, Stdio};

const BOXES: u32 = 32;

fn head() -> String {
    let mut out =
        format!("nodes slots rounds heard split\n{BOXES} 80 1 1 0\nnode version flags want\n");
    for node in 1..=BOXES {
        out.push_str(&format!("{node} 1 {} 2\n", u32::MAX));
    }
    out + "event node with\n"
}

/// Every box hears every other one.
fn epoch() -> String {
    let mut out = String::new();
    for sender in 1..=BOXES {
        out.push_str(&format!("send {sender} 0\n"));
        for hearer in (1..=BOXES).filter(|&hearer| hearer != sender) {
            out.push_str(&format!("hear {hearer} {sender}\n"));
        }
    }
    out + "close 0 0\nend 0 0\n"
}

/// The most memory that a process has had so far, in kilobytes.
fn memory(process: u32) -> u64 {
    let status = std::fs::read_to_string(format!("/proc/{process}/status")).expect("it runs");
    let line = status.lines().find(|line| line.starts_with("VmHWM:"));
    let field = line.and_then(|line| line.split_whitespace().nth(1));
    field
        .and_then(|field| field.parse().ok())
        .expect("a number stands there")
}

/// Processor time of a process so far, in hundredths of a second.
fn time(process: u32) -> u64 {
    let stat = std::fs::read_to_string(format!("/proc/{process}/stat")).expect("it runs");
    let (_, behind) = stat.rsplit_once(") ").expect("its name is in brackets");
    let fields: Vec<&str> = behind.split(' ').collect();
    let number = |at: usize| fields[at].parse::<u64>().expect("a number stands there");
    number(11) + number(12)
}

#[test]
fn time_and_memory() {
    check(&[]);
}

/// As many windows as there may be, two for each box.
#[test]
fn time_and_memory_with_windows() {
    let mut windows = "node first end demand\n".to_string();
    for node in 1..=BOXES {
        windows.push_str(&format!("{node} 0 480 1\n{node} 480 1440 3\n"));
    }
    let lent = common::scratch("month.windows", windows.as_bytes());
    check(&["--windows", &lent]);
}

fn check(words: &[&str]) {
    let mut child = Command::new(env!("CARGO_BIN_EXE_hydra-desk"))
        .args(["check", "-"])
        .args(words)
        .stdin(Stdio::piped())
        .stdout(Stdio::piped())
        .spawn()
        .expect("the program starts");
    let mut stdin = child.stdin.take().expect("it is piped");
    let epoch = epoch();
    let mut feed = |text: &str, times: u32| {
        for _ in 0..times {
            stdin.write_all(text.as_bytes()).expect("it is read");
        }
    };
    feed(&head(), 1);
    feed(&epoch, 100);
    let (few, begun) = (memory(child.id()), time(child.id()));
    // A day, and a month by that.
    feed(&epoch, 1440);
    let (many, day) = (memory(child.id()), time(child.id()) - begun);
    assert!(
        many < few + 1024,
        "{few} kB for 100 epochs, {many} kB for 1540"
    );
    assert!(
        day * 30 < 6000,
        "a month would take {} seconds",
        day * 30 / 100
    );
    drop(stdin);
    let output = child.wait_with_output().expect("the program ends");
    let told = String::from_utf8_lossy(&output.stdout);
    assert_eq!(told, "standard input: 1,580,040 events, none refused\n");
}
