//! The tool is held against the two proved programs, line by line.

mod common;

use common::random::{damage, script, Random, Shape};
use common::{program, samples, tool};

/// The listing, the reasons and the refused lines are those of the programs.
fn held(name: &str, script: &[u8]) {
    let listing = program("replay", script);
    assert_eq!(
        tool(&["show", "--listing", "-"], script).out,
        listing,
        "{name}"
    );
    let reasons = program("why", script);
    assert_eq!(
        tool(&["why", "--listing", "-"], script).out,
        reasons,
        "{name}"
    );
    let json = tool(&["check", "--json", "-"], script);
    common::json::read(json.out.trim_end());
    assert_eq!(refused_in(&json.out), refused_by(&listing), "{name}");
    assert_eq!(json.status, status_of(&listing), "{name}");
}

/// Line and number of each refusal of a listing.
fn refused_by(listing: &str) -> Vec<(u64, u64)> {
    let numbers = |line: &str| {
        let (line, number) = line.split_once(' ')?;
        Some((line.parse().ok()?, number.parse().ok()?))
    };
    let refused = listing
        .lines()
        .skip(1)
        .take_while(|line| !line.starts_with("node"));
    refused.filter_map(numbers).collect()
}

fn status_of(listing: &str) -> i32 {
    match refused_by(listing) {
        refused if refused.is_empty() => 0,
        refused if refused.iter().any(|(_, number)| *number <= 2) => 2,
        _ => 1,
    }
}

/// The same, read out of `check --json`.
fn refused_in(json: &str) -> Vec<(u64, u64)> {
    let number_behind = |text: &str, name: &str| -> u64 {
        let (_, behind) = text.split_once(name).expect("the field is there");
        let digits: String = behind.chars().take_while(char::is_ascii_digit).collect();
        digits.parse().expect("a number stands there")
    };
    json.split("{\"line\":")
        .skip(1)
        .map(|part| {
            (
                number_behind(&format!("#{part}"), "#"),
                number_behind(part, "\"number\":"),
            )
        })
        .collect()
}

#[test]
fn on_all_samples() {
    for (name, script) in samples() {
        held(&name, &script);
    }
}

#[test]
fn on_random_scripts() {
    let mut random = Random::new(36);
    let (mut refusals, mut lengths) = (0, 0);
    for seed in 0..150 {
        let shape = Shape::random(&mut random);
        let text = script(&mut random, &shape);
        // The programs take no more.
        let mut text = text.into_bytes();
        text.truncate(40_000);
        held(&format!("random {seed}"), &text);
        refusals += refused_by(&program("replay", &text)).len();
        lengths += text.len();
    }
    // Scripts that nothing is refused of, or that are empty, would show little.
    assert!(refusals > 500 && lengths > 200_000, "{refusals} {lengths}");
}

#[test]
fn on_damaged_scripts() {
    let mut random = Random::new(37);
    let shape = Shape {
        nodes: 3,
        rounds: 2,
        epochs: 1,
        loss: 10,
        noise: 0,
    };
    let mut before_events = 0;
    for seed in 0..150 {
        let text = script(&mut random, &shape);
        let text = damage(&mut random, &text);
        held(&format!("damaged {seed}"), &text);
        before_events += u64::from(!program("replay", &text).contains("node state"));
    }
    assert!(before_events > 30, "{before_events}");
}
