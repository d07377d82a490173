//! Scripts of a known kind and any length, for comparisons and measurements.

use reference::random::Random;
use reference::script::{write_script, MAX_SCRIPT};
use reference::set;
use reference::settings::Settings;
use reference::site::{Event, EventKind, Row};

/// The room that `hydra_replay` asks for in its output.
pub fn room(script_length: usize) -> usize {
    9 * script_length.min(MAX_SCRIPT) + 30_000
}

/// The room that `hydra_why` asks for in its output.
pub fn reasons_room(script_length: usize) -> usize {
    4 * script_length.min(MAX_SCRIPT) + 100
}

pub fn settings(nodes: u32, slots: u32, rounds: u32) -> Settings {
    Settings::new(nodes, slots, rounds, 1, 0).expect("settings in range")
}

/// All nodes at version 1 with full flags; their demands differ.
pub fn table(settings: &Settings) -> Vec<Row> {
    (1..=settings.nodes())
        .map(|node| Row {
            node,
            version: 1,
            flags: set::full(settings.nodes()),
            want: 1 + node % 4,
        })
        .collect()
}

/// A script with as many of the events as fit into `length` bytes; none, if
/// the lines before them are longer than that.
fn script(settings: Settings, events: impl Iterator<Item = Event>, length: usize) -> Vec<u8> {
    let table = table(&settings);
    let head = write_script(&settings, &table, &[]).len();
    let mut left = length.saturating_sub(head);
    let mut fitting = Vec::new();
    for event in events {
        match left.checked_sub(event.to_string().len() + 1) {
            Some(rest) => left = rest,
            None => break,
        }
        fitting.push(event);
    }
    write_script(&settings, &table, &fitting)
}

fn event(kind: EventKind, node: u32, with: u32) -> Event {
    Event { kind, node, with }
}

const CLOSE: Event = Event {
    kind: EventKind::Close,
    node: 0,
    with: 0,
};

const END: Event = Event {
    kind: EventKind::End,
    node: 0,
    with: 0,
};

/// Rounds of `round`, over and over.
fn rounds(round: Vec<Event>) -> impl Iterator<Item = Event> {
    round.into_iter().cycle()
}

/// A round in which every node sends, and every other node hears it.
pub fn mesh_round(nodes: u32) -> Vec<Event> {
    let mut round = Vec::new();
    for sender in 1..=nodes {
        round.push(event(EventKind::Send, sender, 0));
        let hearers = (1..=nodes).filter(|&hearer| hearer != sender);
        round.extend(hearers.map(|hearer| event(EventKind::Hear, hearer, sender)));
    }
    round.extend([CLOSE, END]);
    round
}

pub fn mesh(nodes: u32, rounds_in_epoch: u32, length: usize) -> Vec<u8> {
    let events = rounds(mesh_round(nodes));
    script(settings(nodes, 80, rounds_in_epoch), events, length)
}

/// A round in which node 1 alone comes to know all requests, and the others
/// take its schedule, `takes` times each.
///
/// The others hear node 1 before it has heard anybody: so it stays in their
/// flags, and yet they lack requests and do not send.
pub fn distribution_round(nodes: u32, takes: u32) -> Vec<Event> {
    let others = || 2..=nodes;
    let mut round = vec![event(EventKind::Send, 1, 0)];
    round.extend(others().map(|node| event(EventKind::Hear, node, 1)));
    round.extend(others().map(|node| event(EventKind::Send, node, 0)));
    round.extend(others().map(|node| event(EventKind::Hear, 1, node)));
    round.push(CLOSE);
    for _ in 0..takes {
        round.extend(others().map(|node| event(EventKind::Take, node, 1)));
    }
    round.push(END);
    round
}

/// Such rounds; an epoch has one.
pub fn distribution(nodes: u32, takes: u32, length: usize) -> Vec<u8> {
    let events = rounds(distribution_round(nodes, takes));
    script(settings(nodes, 80, 1), events, length)
}

/// A close and an end, with nothing between them.
pub fn silent_round() -> Vec<Event> {
    vec![CLOSE, END]
}

pub fn silence(nodes: u32, length: usize) -> Vec<u8> {
    script(settings(nodes, 80, 1), rounds(silent_round()), length)
}

/// Events of which every one is refused, for one reason or another.
pub fn refusals(nodes: u32, length: usize) -> Vec<u8> {
    let round = vec![
        event(EventKind::Send, 1, 1),
        event(EventKind::Send, nodes + 1, 0),
        event(EventKind::Hear, 1, 1),
        event(EventKind::Take, 1, 2),
        END,
        event(EventKind::Want, 1, 8),
        event(EventKind::Crash, 0, 0),
        event(EventKind::Restart, 1, 1),
    ];
    script(settings(nodes, 80, 1), rounds(round), length)
}

/// 64 epochs of 32 rounds at a site of 32 nodes that may split. Every close
/// determines schedules, so a run takes long. The last line is refused with
/// 10, and because of the hearings before it no large part can be left out.
pub fn epochs() -> Vec<u8> {
    let settings = Settings::new(32, 80, 32, 1, 1).expect("settings in range");
    let table: Vec<Row> = (1..=32)
        .map(|node| Row {
            node,
            version: u32::from(node != 2),
            flags: if node < 3 { 3 } else { 1 << (node - 1) },
            want: 15,
        })
        .collect();
    let exchange = [
        event(EventKind::Send, 1, 0),
        event(EventKind::Send, 2, 0),
        event(EventKind::Hear, 1, 2),
        event(EventKind::Hear, 2, 1),
    ];
    let mut events = Vec::new();
    for epoch in 0..64 {
        events.extend(exchange);
        events.extend([CLOSE, END].repeat(if epoch < 63 { 32 } else { 31 }));
    }
    let hearing = [event(EventKind::Send, 2, 0), event(EventKind::Hear, 1, 1)];
    events.extend(hearing.repeat(7));
    events.extend([CLOSE, event(EventKind::Take, 3, 1)]);
    write_script(&settings, &table, &events)
}

/// The number of event lines of a script.
pub fn events(script: &[u8]) -> usize {
    let mut lines = script.split(|&byte| byte == b'\n');
    lines.by_ref().find(|line| line.starts_with(b"event"));
    // Behind the last byte 10 there is one more part, which is empty.
    lines.count() - 1
}

const WORDS: [&str; 12] = [
    "send", "hear", "close", "take", "end", "want", "crash", "restart", "sends", "", "Hear", "clos",
];

const SEPARATORS: [&str; 6] = ["  ", "\t", "", "\r", " 0 ", "\0"];

/// A small site, and event lines that are wrong here and there, each for
/// itself. So many wrong lines are met by one script.
pub fn careless(random: &mut Random) -> Vec<u8> {
    let nodes = random.between(1, 5);
    let (slots, rounds) = (random.between(1, 80), random.between(1, 3));
    let split = random.between(0, 1);
    let settings = Settings::new(nodes, slots, rounds, 1, split).expect("settings in range");
    let mut text = write_script(&settings, &table(&settings), &[]);
    for _ in 0..random.between(0, 120) {
        let line = careless_line(random, nodes);
        text.extend_from_slice(line.as_bytes());
    }
    text
}

fn careless_line(random: &mut Random, nodes: u32) -> String {
    // The real words stand first.
    let known = if random.chance(90) { 8 } else { WORDS.len() };
    let word = WORDS[random.below(known)];
    let (first, second) = (separator(random), separator(random));
    let node = careless_number(random, nodes);
    let with = careless_number(random, nodes);
    let end = if random.chance(99) { "\n" } else { "" };
    format!("{word}{first}{node}{second}{with}{end}")
}

fn separator(random: &mut Random) -> &'static str {
    if random.chance(97) {
        " "
    } else {
        random.pick(&SEPARATORS)
    }
}

fn careless_number(random: &mut Random, nodes: u32) -> String {
    match random.below(20) {
        0..=6 => 0.to_string(),
        7..=16 => random.between(1, nodes).to_string(),
        17 => set::full(nodes).to_string(),
        18 => random.between(0, 300).to_string(),
        _ => odd_field(random),
    }
}

fn odd_field(random: &mut Random) -> String {
    let number = random.next_u64() >> random.below(64);
    let fields = [
        String::new(),
        "00".to_string(),
        "-1".to_string(),
        "+1".to_string(),
        "1x".to_string(),
        format!("0{number}"),
        number.to_string(),
        "4294967295".to_string(),
        "4294967296".to_string(),
        "4294967297".to_string(),
        "42949672950".to_string(),
        "18446744073709551616".to_string(),
        "9".repeat(random.below(40)),
    ];
    fields[random.below(fields.len())].clone()
}
