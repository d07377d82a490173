//! The script: what is refused, with which number, and at which line.

#![forbid(unsafe_code)]

mod common;

use common::{refusals, replay_text};
use reference::random::{random_script, Flavour, Random};
use reference::script::{replay, replay_day, replay_in, why, why_day, MAX_SCRIPT};
use reference::site::AREA_LENGTH;

const HEAD: &str = "nodes slots rounds heard split\n3 2 1 1 0\nnode version flags want\n\
    1 1 7 1\n2 1 7 1\n3 1 7 1\nevent node with\n";

/// The number of the last line of `HEAD`.
const HEAD_LINES: usize = 7;

/// The refusals of `events`, with lines counted from the first event.
fn event_refusals(events: &str) -> Vec<(usize, u8)> {
    let output = replay_text(&format!("{HEAD}{events}"));
    let rows = refusals(output.as_bytes()).into_iter();
    rows.map(|(line, refusal)| (line - HEAD_LINES, refusal))
        .collect()
}

/// The refusal of a single event at the start of a round, or 0.
fn refusal(event: &str) -> u8 {
    match event_refusals(&format!("{event}\n"))[..] {
        [] => 0,
        [(1, number)] => number,
        ref other => panic!("{other:?}"),
    }
}

#[test]
fn missing_line_is_reported_at_its_number() {
    let lines: Vec<&str> = HEAD.split_inclusive('\n').collect();
    for kept in 0..HEAD_LINES {
        let output = replay_text(&lines[..kept].concat());
        assert_eq!(output, format!("line refusal\n{} 1\n", kept + 1));
    }
}

#[test]
fn head_line_without_its_end_is_refused() {
    let lines: Vec<&str> = HEAD.split_inclusive('\n').collect();
    for kept in 1..=HEAD_LINES {
        let text = lines[..kept].concat();
        let output = replay_text(text.trim_end());
        let number = if [1, 3, 7].contains(&kept) { 1 } else { 2 };
        assert_eq!(output, format!("line refusal\n{kept} {number}\n"));
    }
}

#[test]
fn head_values_have_ranges() {
    for (line, from, to) in [
        (2, "3 2 1 1 0", "0 2 1 1 0"),
        (2, "3 2 1 1 0", "33 2 1 1 0"),
        (2, "3 2 1 1 0", "3 81 1 1 0"),
        (2, "3 2 1 1 0", "3 2 33 1 0"),
        (2, "3 2 1 1 0", "3 2 1 0 0"),
        (2, "3 2 1 1 0", "3 2 1 2 0"),
        (2, "3 2 1 1 0", "3 2 1 1 2"),
        (2, "3 2 1 1 0", "3 2 1 1 4294967295"),
        (2, "3 2 1 1 0", "3 2 1 1 4294967297"),
        (2, "3 2 1 1 0", "3 2 1 1"),
        (2, "3 2 1 1 0", "3 2 1 1 1 0"),
        (4, "1 1 7 1", "2 1 7 1"),
        (4, "1 1 7 1", "0 1 7 1"),
        (4, "1 1 7 1", "1 2 7 1"),
        (5, "2 1 7 1", "2 1 5 1"),
        (5, "2 1 7 1", "2 1 15 1"),
        (6, "3 1 7 1", "3 1 7 16"),
        (6, "3 1 7 1", "event node with"),
    ] {
        let output = replay_text(&HEAD.replacen(from, to, 1));
        assert_eq!(output, format!("line refusal\n{line} 2\n"), "{to}");
    }
}

/// The first head of a site that may split says so, once its settings line is
/// accepted; so do the reasons of a script that is refused before its events.
#[test]
fn first_head_tells_of_a_site_that_may_split() {
    let script = HEAD.replacen("3 2 1 1 0", "3 2 1 1 1", 1);
    let listing = replay_text(&script);
    assert_eq!(listing.replacen(" split", "", 1), replay_text(HEAD));
    assert!(listing.starts_with("line refusal split\nnode state"));
    assert!(why(script.as_bytes()).starts_with(b"line node rule missing\n"));
    let lines: Vec<&str> = script.split_inclusive('\n').collect();
    for kept in 0..HEAD_LINES {
        let head = if kept < 2 { "" } else { " split" };
        let printed = format!("line refusal{head}\n{} 1\n", kept + 1);
        let cut = lines[..kept].concat();
        assert_eq!(replay_text(&cut), printed);
        assert_eq!(why(cut.as_bytes()), printed.as_bytes());
    }
    let flags = script.replacen("2 1 7 1", "2 1 5 1", 1);
    assert_eq!(replay_text(&flags), "line refusal split\n5 2\n");
    let figures = script.replacen("3 2 1 1 1", "3 81 1 1 1", 1);
    assert_eq!(replay_text(&figures), "line refusal\n2 2\n");
    let event = format!("{script}send 9 0\n");
    assert!(replay_text(&event).starts_with("line refusal split\n8 3\nnode state"));
    let mut area = [0; AREA_LENGTH];
    let windows = replay_day(script.as_bytes(), &mut area, 0, &[]);
    assert_eq!(windows, b"line refusal split\n0 16\n");
    assert_eq!(why_day(script.as_bytes(), 0, &[]), windows);
    let short = replay_in(script.as_bytes(), &mut area[1..]);
    assert_eq!(short, b"line refusal\n0 15\n");
    let long = format!("{script}{}", "\n".repeat(MAX_SCRIPT));
    assert_eq!(replay_text(&long), "line refusal\n0 15\n");
}

#[test]
fn names_are_compared_byte_by_byte() {
    for (line, from, to) in [
        (1, "nodes slots", "Nodes slots"),
        (1, "split\n", "split \n"),
        (1, "split\n", "split\r\n"),
        (1, " split\n", "\n"),
        (3, "node version", "node  version"),
        (3, "want\n", "wants\n"),
        (7, "event node with", "event node"),
        (7, "event node with", ""),
        (7, "event node with", "send 1 0"),
    ] {
        let output = replay_text(&HEAD.replacen(from, to, 1));
        assert_eq!(output, format!("line refusal\n{line} 1\n"), "{to}");
    }
}

#[test]
fn malformed_event_lines_are_passed_over() {
    for line in [
        "",
        " ",
        "send",
        "send 1",
        "send 1 0 0",
        "send  1 0",
        "send 1 0 ",
        " send 1 0",
        "send\t1 0",
        "send 1 0\r",
        "Send 1 0",
        "sends 1 0",
        "send 01 0",
        "send 1 00",
        "send +1 0",
        "send -1 0",
        "send 1 4294967296",
        "send 1 99999999999999999999999",
        "send 1 1",
        "close 1 0",
        "close 0 1",
        "end 0 1",
        "crash 1 1",
        "want 1 16",
        "hear 4294967296 1",
        "restart 1 6",
        "restart 1 15",
        "take 1 x",
    ] {
        assert_eq!(refusal(line), 2, "{line:?}");
    }
}

#[test]
fn refusals_come_lowest_first() {
    for (event, number) in [
        ("want 9 16", 2),
        ("want 9 15", 3),
        ("want 0 0", 3),
        ("send 9 1", 2),
        ("send 4 0", 3),
        ("take 9 1", 3),
        ("take 1 9", 3),
        ("take 1 2", 4),
        ("end 0 0", 4),
        ("hear 0 0", 3),
        ("hear 1 0", 8),
        ("hear 1 1", 8),
        ("hear 1 4294967295", 8),
        ("crash 0 0", 3),
        ("restart 1 7", 6),
        ("restart 4 8", 2),
        ("restart 4 0", 3),
        ("restart 0 7", 3),
    ] {
        assert_eq!(refusal(event), number, "{event}");
    }
}

#[test]
fn down_and_waiting_nodes_are_refused() {
    let events = "crash 1 0\nsend 1 0\nhear 1 1\nwant 1 1\ncrash 1 0\n\
        restart 1 1\nrestart 1 1\nsend 1 0\nwant 1 1\ncrash 1 0\nrestart 1 1\n\
        close 0 0\ntake 1 2\ntake 2 1\n";
    let expected = [
        (2, 5),
        (3, 5),
        (4, 5),
        (5, 5),
        (7, 6),
        (8, 5),
        (13, 5),
        (14, 5),
    ];
    assert_eq!(event_refusals(events), expected);
}

#[test]
fn distribution_refuses_what_belongs_to_negotiation() {
    let events = "send 1 0\nclose 0 0\nsend 1 0\nhear 1 1\nhear 9 1\nclose 0 0\n\
        take 1 1\ntake 1 2\nend 0 0\nend 0 0\nhear 2 1\n";
    let expected = [
        (3, 4),
        (4, 4),
        (5, 3),
        (6, 4),
        (7, 10),
        (8, 10),
        (10, 4),
        (11, 8),
    ];
    assert_eq!(event_refusals(events), expected);
}

#[test]
fn sender_neither_takes_nor_hears_itself() {
    let events = "send 2 0\nsend 3 0\nhear 2 1\nhear 1 1\nhear 1 2\nclose 0 0\n\
        take 1 1\ntake 1 2\ntake 2 1\n";
    assert_eq!(event_refusals(events), [(3, 9), (7, 10), (8, 10)]);
}

#[test]
fn packet_of_a_crashed_sender_is_heard() {
    let events = "send 2 0\ncrash 2 0\nrestart 2 2\nhear 2 1\nhear 1 1\n";
    assert_eq!(event_refusals(events), [(4, 5)]);
}

#[test]
fn phase_and_place_go_on_without_live_nodes() {
    let events = "crash 1 0\ncrash 2 0\ncrash 3 0\nclose 0 0\nclose 0 0\n\
        end 0 0\nrestart 1 1\nclose 0 0\nend 0 0\nsend 1 0\n";
    assert_eq!(event_refusals(events), [(5, 4)]);
}

#[test]
fn cut_event_line_is_not_run() {
    let output = replay_text(&format!("{HEAD}crash 1 0\ncrash 2 0"));
    let expected = "line refusal\n9 2\nnode state version flags request slots\n\
        1 down 0 0 0 0,0\n2 live 1 7 1 0,0\n3 live 1 7 1 0,0\n";
    assert_eq!(output, expected);
}

#[test]
fn script_without_events_lists_the_site() {
    let output = replay_text(HEAD);
    let expected = "line refusal\nnode state version flags request slots\n\
        1 live 1 7 1 0,0\n2 live 1 7 1 0,0\n3 live 1 7 1 0,0\n";
    assert_eq!(output, expected);
}

#[test]
fn script_of_40_000_bytes_is_the_longest() {
    let room = MAX_SCRIPT - HEAD.len();
    let longest = format!("{HEAD}{}\n", "x".repeat(room - 1));
    assert_eq!(longest.len(), 40_000);
    assert!(replay_text(&longest).starts_with("line refusal\n8 2\nnode state"));
    let longer = format!("{longest}\n");
    assert_eq!(replay_text(&longer), "line refusal\n0 15\n");
    assert_eq!(replay_text(&"\n".repeat(40_001)), "line refusal\n0 15\n");
}

#[test]
fn short_packet_area_is_refused_before_the_script() {
    let mut area = vec![0; AREA_LENGTH - 1];
    let output = replay_in(b"", &mut area);
    assert_eq!(output, b"line refusal\n0 15\n");
}

#[test]
fn contents_of_the_packet_area_do_not_matter() {
    for seed in 0..200 {
        let script = random_script(seed, Flavour::Plausible);
        let mut random = Random::new(seed);
        let mut area = vec![0; AREA_LENGTH + 3];
        area.fill_with(|| random.next_u32() as u8);
        let beyond = area[AREA_LENGTH..].to_vec();
        assert_eq!(replay_in(&script, &mut area), replay(&script));
        assert_eq!(area[AREA_LENGTH..], beyond);
    }
}

#[test]
fn every_byte_string_gets_an_answer() {
    let mut random = Random::new(1);
    for _ in 0..2_000 {
        let length = random.below(200);
        let noise: Vec<u8> = (0..length).map(|_| random.next_u32() as u8).collect();
        assert!(replay(&noise).starts_with(b"line refusal\n1 1\n"));
        let script = [HEAD.as_bytes(), &noise].concat();
        let output = replay(&script);
        let lines = noise.split_inclusive(|&byte| byte == b'\n').count();
        assert_eq!(refusals(&output).len(), lines);
    }
}
