//! What the tool says of lines that are refused or can't be read, and with which status it ends.

mod common;

use common::tool;

const HEAD: &str = "nodes slots rounds heard split\n3 4 1 1 0\nnode version flags want\n1 1 7 2\n2 1 7 2\n3 1 7 2\nevent node with\n";

fn check(script: &str) -> (String, i32) {
    let ran = tool(&["check", "-"], script.as_bytes());
    assert_eq!(ran.err, "");
    (ran.out, ran.status)
}

/// The events behind the head: what is said, and the status.
fn said(events: &str, sentence: &str, status: i32) {
    let (out, got) = check(&format!("{HEAD}{events}"));
    assert!(out.contains(sentence), "{out}");
    assert_eq!(got, status, "{out}");
}

/// The whole script, with a part of it replaced.
fn said_of_head(from: &str, to: &str, sentence: &str) {
    assert!(HEAD.contains(from));
    let (out, status) = check(&HEAD.replacen(from, to, 1));
    assert!(out.contains(sentence), "{out}");
    assert_eq!(status, 2);
}

#[test]
fn of_lines_before_the_events() {
    said_of_head(
        "\n",
        "\r\n",
        "line 1  nodes slots rounds heard split\u{fffd}\n    the line ends with CR LF",
    );
    said_of_head(
        "3 1 7 2\n",
        "",
        "line 6  event node with\n    the row of box 3 is missing: the settings say 3 boxes (2)",
    );
    said_of_head(
        "3 1 7 2\n",
        "3 1 7 2\n4 1 7 2\n",
        "the names line `event node with` belongs here: the table has a row too many (1)",
    );
    said_of_head(
        "event node with\n",
        "send 1 0\n",
        "the names line `event node with` belongs here: it is missing (1)",
    );
    said_of_head(
        "event node with\n",
        "",
        "line 7\n    the file ends here; the names line `event node with` belongs here (1)",
    );
    said_of_head(
        "event node with\n",
        "event node with",
        "the line has no newline (1)",
    );
    said_of_head(
        "3 4 1 1 0",
        "33 4 1 1 0",
        "a site has 1 to 32 boxes, not 33 (2)",
    );
    said_of_head(
        "3 4 1 1 0",
        "3 81 1 1 0",
        "a site has 1 to 80 slots, not 81 (2)",
    );
    said_of_head(
        "3 4 1 1 0",
        "3 4 0 1 0",
        "an epoch has 1 to 32 rounds, not 0 (2)",
    );
    said_of_head(
        "3 4 1 1 0",
        "3 4 1 2 0",
        "heard is 1 to the rounds of an epoch, 1, and not 2 (2)",
    );
    said_of_head("3 4 1 1 0", "3 4 1 1 2", "split is 0 or 1, not 2 (2)");
    said_of_head("3 4 1 1 0", "3 4 1 1", "the line wants five numbers");
    said_of_head(
        "2 1 7 2",
        "2 2 7 2",
        "a site begins at version 0 or 1, not 2 (2)",
    );
    said_of_head(
        "2 1 7 2",
        "2 1 5 2",
        "the flags 5 must have box 2 itself and no box above 3 (2)",
    );
    said_of_head(
        "2 1 7 2",
        "2 1 7 16",
        "a box wants 0 to 15 slots, not 16 (2)",
    );
    said_of_head(
        "2 1 7 2",
        "3 1 7 2",
        "the row of box 2 belongs here, not that of box 3 (2)",
    );
}

#[test]
fn of_event_lines_that_cannot_be_read() {
    said(
        "sned 1 0\n",
        "no event is called `sned`: `send` is meant (2)\n    as `send 1 0` it is accepted",
        2,
    );
    said("Close 0 0\n", "`close` is meant", 2);
    said("clsoe\n", "as `close 0 0` it is accepted", 2);
    said("restrat 1 7\n", "`restart` is meant", 2);
    said(
        "close 0 0",
        "the last line has no newline, so it is not run (2)\n    as `close 0 0` it is accepted",
        2,
    );
    said("send 1 0\r\n", "CR LF", 2);
    said("send\t1 0\n", "a tab stands where one space belongs (2)", 2);
    said("send  1 0\n", "fields are separated by one space", 2);
    said(
        "send 01 0\n",
        "`01` has a leading zero (2)\n    as `send 1 0` it is accepted",
        2,
    );
    said(
        "send 99999999999 0\n",
        "`99999999999` is above 4294967295 (2)",
        2,
    );
    said("send one 0\n", "`one` is not a decimal number (2)", 2);
    said(
        "send 1\n",
        "`send` stands with two numbers, not 1 (2)\n    as `send 1 0`",
        2,
    );
    said(
        "close\n",
        "`close` stands with two zeros (2)\n    as `close 0 0`",
        2,
    );
    said("\n", "the line is empty", 2);
    said("# the night shift\n", "no event is called `#`", 2);
    // What a terminal would obey is not printed.
    said(
        "se\x1bnd 1 0\n",
        "no event is called `se\u{fffd}nd`: `send` is meant (2)",
        2,
    );
    said("send 1 1\n", "the last number of `send` must be 0 (2)", 2);
}

#[test]
fn of_events_that_are_refused() {
    said(
        "send 4 0\n",
        "there is no box 4: the site has boxes 1 to 3 (3)",
        1,
    );
    said(
        "close 0 0\nsend 1 0\n",
        "an `end 0 0` is missing before this line (4)",
        1,
    );
    said(
        "take 1 2\n",
        "a `close 0 0` is missing before this line (4)",
        1,
    );
    said("crash 3 0\nsend 3 0\n", "box 3 is down (5)", 1);
    said(
        "restart 3 7\n",
        "box 3 is live, not down: its crash is missing before this line (6)",
        1,
    );
    said(
        &"send 1 0\n".repeat(9),
        "box 1 has sent its 8 packets of this round (7)",
        1,
    );
    said(
        "hear 1 1\n",
        "there is no packet 1: none was sent in this round (8)",
        1,
    );
    said(
        "send 1 0\nhear 2 2\n",
        "there is no packet 2: 1 packet sent so far in this round (8)",
        1,
    );
    said("send 1 0\nhear 1 1\n", "packet 1 is box 1's own (9)", 1);
    said(
        "close 0 0\ntake 3 2\n",
        "box 2 sends no schedule in this round (10)",
        1,
    );
    said(
        "send 2 0\nsend 3 0\nhear 1 1\nhear 1 2\nclose 0 0\ntake 3 2\n",
        "box 2 sends no schedule in this round (10)",
        1,
    );
    said("close 0 0\nend 0 0\n", "2 events, none refused", 0);
}

#[test]
fn ordinary_refusals_are_folded() {
    let waiting = "crash 3 0\nrestart 3 7\nsend 3 0\n";
    let (out, status) = check(&format!("{HEAD}{waiting}"));
    assert_eq!(status, 1);
    assert!(!out.contains("line 10"), "{out}");
    assert!(
        out.contains("by number: 1 with 5 (ordinary: a box that waits)"),
        "{out}"
    );
    let all = tool(
        &["check", "--all", "-"],
        format!("{HEAD}{waiting}").as_bytes(),
    );
    assert!(all
        .out
        .contains("line 10  send 3 0\n    box 3 is waiting for the end of the epoch (5)"));

    let sending = "send 2 0\nsend 3 0\nhear 1 1\nhear 1 2\nclose 0 0\ntake 1 2\n";
    let (out, _) = check(&format!("{HEAD}{sending}"));
    assert!(
        out.contains("by number: 1 with 10 (ordinary: a taker that sends itself)"),
        "{out}"
    );
}

#[test]
fn causes_stand_before_what_follows_from_them() {
    // The typo loses packet 1, so the second packet gets its number, and packet 2 is not there.
    said(
        "sned 1 0\nsend 2 0\nhear 3 2\nhear 1 2\n",
        "line 8  sned 1 0\n    no event is called `sned`: `send` is meant (2)\n    as `send 1 0` it is accepted, and so are the refused lines 10, 11",
        2,
    );
    // An end is missing: the second round is refused up to its close.
    said(
        "close 0 0\nsend 1 0\nhear 2 1\nhear 3 1\nclose 0 0\nend 0 0\n",
        "with `end 0 0` before it it is accepted, and so are the refused lines 10-12",
        1,
    );
    // A box that waits sends nothing, so its packet is missing.
    said(
        "crash 3 0\nrestart 3 7\nsend 3 0\nsend 1 0\nhear 2 2\n",
        "box 3 is waiting for the end of the epoch (5)\n    line 12: refused because its packet is missing",
        1,
    );
    // Two causes, each with its own.
    let (out, _) = check(&format!("{HEAD}sned 1 0\nsedn 2 0\nhear 3 1\nhear 3 2\n"));
    assert!(
        out.contains("as `send 1 0` it is accepted, and so are the refused line 10"),
        "{out}"
    );
    assert!(
        out.contains("as `send 2 0` it is accepted, and so are the refused line 11"),
        "{out}"
    );
}

/// Every command that runs a script ends with the status of its worst line.
#[test]
fn the_status_is_that_of_the_worst_line() {
    let commands: [&[&str]; 7] = [
        &["check", "-"],
        &["show", "-"],
        &["show", "--listing", "-"],
        &["why", "-"],
        &["why", "--listing", "-"],
        &["picture", "-o", "-", "-"],
        &["accounts", "-"],
    ];
    let typo = format!("{HEAD}take 1 2\nsned 1 0\n");
    let scripts = [
        (format!("{HEAD}send 1 0\n"), 0),
        (format!("{HEAD}take 1 2\n"), 1),
        (typo, 2),
        (HEAD.replacen("3 1 7 2\n", "", 1), 2),
    ];
    for (script, status) in scripts {
        for words in commands {
            let ran = tool(words, script.as_bytes());
            assert_eq!(ran.status, status, "{words:?} {script}");
        }
    }
}

#[test]
fn files_that_cannot_be_read_or_written() {
    let none = tool(
        &[
            "check",
            "samples/none.script",
            "samples/three-of-five.script",
        ],
        b"",
    );
    assert_eq!(none.status, 2);
    assert!(none.err.contains("samples/none.script can't be read"));
    assert!(none
        .out
        .contains("samples/three-of-five.script: 24 events, none refused"));
    assert_eq!(tool(&["check", "."], b"").status, 2);
    assert_eq!(tool(&["check"], b"").status, 2);
    assert_eq!(tool(&[], b"").status, 2);
    assert_eq!(tool(&["chek"], b"").status, 2);
    assert_eq!(tool(&["check", "--jsn", "-"], b"").status, 2);
    assert_eq!(tool(&["check", "--help"], b"").status, 0);
    let full = std::process::Command::new("sh")
        .arg("-c")
        .arg(format!(
            "{} check samples/whole-case.script >/dev/full",
            env!("CARGO_BIN_EXE_hydra-desk")
        ))
        .current_dir(common::root())
        .output()
        .expect("a shell is there");
    assert_eq!(full.status.code(), Some(3));
}

#[test]
fn no_colours_where_nobody_looks() {
    let (out, _) = check(&format!("{HEAD}sned 1 0\n"));
    assert!(!out.contains('\x1b'));
}

/// Where all boxes have determined a schedule that is not yet due, no take shows who sends.
#[test]
fn of_takes_before_the_last_close() {
    let events = "send 1 0\nhear 2 1\nhear 3 1\nsend 2 0\nhear 1 2\nhear 3 2\nsend 3 0\nhear 1 3\nhear 2 3\n\
        close 0 0\ntake 2 1\n";
    let two_rounds = HEAD.replacen("3 4 1 1 0", "3 4 2 1 0", 1);
    let (out, status) = check(&format!("{two_rounds}{events}"));
    let sentence =
        "box 1 has determined a new schedule, and sends it with the epoch's last close (10)";
    assert!(out.contains(sentence), "{out}");
    assert_eq!(status, 1);
}
