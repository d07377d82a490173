//! Of `merge`: small logs, and the script or the sentences that they give.
use super::merge;

/// The log of a box of a site with three boxes, four slots and two rounds in an epoch, that may split: so a box with
/// its own flag alone sends a new schedule at each second close. A line begins with `n5` for the negotiation of round 5
/// and with `d5` for its distribution.
fn log(node: u32, lines: &str) -> (String, String) {
    let line = |line: &str| match line.split_at(1) {
        ("n", rest) => format!("{}\n", rest.replacen(' ', " negotiation ", 1)),
        ("d", rest) => format!("{}\n", rest.replacen(' ', " distribution ", 1)),
        _ => format!("{line}\n"),
    };
    let lines: String = lines.split("; ").map(line).collect();
    (
        format!("box-{node}"),
        format!("settings 9 {node} 3 4 2 1 1\n{lines}"),
    )
}

/// The log of a box that makes only the closes and ends of some rounds, and ends in order.
fn quiet(node: u32, rounds: u32) -> (String, String) {
    let mut lines = "n0 begin 1 7 2".to_string();
    for r in 0..rounds {
        lines += &format!("; n{r} close missing 1; d{r} end");
    }
    log(node, &format!("{lines}; n{rounds} area 00"))
}

/// The events of the script, in one line.
fn events(logs: &[(String, String)]) -> String {
    let script = merge(logs).unwrap_or_else(|faults| panic!("{faults:?}"));
    let (_, events) = script.split_once("event node with\n").unwrap();
    events.trim_end().replace('\n', "; ")
}

fn fault(logs: &[(String, String)]) -> String {
    merge(logs).expect_err("a script").join(" ")
}

#[test]
fn packets_are_sent_before_they_are_heard_and_numbered_as_sent() {
    let first =
        "n0 begin 1 7 2; n0 hear 3 1; n0 send 1; n0 hear 2 2; n0 close missing 0; d0 area 00";
    let second = "n0 begin 1 7 1; n0 send 1; n0 hear 1 1; n0 send 2; n0 want 4; n0 late 2";
    let second = format!("{second}; n0 use 1 5 6; n0 close sent 0; d0 refused take 10; d0 area 00");
    let third = "n0 begin 0 5 0; n0 send 1; n0 close missing 0; d0 want 3; d0 area 00";
    let mut logs = vec![log(1, first), log(2, &second), log(3, third)];
    let head = "nodes slots rounds heard split\n3 4 2 1 1\n";
    let table = "node version flags want\n1 1 7 2\n2 1 7 1\n3 0 5 0\n";
    let script = merge(&logs).unwrap();
    assert!(script.starts_with(&format!("{head}{table}event node with\nsend 2 0\n")));
    let sorted = "send 2 0; send 3 0; hear 1 2; send 1 0; hear 2 3; send 2 0; want 2 4; hear 1 4";
    assert_eq!(events(&logs), format!("{sorted}; close 0 0; want 3 3"));
    logs.reverse();
    assert_eq!(merge(&logs), Ok(script));
}

#[test]
fn takings_come_before_the_crash_of_their_sender() {
    let begun = "n0 begin 1 1 2; n0 close determined 0; d0 end";
    let killed = log(1, &format!("{begun}; n1 close sent 0"));
    let begun = "n0 begin 1 7 2; n0 close missing 1; d0 end";
    let takes = "n1 close missing 1; d1 want 3; d1 take 1; d1 end; n2 area 00";
    let taker = log(2, &format!("{begun}; {takes}"));
    let sorted = "close 0 0; end 0 0; close 0 0; want 2 3; take 2 1; crash 1 0; end 0 0";
    assert_eq!(events(&[killed, taker, quiet(3, 2)]), sorted);
}

#[test]
fn a_restart_in_a_distribution_comes_behind_the_takings_of_others() {
    let begun = "n0 begin 1 7 2; n0 close missing 1; d0 end";
    let again = "settings 9 1 3 4 2 1 1";
    let back = format!("{begun}; {again}; d1 restart 5; d1 want 4; d1 end; n2 send 1");
    let taker = log(2, &format!("{begun}; n1 close missing 1; d1 take 3"));
    let sender =
        "n0 begin 1 4 2; n0 close determined 0; d0 end; n1 close sent 0; d1 end; n2 area 00";
    let first = "close 0 0; end 0 0; crash 1 0; close 0 0; take 2 3; restart 1 5; want 1 4; crash 2 0; end 0 0";
    assert_eq!(
        events(&[log(1, &back), taker, log(3, sender)]),
        format!("{first}; send 1 0; crash 1 0")
    );
}

#[test]
fn a_waiting_box_goes_on_without_a_close() {
    let back = "n0 begin 1 7 2; n0 restart 1; d0 want 1; d0 end; n1 want 2; d1 end; n2 area 00";
    let sorted =
        "crash 1 0; restart 1 1; close 0 0; want 1 1; end 0 0; want 1 2; close 0 0; end 0 0";
    assert_eq!(events(&[log(1, back), quiet(2, 2), quiet(3, 2)]), sorted);
}

#[test]
fn a_box_that_was_never_up_or_ended_early_is_down() {
    let never = ("never".to_string(), "settings 9 1 3 4 2 1 1\n".to_string());
    let sorted = "crash 1 0; close 0 0; end 0 0; crash 2 0; close 0 0; end 0 0";
    assert_eq!(events(&[never, quiet(2, 1), quiet(3, 2)]), sorted);
    let late = log(1, "n1 restart 7; d1 end; n2 area 00");
    let sorted = "crash 1 0; close 0 0; end 0 0; restart 1 7; close 0 0; end 0 0";
    assert_eq!(events(&[late, quiet(2, 2), quiet(3, 2)]), sorted);
}

#[test]
fn half_a_line_at_the_end_is_left_out() {
    let (name, text) = log(1, "n0 begin 1 7 2; n0 send 1");
    let cut = (name, text + "0 negotiation se");
    assert_eq!(
        events(&[cut, quiet(2, 0), quiet(3, 0)]),
        "send 1 0; crash 1 0"
    );
}

/// What is said of a log of box 1 beside quiet logs of the others.
fn told(first: (String, String)) -> String {
    fault(&[first, quiet(2, 2), quiet(3, 2)])
}

#[test]
fn what_does_not_fit_is_told_with_its_line() {
    let hears = "box 1 hears packet 1 of box";
    let at_start = "the negotiation of round 0";
    let cases = [
        (
            "n0 hear 2 1",
            3,
            format!("{hears} 2 in round 0, which no log sent"),
        ),
        (
            "n0 hear 9 1",
            3,
            format!("{hears} 9 in round 0, which no log sent"),
        ),
        (
            "n0 send 1; n0 hear 1 1",
            4,
            format!("{hears} 1 in round 0, which no log sent"),
        ),
        (
            "n0 close top 0; d0 take 4",
            4,
            "box 1 takes from box 4 in round 0, which that box did not close".into(),
        ),
        (
            "n1 send 1",
            3,
            format!("the line is of the negotiation of round 1, but the box is in {at_start}"),
        ),
        (
            "n0 close top 0; d0 end; n0 restart 7",
            5,
            format!("it restarts in {at_start}, but had come to the negotiation of round 1"),
        ),
        (
            "n0 take 2",
            3,
            "`take 1 2` is refused, the round is not closed: a `close 0 0` is missing before this line (4)".into(),
        ),
        (
            "n0 restart 7; n0 send 1",
            4,
            "`send 1 0` is refused, box 1 is waiting for the end of the epoch (5)".into(),
        ),
        (
            "n0 restart 7; n0 close missing 2",
            4,
            "box 1 closes round 0, but waits there".into(),
        ),
        (
            "n0 end",
            3,
            format!("a box does not do that in {at_start}"),
        ),
        (
            "n0 send 1; n0 send 1",
            4,
            "packet 1 of round 0 is sent again".into(),
        ),
        (
            "n0 area 00; n0 want 1",
            4,
            "the box is down here: a begin or a restart is missing".into(),
        ),
        (
            "n0 begin 1 7 2",
            3,
            "a box begins once, in round 0; later it restarts".into(),
        ),
        (
            "n0 sned 1",
            3,
            "\"0 negotiation sned 1\" is no line of a log".into(),
        ),
        (
            "n0 send 01",
            3,
            "\"0 negotiation send 01\" is no line of a log".into(),
        ),
        (
            "settings 9 1 3 4 3 1 0",
            3,
            "the settings are not those of line 1".into(),
        ),
    ];
    for (lines, line, sentence) in cases {
        let log = log(1, &format!("n0 begin 1 7 2; {lines}"));
        assert_eq!(told(log), format!("box-1, line {line}: {sentence}."));
    }
    let gap = "box-1: box 1 goes on from round 0 without a close, and does not wait there.";
    assert_eq!(told(log(1, "n0 begin 1 7 2; d0 want 1")), gap);
    let down = "box-1, line 2: the box is down here: a begin or a restart is missing.";
    assert_eq!(told(log(1, "n0 send 1")), down);
    let ahead =
        "box-1, line 2: it restarts in the distribution of round 2, where no other box has come.";
    assert_eq!(told(log(1, "d2 restart 7")), ahead);
    let late = "box-1, line 2: a box begins once, in round 0; later it restarts.";
    assert_eq!(told(log(1, "n3 begin 1 7 2")), late);
}

#[test]
fn logs_that_are_not_of_one_site_are_told() {
    let head = |settings: &str| told(("other".to_string(), format!("settings {settings}\n")));
    let differ = "other and box-2: the settings differ. other and box-3: the settings differ.";
    assert_eq!(head("9 1 3 5 2 1 0"), differ);
    assert_eq!(head("8 1 3 4 2 1 0"), differ);
    assert_eq!(
        head("9 4 3 4 2 1 0"),
        "other, line 1: the settings are out of range."
    );
    assert_eq!(
        head("9 1 3 4 2 1"),
        "other: the first line is not the settings of a box."
    );
    assert_eq!(fault(&[]), "There is no log.");
    let missing = "There is no log of box 1; if it was never up, its settings are enough.";
    assert_eq!(fault(&[quiet(2, 1), quiet(3, 1)]), missing);
    let twice = [quiet(1, 1), quiet(2, 1), quiet(2, 1), quiet(3, 1)];
    assert_eq!(fault(&twice), "box-2 and box-2: both are logs of box 2.");
}

#[test]
fn packets_heard_in_a_circle_are_told() {
    let first = log(1, "n0 begin 1 7 2; n0 hear 2 1; n0 send 1");
    let second = log(2, "n0 begin 1 7 2; n0 hear 1 1; n0 send 1");
    let circle = "In the negotiation of round 0 packets are heard before they are sent.";
    assert_eq!(fault(&[first, second, quiet(3, 0)]), circle);
}
