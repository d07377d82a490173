//! `show`, `why`, `reduce` and `accounts`; the run of a long script.

mod common;

use common::random::{script, Random, Shape};
use common::{program, scratch, tool};
use hydra_desk::core::{Event, Kind, DONE};
use hydra_desk::run::Run;
use hydra_desk::source::Source;

fn open(text: &str) -> Run {
    let source = Source::from_bytes("test", text.as_bytes().to_vec());
    let run = Run::open(source, None).expect("bytes can be read");
    run.ok().expect("it is loaded")
}

#[test]
fn after_a_line_the_site_is_that_of_the_first_lines() {
    let text = std::fs::read_to_string(common::root().join("samples/crash-restart.script"))
        .expect("it is there");
    let lines: Vec<&str> = text.split_inclusive('\n').collect();
    for after in [7, 8, 30, 41, 80, 102] {
        let prefix = lines[..after].concat();
        let listing = program("replay", prefix.as_bytes());
        let (_, rows) = listing.split_once("node state").expect("it has rows");
        let ran = tool(
            &["show", "--after", &after.to_string(), "-"],
            text.as_bytes(),
        );
        let (_, shown) = ran.out.split_once("node state").expect("it has rows");
        assert_eq!(shown, rows, "after {after}");
    }
}

/// A merge shows as the specification says it (3.1): the sender is in M', and the hearer in the packet's flags.
#[test]
fn what_is_told_of_merging_is_what_the_packets_say() {
    let mut random = Random::new(5);
    let (mut merged, mut noted) = (0, 0);
    for seed in 0..80 {
        let shape = Shape::random(&mut random);
        let text = script(&mut random, &shape);
        let mut run = open(&text);
        run.merging = true;
        let mut before = run.site.clone();
        while let Some(step) = run.step().expect("bytes can be read") {
            if step.is(Kind::Hear) {
                let event = step.event.expect("it is a hearing");
                let packet = before.packet(event.with);
                let own = before
                    .would_send(event.node)
                    .expect("a box that hears can send");
                let both =
                    own.flags >> (packet.sender - 1) & packet.flags >> (event.node - 1) & 1 == 1;
                assert_eq!(
                    step.merged,
                    Some(both),
                    "seed {seed}, line {}",
                    step.line.number
                );
                merged += u32::from(both);
                noted += u32::from(!both);
            }
            before = run.site.clone();
        }
    }
    assert!(merged > 1000 && noted > 20, "{merged} {noted}");
}

/// In distribution a box sends, by its own report, just if another one can take from it or it can take from none.
#[test]
fn who_sends_is_who_can_be_taken_from() {
    let mut random = Random::new(6);
    let mut takes = 0;
    for seed in 0..60 {
        let shape = Shape::random(&mut random);
        let text = script(&mut random, &shape);
        let mut run = open(&text);
        while let Some(step) = run.step().expect("bytes can be read") {
            if !step.is(Kind::Close) {
                continue;
            }
            let nodes = run.settings().nodes;
            for (taker, sender) in (1..=nodes).flat_map(|a| (1..=nodes).map(move |b| (a, b))) {
                let mut copy = run.site.clone();
                let live = |node| copy.shown(node).is_some_and(|shown| shown.is_live());
                let sends = |node| run.site.sends(node);
                let roles = sends(sender) == Some(true) && sends(taker) == Some(false);
                let expected = live(taker) && live(sender) && roles;
                let answer = copy.event(Event::new(Kind::Take, taker, sender));
                assert_eq!(
                    answer == DONE,
                    expected,
                    "seed {seed}, line {}",
                    step.line.number
                );
                takes += u32::from(expected);
            }
        }
    }
    assert!(takes > 50, "{takes}");
}

#[test]
fn a_box_that_has_sent_eight_packets_can_still_be_asked() {
    let head = "nodes slots rounds heard split\n2 1 1 1 0\nnode version flags want\n1 1 3 1\n2 1 3 1\nevent node with\n";
    let text = format!("{head}{}send 2 0\nhear 1 9\n", "send 1 0\n".repeat(8));
    let ran = tool(&["show", "-"], text.as_bytes());
    assert!(
        ran.out.contains("packet 9 of box 2: heard by 1\n"),
        "{}",
        ran.out
    );
    let ran = tool(&["show", "--after", "16", "-"], text.as_bytes());
    let told =
        "    its packets of this round are all sent, so none shows what it knows now\n  box 2: ";
    assert!(ran.out.contains(told), "{}", ran.out);
}

#[test]
fn why_says_where_a_packet_was_heard_and_not_merged() {
    let ran = tool(&["why", "samples/crash-restart.script", "3"], b"");
    assert!(ran.out.contains(
        "line 80, close: says nothing: the request of box 1 is missing (heard, but not merged"
    ));
    let ran = tool(&["why", "samples/crash-restart.script"], b"");
    assert!(ran.out.contains(
        "line 50, close:\n  boxes 1, 2: each says nothing: the request of box 3 is missing\n"
    ));
}

#[test]
fn reduced_scripts_give_the_number_and_need_every_line() {
    let mut random = Random::new(9);
    let mut tried = 0;
    for _ in 0..40 {
        let shape = Shape {
            noise: 20,
            ..Shape::random(&mut random)
        };
        let text = script(&mut random, &shape);
        let listing = tool(&["show", "--listing", "-"], text.as_bytes()).out;
        let refused: Vec<(usize, u32)> = listing
            .lines()
            .skip(1)
            .map_while(|line| line.split_once(' '))
            .filter_map(|(line, number)| Some((line.parse().ok()?, number.parse().ok()?)))
            .collect();
        let Some(&(line, number)) = refused.get(refused.len() / 2) else {
            continue;
        };
        tried += 1;
        let words = [
            "reduce",
            "-",
            &number.to_string(),
            "--line",
            &line.to_string(),
        ];
        let reduced = tool(&words, text.as_bytes()).out;
        // The line's own event is the last, refused on the same ground, and no event can be left out.
        let own = text.lines().nth(line - 1).expect("it is there");
        assert_eq!(reduced.lines().last(), Some(own));
        let first: String = text.split_inclusive('\n').take(line).collect();
        let ground = last_refusal(&first);
        assert_eq!(last_refusal(&reduced), ground, "{reduced}");
        assert!(program("replay", reduced.as_bytes())
            .contains(&format!("\n{} {number}\n", reduced.lines().count())));
        let head = shape.nodes as usize + 4;
        let lines: Vec<&str> = reduced.split_inclusive('\n').collect();
        for left_out in head..lines.len() - 1 {
            let mut fewer = lines.clone();
            fewer.remove(left_out);
            assert_ne!(last_refusal(&fewer.concat()), ground, "{reduced}");
        }
    }
    assert!(tried > 15, "{tried}");
}

/// Number and ground of the last line, if it is refused. Numbers with one ground alone have words that count packets.
fn last_refusal(script: &str) -> Option<(String, String)> {
    let last = script.lines().count();
    let json = tool(&["check", "--json", "-"], script.as_bytes()).out;
    let (_, refusal) = json.split_once(&format!("{{\"line\":{last},"))?;
    let (_, behind) = refusal.split_once("\"number\":")?;
    let (number, behind) = behind.split_once(",\"sentence\":")?;
    let (sentence, _) = behind.split_once(",\"ordinary\"")?;
    let several = ["3", "5", "10"].contains(&number);
    Some((
        number.to_string(),
        if several {
            sentence.to_string()
        } else {
            String::new()
        },
    ))
}

#[test]
fn reduce_keeps_the_ground_of_a_line() {
    // Box 3 waits there. That it is down would give the same number.
    let ran = tool(
        &[
            "reduce",
            "samples/crash-restart.script",
            "5",
            "--line",
            "41",
        ],
        b"",
    );
    assert!(
        ran.out
            .ends_with("event node with\ncrash 3 0\nrestart 3 7\nsend 3 0\n"),
        "{}",
        ran.out
    );
}

#[test]
fn reduce_says_what_it_cannot_do() {
    let ran = tool(&["reduce", "samples/whole-case.script", "9"], b"");
    assert_eq!((ran.status, ran.out.as_str()), (1, ""));
    assert!(ran.err.contains("gives no refusal 9"));
    let ran = tool(
        &["reduce", "samples/whole-case.script", "10", "--line", "12"],
        b"",
    );
    assert!(ran.err.contains("line 12 is accepted, not refused with 10"));
    let ran = tool(&["reduce", "samples/whole-case.script", "10"], b"");
    let expected = std::fs::read_to_string(common::root().join("samples/whole-case.reduced"))
        .expect("it is there");
    assert_eq!(ran.out, expected);
}

/// 400 epochs of 6 boxes, far above 40,000 bytes.
fn long_script() -> String {
    let shape = Shape {
        nodes: 6,
        rounds: 1,
        epochs: 400,
        loss: 1,
        noise: 0,
    };
    script(&mut Random::new(2), &shape)
}

#[test]
fn long_scripts_have_no_limit() {
    let text = long_script();
    assert!(text.len() > 100_000);
    let file = scratch("long.script", text.as_bytes());
    let ran = tool(&["check", &file], b"");
    assert!(ran.status <= 1, "{}", ran.out);
    // The reports of the first closes are those of the program, and all closes have some.
    let cut = text[..40_000].rfind('\n').expect("it has lines") + 1;
    let lines = text[..cut].lines().count();
    let ran = tool(&["why", "--listing", &file], b"");
    let line_of = |line: &str| {
        line.split(' ')
            .next()
            .and_then(|number| number.parse::<usize>().ok())
    };
    let first: Vec<&str> = ran
        .out
        .lines()
        .filter(|line| line_of(line).is_none_or(|number| number <= lines))
        .collect();
    let expected = program("why", &text.as_bytes()[..cut]);
    assert_eq!(first, expected.lines().collect::<Vec<&str>>());
    assert_eq!(ran.out.lines().count(), 1 + 6 * 400);
    // A refusal far behind is reduced too.
    let text = format!("{text}crash 2 0\nhear 2 1\n");
    let ran = tool(&["reduce", "-", "5"], text.as_bytes());
    assert!(
        ran.out.ends_with("event node with\ncrash 2 0\nhear 2 1\n"),
        "{}",
        ran.out
    );
}

#[test]
fn accounts_by_month_add_up() {
    let text = long_script();
    let whole = tool(&["accounts", "--csv", "-"], text.as_bytes()).out;
    let months = tool(
        &["accounts", "--csv", "--month", "100", "-"],
        text.as_bytes(),
    )
    .out;
    let sum = |csv: &str, of: &str, field: usize| -> u64 {
        let rows = csv
            .lines()
            .skip(1)
            .map(|line| line.split(',').collect::<Vec<&str>>());
        rows.filter(|row| row[3] == of)
            .map(|row| row[field].parse::<u64>().expect("a number"))
            .sum()
    };
    for of in ["1", "2", "3", "4", "5", "6", "total"] {
        assert_eq!(sum(&whole, of, 4), sum(&months, of, 4));
        assert_eq!(sum(&whole, of, 2), 401);
        assert_eq!(sum(&months, of, 2), 401);
    }
    assert_eq!(
        (1..=6)
            .map(|node| sum(&whole, &node.to_string(), 4))
            .sum::<u64>(),
        sum(&whole, "total", 4)
    );
    let total = sum(&whole, "total", 4);
    assert!(total > 400, "{total}");
    // Month 1 is the tally of the first hundred epochs.
    assert_eq!(
        months
            .lines()
            .filter(|line| line.starts_with("-,1,100,"))
            .count(),
        7
    );
    let ran = tool(&["accounts", "samples/whole-case.script"], b"");
    assert!(ran.out.contains("total             3\n"), "{}", ran.out);
}

#[test]
fn help_man_page_and_completion_name_every_command() {
    let help = tool(&["--help"], b"").out;
    let man =
        std::fs::read_to_string(common::root().join("docs/man/hydra-desk.1")).expect("it is there");
    let names = [
        "check",
        "show",
        "why",
        "picture",
        "reduce",
        "windows",
        "accounts",
        "merge",
        "completion",
    ];
    assert_eq!(help.matches("\n  ").count(), names.len());
    for name in names {
        assert!(help.contains(&format!("\n  {name} ")), "{name}");
        let own = tool(&[name, "--help"], b"").out;
        for shell in ["bash", "zsh", "fish"] {
            assert!(
                tool(&["completion", shell], b"").out.contains(name),
                "{name} {shell}"
            );
        }
        assert!(man.contains(&format!(".B {name}")), "{name}");
        for option in own.split_whitespace().filter(|word| word.starts_with("--")) {
            assert!(man.contains(&option.replace('-', "\\-")), "{name} {option}");
        }
    }
}

/// What bash offers behind these words.
fn offered(words: &str) -> String {
    let line = format!(
        "source <({} completion bash); COMP_WORDS=(hydra-desk {words}); COMP_CWORD=$((${{#COMP_WORDS[@]}} - 1)); _hydra_desk; echo \"${{COMPREPLY[@]}}\"",
        env!("CARGO_BIN_EXE_hydra-desk")
    );
    let output = std::process::Command::new("bash")
        .args(["-c", &line])
        .current_dir(common::root().join("samples"))
        .output()
        .expect("bash is there");
    String::from_utf8(output.stdout).expect("it writes text")
}

#[test]
fn bash_completes_commands_options_and_files() {
    assert_eq!(offered("ch"), "check\n");
    assert_eq!(offered("reduce --l"), "--line\n");
    assert_eq!(offered("picture -o"), "-o\n");
    assert_eq!(offered("show whole-case.s"), "whole-case.script\n");
}

/// Several files: what is printed of each is what is printed of it alone, in the order of the names.
#[test]
fn several_files_at_once() {
    let names = [
        "whole-case",
        "three-of-five",
        "crash-restart",
        "split-heals",
    ]
    .map(|name| format!("samples/{name}.script"));
    for before in [vec!["check"], vec!["check", "--json"], vec!["accounts"]] {
        let of = |names: &[String]| {
            let words = before
                .iter()
                .copied()
                .chain(names.iter().map(String::as_str));
            tool(&words.collect::<Vec<&str>>(), b"").out
        };
        let alone: String = names
            .iter()
            .map(|name| of(std::slice::from_ref(name)))
            .collect();
        assert_eq!(of(&names), alone, "{before:?}");
    }
    // One line of names for all of them.
    let csv = tool(&["accounts", "--csv", &names[0], &names[1]], b"").out;
    assert_eq!(csv.matches("file,month,epochs").count(), 1);
    assert!(
        csv.contains("samples/whole-case.script,1,2,total,3,\n"),
        "{csv}"
    );
    assert!(csv.contains("\nsamples/three-of-five.script,1,"), "{csv}");
}

/// Three boxes of one round: their logs become the script, in any order; and files that are no logs are told by name.
#[test]
fn logs_become_one_script_or_sentences() {
    let log = |node: u32, own: &str| {
        let text = format!(
            "settings 9 {node} 3 4 2 1 0\n0 negotiation begin 1 7 2\n{own}0 negotiation close missing 1\n0 distribution area 00\n"
        );
        scratch(&format!("merge-{node}.log"), text.as_bytes())
    };
    let logs = [
        log(3, ""),
        log(1, "0 negotiation hear 2 1\n"),
        log(2, "0 negotiation send 1\n"),
    ];
    let ran = tool(&["merge", &logs[0], &logs[1], &logs[2]], b"");
    assert_eq!((ran.status, ran.err.as_str()), (0, ""));
    let (_, events) = ran
        .out
        .split_once("event node with\n")
        .expect("it has events");
    assert_eq!(events, "send 2 0\nhear 1 1\nclose 0 0\n");
    let checked = tool(&["check", "-"], ran.out.as_bytes());
    assert_eq!(checked.status, 0, "{}", checked.out);

    let bad = scratch("merge-bad.log", b"not a log\n");
    let ran = tool(&["merge", &bad], b"");
    assert_eq!((ran.status, ran.out.as_str()), (2, ""));
    assert!(ran.err.contains("merge-bad.log"), "{}", ran.err);
    assert_eq!(tool(&["merge"], b"").status, 2);
}

/// Of a script of any length it is told whether a taker sends itself.
#[test]
fn takers_that_send_themselves_are_ordinary_in_long_scripts() {
    let head =
        "nodes slots rounds heard split\n2 4 1 1 0\nnode version flags want\n1 1 3 1\n2 1 3 1\n\
        event node with\n";
    let round = "send 1 0\nhear 2 1\nsend 2 0\nhear 1 2\nclose 0 0\ntake 1 2\nend 0 0\n";
    let text = format!("{head}{}", round.repeat(1_000));
    assert!(text.len() > 40_000);
    let told = tool(&["check", "-"], text.as_bytes()).out;
    let counted = "by number: 1,000 with 10 (ordinary: a taker that sends itself)\n";
    assert!(told.ends_with(counted), "{told}");
}

/// A box that has determined a schedule may repeat its old one: box 2 takes an older version, and box 1 meets it.
#[test]
fn a_box_may_repeat_while_a_schedule_is_determined() {
    let head = "nodes slots rounds heard split\n4 4 3 1 1\nnode version flags want\n1 1 3 1\n2 1 3 1\n3 1 12 1\n4 0 12 1\n\
        event node with\n";
    let first = "send 1 0\nhear 2 1\nsend 2 0\nhear 1 2\n";
    let other = "send 3 0\nhear 4 1\nsend 4 0\nhear 3 2\n";
    let both = "send 3 0\nhear 4 3\nsend 4 0\nhear 3 4\n";
    let over = "close 0 0\nend 0 0\n";
    let epoch = format!("{first}{over}{over}{other}{over}");
    let next = format!("{first}{both}close 0 0\ntake 2 3\nend 0 0\n{first}close 0 0\ntake 2 1\n");
    let text = format!("{head}{epoch}{next}");
    let told = tool(&["show", "-"], text.as_bytes()).out;
    let sentence =
        "    box 1: has determined a new schedule; it goes out with the epoch's last close, \
        and until then it repeats version 2\n";
    assert!(told.contains(sentence), "{told}");
    assert!(
        told.contains("box 2 takes version 2 from box 1\n"),
        "{told}"
    );
    let page = tool(&["picture", "-o", "-", "-"], text.as_bytes()).out;
    assert!(page.contains(">repeats version 2</text>"), "{page}");
}

#[test]
fn the_version_is_that_of_the_release() {
    let release = std::fs::read_to_string(common::root().join("VERSION")).expect("it is there");
    let told = tool(&["--version"], b"").out;
    assert_eq!(told, format!("hydra-desk {release}"));
}
