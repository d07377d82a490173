//! Pages without a browser: well formed, complete, and with the counts of the script and of `why`.
//! They are left in `target/pictures`, where `tests/pictures` opens them.

mod common;

use std::path::PathBuf;
use std::sync::atomic::{AtomicUsize, Ordering};

use common::markup::{self, Page};
use common::{program, samples, sites, tool};
use hydra_desk::core::{Kind, DONE};
use hydra_desk::run::Run;
use hydra_desk::source::Source;

fn folder() -> PathBuf {
    let folder = common::root().join("target/pictures");
    std::fs::create_dir_all(&folder).expect("it can be made");
    folder
}

/// The page of a script. Tests that run at the same time may draw the same one, so each works in a folder of its own.
fn drawn(name: &str, script: &[u8]) -> (String, Page) {
    static DRAWN: AtomicUsize = AtomicUsize::new(0);
    let turn = DRAWN.fetch_add(1, Ordering::Relaxed);
    let own = folder().join(format!("{turn}.part"));
    std::fs::create_dir_all(&own).expect("it can be made");
    let [source, target] = ["script", "html"].map(|kind| own.join(format!("{name}.{kind}")));
    std::fs::write(&source, script).expect("it can be written");
    let words = [&source, &target].map(|path| path.to_string_lossy());
    let ran = tool(&["picture", &words[0], "-o", &words[1]], b"");
    assert_eq!((ran.err.as_str(), ran.out.as_str()), ("", ""), "{name}");
    let text = std::fs::read_to_string(&target).expect("it was written");
    std::fs::rename(target, folder().join(format!("{name}.html"))).expect("it can be moved");
    std::fs::remove_dir_all(own).expect("it can be removed");
    let page = markup::read(&text);
    (text, page)
}

/// Accepted lines of a kind.
fn accepted(script: &[u8]) -> impl Fn(Kind) -> u64 {
    let source = Source::from_bytes("test", script.to_vec());
    let mut run = Run::open(source, None)
        .expect("bytes can be read")
        .ok()
        .expect("it is loaded");
    let mut kinds = Vec::new();
    while let Some(step) = run.step().expect("bytes can be read") {
        if step.answer == DONE {
            kinds.extend(step.event.map(|event| event.kind));
        }
    }
    move |kind| kinds.iter().filter(|known| **known == kind).count() as u64
}

/// The sums over all paragraphs of the number before `behind`.
fn told(page: &Page, behind: &str) -> u64 {
    let paragraphs = page.texts.iter().filter(|(inside, _)| inside == "p");
    let number = |(_, text): &(String, String)| -> u64 {
        let first = text.split('.').next().unwrap_or("");
        let part = first
            .split(", ")
            .find(|part| part.ends_with(behind) || part.starts_with(behind));
        let Some(part) = part else {
            return 0;
        };
        let digits: String = part.chars().filter(char::is_ascii_digit).collect();
        match digits.as_str() {
            "" => u64::from(part.contains("once")),
            digits => digits.parse().expect("a number stands there"),
        }
    };
    // Only those of epochs: they begin with the packets.
    let is_count =
        |(_, text): &&(String, String)| text.contains(" packet") && text.contains(", heard ");
    paragraphs.filter(is_count).map(number).sum()
}

fn reasons(script: &[u8]) -> Vec<String> {
    let lines = program("why", script);
    lines.lines().skip(1).map(str::to_string).collect()
}

/// What holds of every page.
fn held(name: &str, script: &[u8], text: &str, page: &Page) {
    assert!(
        !text.contains("<script") && !text.contains("src=") && !text.contains("url("),
        "{name}"
    );
    assert_eq!(
        text.matches("http").count(),
        page.count(|element| element.name == "svg"),
        "{name}"
    );
    assert!(text.contains(">After the last line</h2>"), "{name}");
    for svg in page.elements.iter().filter(|element| element.name == "svg") {
        assert_eq!(svg.attribute("role"), Some("img"), "{name}");
        let labels = svg
            .attribute("aria-labelledby")
            .expect("it has a title and words");
        assert!(
            labels
                .split(' ')
                .all(|id| text.contains(&format!("id=\"{id}\""))),
            "{name}"
        );
    }
    let accepted = accepted(script);
    assert_eq!(
        told(page, "packets") + told(page, "1 packet"),
        accepted(Kind::Send),
        "{name}"
    );
    assert_eq!(told(page, "heard "), accepted(Kind::Hear), "{name}");
    assert_eq!(
        told(page, "takes") + told(page, "1 take"),
        accepted(Kind::Take),
        "{name}"
    );
    let closes = text.matches("Close, line ").count() as u64;
    // Once in a paragraph, and with arrows once more for those who do not see it.
    let twice = page.count(|element| element.attribute("data-card") == Some("close")) > 0;
    assert_eq!(
        closes,
        accepted(Kind::Close) * if twice { 2 } else { 1 },
        "{name}"
    );
}

#[test]
fn of_all_samples() {
    for (name, script) in samples() {
        let (text, page) = drawn(&name, &script);
        held(&name, &script, &text, &page);
        let few = !name.starts_with("packets-256");
        if !few {
            continue;
        }
        // A card for each line of `why`, a cross for each lost hearing, a frame for each refused line.
        let cards = page.count(|element| element.attribute("data-card") == Some("close"));
        assert_eq!(cards, reasons(&script).len(), "{name}");
        let crosses = page.count(|element| element.has_class("loss")) as u64;
        assert_eq!(crosses, told(&page, "lost"), "{name}");
        let hollow = page.count(|element| element.has_class("hollow")) as u64;
        assert_eq!(hollow, told(&page, "not merged"), "{name}");
        let refused = page
            .texts
            .iter()
            .filter(|(inside, text)| inside == "text" && text.starts_with("refused ("))
            .count();
        let listing = program("replay", &script);
        assert_eq!(
            refused,
            listing
                .lines()
                .skip(1)
                .take_while(|line| !line.starts_with("node"))
                .count(),
            "{name}"
        );
    }
}

#[test]
fn of_crash_and_restart() {
    let (_, script) = samples()
        .into_iter()
        .find(|(name, _)| name == "crash-restart")
        .expect("it is there");
    let (text, page) = drawn("crash-restart", &script);
    let is_there = |wanted: &str| {
        assert!(
            page.texts.iter().any(|(_, text)| text == wanted),
            "{wanted}"
        )
    };
    for wanted in [
        "box 3 crashes",
        "box 3 restarts",
        "box 3 wants 1",
        "refused (5): send 3 0",
        "begins, no schedule",
        "not merged by 3",
        "3 takes version 3",
        "epoch 3 ends",
        "round 1 of 2",
    ] {
        is_there(wanted);
    }
    assert!(text.contains("says nothing: the request of box 1 is missing (heard, but not merged"));
}

/// A box that was restarted begins; only one that has lost its version by the end has one that expired.
#[test]
fn of_boxes_without_a_schedule() {
    let count = |sample: &str, words: &str| {
        let (_, script) = samples()
            .into_iter()
            .find(|(name, _)| name == sample)
            .expect("it is there");
        let (_, page) = drawn(sample, &script);
        page.texts
            .iter()
            .filter(|(inside, text)| inside == "text" && text == words)
            .count()
    };
    assert_eq!(
        (
            count("dark-majority", "begins, no schedule"),
            count("dark-majority", "schedule expired")
        ),
        (2, 1)
    );
    assert_eq!(
        (
            count("whole-case", "begins, no schedule"),
            count("whole-case", "schedule expired")
        ),
        (0, 1)
    );
    assert_eq!(
        (
            count("power-loss", "no schedule"),
            count("power-loss", "schedule expired")
        ),
        (5, 0)
    );
}

#[test]
fn of_a_long_run() {
    let script = sites::eight();
    let (text, page) = drawn("eight-boxes", script.as_bytes());
    held("eight boxes", script.as_bytes(), &text, &page);
    assert!(text.contains("<section id=\"overview\">"));
    // Every epoch can be reached, and the table has the counts of `why`.
    for epoch in 1..=60 {
        assert!(
            text.contains(&format!("<section id=\"epoch-{epoch}\">")),
            "{epoch}"
        );
    }
    let by_box = rows(&text, "sums");
    assert_eq!(by_box.len(), 9);
    let reasons = reasons(script.as_bytes());
    let mut silent = 0;
    for (at, word) in (3..).zip(RULES) {
        assert_eq!(by_box[0][at], word);
        for (node, row) in by_box.iter().enumerate().skip(1) {
            let behind = format!(" {node} {word} ");
            let expected = reasons.iter().filter(|line| line.contains(&behind)).count();
            assert_eq!(row[at], expected.to_string(), "{node} {word}");
            silent += if at < 6 { expected } else { 0 };
        }
    }
    assert!(silent > 50, "{silent}");
    // Slots held are those of the tally, but for the epoch that begins with the last end.
    let cut = script.strip_suffix("end 0 0\n").expect("it ends so");
    let csv = tool(&["accounts", "--csv", "-"], cut.as_bytes()).out;
    let tally = csv.lines().filter(|row| !row.contains("total")).skip(1);
    let by_both = rows(&text, "slots");
    assert_eq!(by_both.len(), 61);
    // Side by side each part has its names.
    assert_eq!(text.matches("<table class=\"slots\">").count(), 3);
    for (node, (line, row)) in (1..).zip(tally.zip(&by_box[1..])) {
        let fields: Vec<&str> = line.split(',').collect();
        let with = format!("{} of 60", fields[5]);
        assert_eq!(row[..3], [fields[3], fields[4], &with], "{node}");
        let slots = by_both[1..].iter().map(|row| slots_of(&row[node]));
        assert_eq!(slots.sum::<u32>().to_string(), fields[4], "{node}");
    }
}

/// The rules in the order of the tables; the first three are those of a silent close.
const RULES: [&str; 7] = [
    "missing",
    "majority",
    "lower",
    "repeats",
    "top",
    "determined",
    "sent",
];

/// The table of a class, cell by cell, with its names as the first row; of several tables these stand once.
fn rows(text: &str, class: &str) -> Vec<Vec<String>> {
    let start = format!("<table class=\"{class}\">");
    let tables = text.split(&start).skip(1).map(|table| {
        let (table, _) = table.split_once("</table>").expect("it ends");
        cells_of(table)
    });
    let joined = tables.reduce(|mut all, more| {
        assert_eq!(all[0], more[0], "each has the same names");
        all.extend_from_slice(&more[1..]);
        all
    });
    joined.expect("it is there")
}

fn cells_of(table: &str) -> Vec<Vec<String>> {
    let plain = |cell: &str| {
        let words = cell.split('<').map(|part| part.rsplit('>').next());
        words.flatten().collect::<String>().trim().to_string()
    };
    let cells = |row: &str| {
        let row = row.replace("</th>", "</td>");
        let cells: Vec<&str> = row.split("</td>").collect();
        let (_, cells) = cells.split_last().expect("a row has cells");
        cells.iter().map(|cell| plain(cell)).collect()
    };
    table
        .split("</tr>")
        .filter(|row| row.contains("<tr>"))
        .map(cells)
        .collect()
}

/// A box's cell: the slots, in brackets if its version is not the newest, or a mark of a box without a schedule.
fn slots_of(cell: &str) -> u32 {
    cell.trim_matches(['(', ')']).parse().unwrap_or(0)
}

/// The table by epoch has the counts of `why` and of the script, leads to each epoch, and the lanes have its sums.
#[test]
fn of_a_long_run_by_epoch() {
    let script = sites::eight();
    let (text, page) = drawn("eight-boxes", script.as_bytes());
    let reasons = reasons(script.as_bytes());
    // One round in an epoch: the closes are those of the epochs.
    let lines = (1..).zip(script.lines());
    let closes: Vec<u64> = lines
        .filter(|(_, line)| *line == "close 0 0")
        .map(|(number, _)| number)
        .collect();
    let rows = rows(&text, "epochs");
    assert_eq!((rows.len(), closes.len()), (61, 60));
    let lanes = page.texts.iter().filter(|(inside, _)| inside == "text");
    let lanes: Vec<&str> = lanes.map(|(_, text)| text.as_str()).collect();
    for word in RULES {
        let expected: Vec<usize> = closes
            .iter()
            .map(|close| {
                let close = format!("{close} ");
                let rule = format!(" {word} ");
                let at_close = |line: &&String| line.starts_with(&close) && line.contains(&rule);
                reasons.iter().filter(at_close).count()
            })
            .collect();
        let all: usize = expected.iter().sum();
        let Some(at) = rows[0].iter().position(|name| name == word) else {
            assert_eq!(all, 0, "{word} has no column");
            continue;
        };
        for (row, expected) in rows[1..].iter().zip(expected) {
            assert_eq!(row[at], expected.to_string(), "{word} in epoch {}", row[0]);
        }
        let lane = lanes.iter().position(|text| *text == word);
        assert_eq!(lane.is_some(), !["determined", "sent"].contains(&word));
        if let Some(lane) = lane {
            let times = lanes[lane..].iter().find(|text| text.contains(" time"));
            let told = times.and_then(|text| text.split(' ').next());
            assert_eq!(told, Some(all.to_string().as_str()), "{word}");
        }
    }
    for epoch in 1..=60 {
        let links = text
            .matches(&format!("<a href=\"#epoch-{epoch}\">"))
            .count();
        // In two tables, and on the axis above and below.
        assert!(links >= 4, "{epoch}");
    }
    let lost: u64 = rows[1..]
        .iter()
        .map(|row| row[4].parse::<u64>().expect("a number"))
        .sum();
    assert_eq!(lost, told(&page, "lost"));
}

/// With many boxes a strip is drawn in parts, and with many epochs there are several strips.
#[test]
fn of_strips_in_parts() {
    let overview = |name: &str, script: &str| {
        let (text, page) = drawn(name, script.as_bytes());
        held(name, script.as_bytes(), &text, &page);
        let (_, text) = text.split_once("id=\"overview\"").expect("it is there");
        let (text, _) = text.split_once("</section>").expect("it ends");
        let titles = text.split("<title id=").skip(1);
        let titles = titles.filter_map(|rest| rest.split(['<', '>']).nth(1));
        titles.map(str::to_string).collect::<Vec<String>>()
    };
    assert_eq!(
        overview("twenty-boxes", &sites::twenty()),
        [
            "Epochs 1 to 10, boxes 1 to 16",
            "Epochs 1 to 10, boxes 17 to 20"
        ]
    );
    assert_eq!(
        overview("three-boxes", &sites::three()),
        [
            "Epochs 1 to 60, boxes 1 to 3",
            "Epochs 61 to 70, boxes 1 to 3"
        ]
    );
}

#[test]
fn of_many_boxes() {
    let script = sites::thirty_two();
    let (text, page) = drawn("thirty-two-boxes", script.as_bytes());
    held("thirty-two boxes", script.as_bytes(), &text, &page);
    assert!(
        text.contains("Nobody heard across these parts: 1\u{2013}11, 13\u{2013}24 | 25\u{2013}32.")
    );
    assert!(text.contains("Heard nobody: 7."));
    assert!(text.contains("boxes 25\u{2013}32 take version"));
}

/// An epoch of many rounds is drawn in parts, each with what the boxes hold there.
#[test]
fn of_many_rounds() {
    let script = sites::many_rounds();
    let (text, page) = drawn("many-rounds", script.as_bytes());
    held("many rounds", script.as_bytes(), &text, &page);
    let cards = page.count(|element| element.attribute("data-card") == Some("close"));
    assert_eq!(cards, reasons(script.as_bytes()).len());
    let parts = text.matches("<title id=\"t1p").count();
    assert!(parts > 1, "{parts}");
    let of = |wanted: &str| {
        let texts = page
            .texts
            .iter()
            .filter(|(inside, text)| inside == "text" && text == wanted);
        texts.count()
    };
    // Once in each part, and once behind the last line.
    assert_eq!(of("holds"), parts + 2);
    assert_eq!(
        (
            of("box 4 crashes"),
            of("round 12 of 12"),
            of("epoch 1 ends")
        ),
        (1, 1, 1)
    );
}

#[test]
fn of_six_boxes_with_late_hearings() {
    let script = sites::six();
    let (text, page) = drawn("six-boxes", script.as_bytes());
    held("six boxes", script.as_bytes(), &text, &page);
    assert_eq!(
        page.count(|element| element.has_class("again")),
        2,
        "two packets are heard in a later band"
    );
    assert!(
        page.texts
            .iter()
            .any(|(_, text)| text == "later heard by 5"),
        "{text}"
    );
}

#[test]
fn of_a_script_that_cannot_be_run() {
    let ran = tool(&["picture", "-", "-o", "-"], b"nodes\n");
    assert_eq!(ran.status, 2);
    assert!(ran.err.contains("line 1: the names line"));
    let ran = tool(
        &["picture", "-", "-o", "/nowhere/page.html"],
        &samples()[0].1,
    );
    assert_eq!(ran.status, 3);
}

/// `--epochs` draws some of them.
#[test]
fn of_some_epochs() {
    let script = sites::eight();
    let ran = tool(
        &["picture", "-", "-o", "-", "--epochs", "22-24"],
        script.as_bytes(),
    );
    markup::read(&ran.out);
    assert_eq!(ran.out.matches("<section id=\"epoch-").count(), 3);
    assert!(
        ran.out.contains("<section id=\"epoch-22\">")
            && ran.out.contains("Only epochs 22 to 24 are drawn.")
    );
}

/// The drawing on the first page of the repository is what the tool draws of its sample.
#[test]
fn of_the_readme() {
    let kept =
        std::fs::read_to_string(common::root().join("docs/picture.svg")).expect("it is there");
    markup::read(&kept);
    let target = common::scratch("picture.svg", b"");
    let ran = tool(
        &["picture", "samples/whole-case.script", "-o", &target],
        b"",
    );
    assert_eq!(ran.status, 1, "{}", ran.err);
    assert_eq!(
        std::fs::read_to_string(target).expect("it was written"),
        kept
    );
}
