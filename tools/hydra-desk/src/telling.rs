//! What happened in a round, in sentences.

use crate::core::{Report, Settings};
use crate::epoch::{Band, Closed, Counts, Item};
use crate::head::Fault;
use crate::words::{self, boxes, count};

pub fn site(settings: Settings) -> String {
    let split = match settings.split {
        1 => "the site may split: a slot may have two owners",
        _ => "split 0",
    };
    format!(
        "{}, {}, {} in an epoch, heard {}, {split}",
        words::count_es(settings.nodes, "box"),
        count(u64::from(settings.slots), "slot"),
        count(u64::from(settings.rounds), "round"),
        settings.heard
    )
}

/// The first head of a listing, as `replay` and `why` print it.
pub fn first_head(split: bool) -> &'static str {
    match split {
        true => "line refusal split",
        false => "line refusal",
    }
}

/// A refusal before the first event.
pub fn fault(fault: &Fault) -> String {
    let (line, sentence, number) = (fault.line, &fault.sentence, fault.number);
    format!("line {line}: {sentence} ({number})")
}

/// The lines of an item.
pub fn item(item: &Item) -> Vec<String> {
    match item {
        Item::Band(band) => band_lines(band),
        Item::Refused(refused) => vec![format!(
            "line {}, {}: refused, {} ({})",
            refused.line, refused.text, refused.sentence, refused.number
        )],
        Item::Close { line, boxes } => close_lines(*line, boxes),
        Item::Take {
            line,
            node,
            from,
            version,
        } => {
            vec![format!(
                "line {line}: box {node} takes version {version} from box {from}"
            )]
        }
        Item::Want { line, node, demand } => {
            vec![format!("line {line}: box {node} wants {demand}")]
        }
        Item::Crash { line, node } => {
            vec![format!(
                "line {line}: box {node} crashes, and all it held is lost"
            )]
        }
        Item::Restart { line, node, flags } => vec![format!(
            "line {line}: box {node} restarts with flags {}, and waits",
            boxes(*flags)
        )],
        Item::End {
            line,
            round,
            epoch_ends,
            ..
        } => match epoch_ends {
            true => vec![format!("line {line}: the epoch ends")],
            false => vec![format!("line {line}: round {round} ends")],
        },
    }
}

fn band_lines(band: &Band) -> Vec<String> {
    let lines = lines(band.first, band.last);
    let mut out = vec![format!("{lines}:")];
    for row in &band.rows {
        let mut parts = Vec::new();
        let heard = row.merged | row.unknown;
        if heard != 0 {
            parts.push(format!("heard by {}", boxes(heard)));
        }
        if row.noted != 0 {
            parts.push(format!("heard but not merged by {}", boxes(row.noted)));
        }
        if row.lost != 0 {
            parts.push(format!("not heard by {}", boxes(row.lost)));
        }
        if parts.is_empty() {
            parts.push("heard by none".to_string());
        }
        let late = if row.late { ", sent before" } else { "" };
        out.push(format!(
            "  packet {} of box {}{late}: {}",
            row.packet,
            row.sender,
            parts.join("; ")
        ));
    }
    out
}

pub fn lines(first: u64, last: u64) -> String {
    match first == last {
        true => format!("line {first}"),
        false => format!("lines {first} to {last}"),
    }
}

/// Boxes that did the same for the same reason share a line.
fn close_lines(line: u64, closed: &[Closed]) -> Vec<String> {
    let mut out = vec![format!("line {line}, close:")];
    let groups = close_groups(closed);
    out.extend(groups.iter().map(|told| format!("  {}", group(told))));
    out
}

/// What boxes did at a close, with the set of those that did the same.
pub fn close_groups(closed: &[Closed]) -> Vec<(String, u32)> {
    together(closed.iter().map(|closed| (closed.node, did(closed))))
}

/// What is told of boxes, each with the set of those of which it is told.
pub fn together<T: PartialEq>(told: impl Iterator<Item = (u32, T)>) -> Vec<(T, u32)> {
    let mut groups: Vec<(T, u32)> = Vec::new();
    for (node, told) in told {
        let bit = 1 << (node - 1);
        match groups.iter_mut().find(|(known, _)| *known == told) {
            Some((_, set)) => *set |= bit,
            None => groups.push((told, bit)),
        }
    }
    groups
}

/// Boxes and what each of them did.
pub fn group((did, set): &(String, u32)) -> String {
    match set.count_ones() {
        1 => format!("box {}: {did}", boxes(*set)),
        _ => format!("boxes {}: each {did}", boxes(*set)),
    }
}

/// What a box did at a close.
pub fn did(closed: &Closed) -> String {
    let reason = words::reason(closed.report, closed.version);
    match (closed.unmerged, closed.repeats) {
        (true, _) => format!(
            "{reason} (heard, but not merged: one of the two does not have the other in its flags)"
        ),
        (_, true) => format!(
            "{reason}, and until then it repeats version {}",
            closed.version
        ),
        _ => reason,
    }
}

/// The line that the program `why` prints.
pub fn raw(line: u64, report: Report) -> String {
    let Report {
        node,
        rule,
        missing,
    } = report;
    format!("{line} {node} {} {missing}", rule.word())
}

pub fn counts(counts: Counts) -> String {
    let mut parts = vec![
        count(counts.sends, "packet"),
        format!("heard {}", times(counts.hearings)),
        format!("{} lost", count(counts.lost, "hearing")),
    ];
    if counts.unmerged > 0 {
        parts.push(format!("{} not merged", words::grouped(counts.unmerged)));
    }
    if counts.takes > 0 {
        parts.push(count(counts.takes, "take"));
    }
    if counts.refused > 0 {
        parts.push(format!("{} refused", count(counts.refused, "line")));
    }
    parts.join(", ")
}

pub fn times(number: u64) -> String {
    match number {
        1 => "once".to_string(),
        _ => format!("{} times", words::grouped(number)),
    }
}
