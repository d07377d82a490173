//! The words beside a drawing: the same facts for those who do not see it.

use std::collections::BTreeMap;

use crate::core::Shown;
use crate::epoch::{two_owners, Closed, Epoch, Item};
use crate::telling;
use crate::words;

/// `1–3, 5`: on a page a run of numbers has a dash of its own.
pub fn dashes(text: &str) -> String {
    let letters: Vec<char> = text.chars().collect();
    let digit = |at: usize| letters.get(at).is_some_and(char::is_ascii_digit);
    let dash = |(at, &c): (usize, &char)| match c {
        '-' if at > 0 && digit(at - 1) && digit(at + 1) => '\u{2013}',
        c => c,
    };
    letters.iter().enumerate().map(dash).collect()
}

pub fn boxes(set: u32) -> String {
    dashes(&words::boxes(set))
}

/// As many refused lines of an epoch are told one by one.
const TOP_TOLD: usize = 6;

/// What happened in an epoch, in one paragraph.
pub fn epoch(epoch: &Epoch) -> String {
    let mut sentences = vec![format!("{}.", telling::counts(epoch.counts))];
    let refused = epoch.refusals();
    let mut items = epoch.items.iter().peekable();
    while let Some(item) = items.next() {
        match item {
            Item::Close { line, boxes } => sentences.push(close(*line, boxes)),
            Item::Take {
                line,
                node,
                from,
                version,
            } => {
                let mut takers = 1 << (node - 1);
                let mut last = *line;
                // Takes of one version from one box that follow each other are one sentence.
                while let Some(Item::Take { line, node, .. }) =
                    items.next_if(|next| same_take(next, *from, *version))
                {
                    takers |= 1 << (node - 1);
                    last = *line;
                }
                sentences.push(takes(*line, last, takers, *from, *version));
            }
            Item::Refused(_) if refused > TOP_TOLD => {}
            Item::Band(_) | Item::End { .. } => {}
            other => {
                let line = telling::item(other).concat();
                sentences.push(format!("{}.", capital(&line)));
            }
        }
    }
    if refused > TOP_TOLD {
        sentences.push(by_number(epoch));
    }
    dashes(&sentences.join(" "))
}

fn close(line: u64, boxes: &[Closed]) -> String {
    let groups = telling::close_groups(boxes);
    let told: Vec<String> = groups.iter().map(telling::group).collect();
    match told.is_empty() {
        true => format!("Close, line {line}: no box is live."),
        false => format!("Close, line {line}: {}.", told.join("; ")),
    }
}

fn same_take(item: &Item, sender: u32, taken: u32) -> bool {
    matches!(item, Item::Take { from, version, .. } if *from == sender && *version == taken)
}

fn takes(first: u64, last: u64, takers: u32, from: u32, version: u32) -> String {
    let lines = capital(&telling::lines(first, last));
    match takers.count_ones() {
        1 => format!(
            "{lines}: box {} takes version {version} from box {from}.",
            boxes(takers)
        ),
        _ => format!(
            "{lines}: boxes {} take version {version} from box {from}.",
            boxes(takers)
        ),
    }
}

/// Refused lines by number, where they are many.
fn by_number(epoch: &Epoch) -> String {
    let mut numbers: BTreeMap<u32, Vec<u64>> = BTreeMap::new();
    for item in &epoch.items {
        if let Item::Refused(refused) = item {
            numbers
                .entry(refused.number)
                .or_default()
                .push(refused.line);
        }
    }
    let told: Vec<String> = numbers
        .into_iter()
        .map(|(number, lines)| format!("with {number} lines {}", words::ranges(lines)))
        .collect();
    format!("Refused: {}.", told.join("; "))
}

pub fn capital(text: &str) -> String {
    let mut letters = text.chars();
    match letters.next() {
        Some(first) => first.to_uppercase().chain(letters).collect(),
        None => String::new(),
    }
}

/// What every box holds, in one paragraph; boxes of which the same is told are told of together.
pub fn states(shown: &[Shown]) -> String {
    let told = (1..)
        .zip(shown)
        .map(|(node, shown)| (node, words::shown(node, shown)));
    let groups = telling::together(told);
    let told: Vec<String> = groups
        .iter()
        .map(|(told, set)| match set.count_ones() {
            1 => format!("box {}: {told}", boxes(*set)),
            _ => format!("boxes {}: {told}", boxes(*set)),
        })
        .collect();
    dashes(&format!("{}.", capital(&told.join("; "))))
}

/// Slots with more than one owner, if there are any.
pub fn owners(shown: &[Shown], distribution: bool) -> Option<String> {
    let twice = two_owners(shown);
    if twice.is_empty() {
        return None;
    }
    let told: Vec<String> = twice
        .into_iter()
        .map(|(slot, owners)| format!("slot {slot}: boxes {}", words::ranges(owners)))
        .collect();
    let when = match distribution {
        true => " (in distribution, when boxes act on no slot)",
        false => "",
    };
    Some(dashes(&format!("Two owners{when}: {}", told.join("; "))))
}
