//! Refusals, rules and sets of boxes in words.

use crate::core::{Event, Kind, Report, Rule, Shown, State};
use crate::meant;
use crate::run::{Run, Step};
use crate::script;

/// The boxes of a word, with runs drawn together: `1-3, 5`.
pub fn boxes(set: u32) -> String {
    ranges((1..=32u32).filter(|node| set >> (node - 1) & 1 == 1))
}

/// Rising numbers, with runs drawn together.
pub fn ranges<N>(numbers: impl IntoIterator<Item = N>) -> String
where
    N: Into<u64>,
{
    let mut runs: Vec<(u64, u64)> = Vec::new();
    for number in numbers.into_iter().map(Into::into) {
        match runs.last_mut() {
            Some((_, last)) if *last + 1 == number => *last = number,
            _ => runs.push((number, number)),
        }
    }
    let parts: Vec<String> = runs
        .into_iter()
        .map(|(first, last)| match last - first {
            0 => first.to_string(),
            1 => format!("{first}, {last}"),
            _ => format!("{first}-{last}"),
        })
        .collect();
    match parts.is_empty() {
        true => "none".to_string(),
        false => parts.join(", "),
    }
}

/// `1 slot`, `2 slots`.
pub fn count(number: u64, one: &str) -> String {
    match number {
        1 => format!("1 {one}"),
        _ => format!("{} {one}s", grouped(number)),
    }
}

/// A number with commas between thousands.
pub fn grouped(number: u64) -> String {
    let digits = number.to_string();
    let mut out = String::new();
    for (at, digit) in digits.chars().enumerate() {
        if at > 0 && (digits.len() - at).is_multiple_of(3) {
            out.push(',');
        }
        out.push(digit);
    }
    out
}

pub fn state(state: State) -> &'static str {
    match state {
        State::Live => "live",
        State::Waiting => "waiting",
        State::Down => "down",
    }
}

/// Why a refused step was refused, and whether that is ordinary: a box that waits, or a taker that sends itself.
pub fn refusal(run: &Run, step: &Step) -> (String, bool) {
    let Some(event) = step.event else {
        return (meant::event(&step.line).sentence, false);
    };
    let nodes = run.settings().nodes;
    let node = event.node;
    let sentence = match (step.answer, event.kind) {
        (2, kind) => out_of_range(kind, event, nodes),
        (3, _) => {
            let box_number = match run.site.shown(node) {
                None => node,
                Some(_) => event.with,
            };
            format!("there is no box {box_number}: the site has boxes 1 to {nodes}")
        }
        (4, Kind::Send | Kind::Hear) => {
            "the round is closed: an `end 0 0` is missing before this line".to_string()
        }
        (4, Kind::Close) => {
            "the round is closed already: an `end 0 0` is missing before, or this close is entered twice"
                .to_string()
        }
        (4, Kind::Take) => "the round is not closed: a `close 0 0` is missing before this line".to_string(),
        (4, _) => {
            "the round is not closed: a `close 0 0` is missing before, or this end is entered twice".to_string()
        }
        (5, _) => return not_live(run, event),
        (6, _) => {
            let now = run.site.shown(node).map_or("up", |shown| state(shown.state));
            format!("box {node} is {now}, not down: its crash is missing before this line")
        }
        (7, _) => format!("box {node} has sent its 8 packets of this round"),
        (8, _) => match run.site.packets() {
            0 => format!("there is no packet {}: none was sent in this round", event.with),
            sent => format!(
                "there is no packet {}: {} sent so far in this round",
                event.with,
                count(u64::from(sent), "packet")
            ),
        },
        (9, _) => format!("packet {} is box {node}'s own", event.with),
        (10, _) => return wrong_sender(run, event),
        (number, _) => format!("refused with {number}"),
    };
    (sentence, false)
}

fn out_of_range(kind: Kind, event: Event, nodes: u32) -> String {
    match kind {
        Kind::Want => format!("a box wants 0 to 15 slots, not {}", event.with),
        Kind::Restart => format!(
            "the flags {} must have box {} itself and no box above {nodes}",
            event.with, event.node
        ),
        Kind::Close | Kind::End => format!("`{}` stands with two zeros", script::word(kind)),
        _ => format!("the last number of `{}` must be 0", script::word(kind)),
    }
}

/// The first box of the event that is not live. Where waiting is no obstacle, a box that was refused is down.
fn not_live(run: &Run, event: Event) -> (String, bool) {
    let named = match event.kind {
        Kind::Take => vec![event.node, event.with],
        _ => vec![event.node],
    };
    let state = |&node: &u32| run.site.shown(node).map(|shown| (node, shown.state));
    let told = |(node, state)| match state {
        State::Live => None,
        State::Waiting => Some((
            format!("box {node} is waiting for the end of the epoch"),
            true,
        )),
        State::Down => Some((format!("box {node} is down"), false)),
    };
    let mut causes = named.iter().filter_map(state).filter_map(told);
    causes
        .next()
        .unwrap_or_else(|| ("the box is not live".to_string(), false))
}

fn wrong_sender(run: &Run, event: Event) -> (String, bool) {
    let (taker, sender) = (event.node, event.with);
    if taker == sender {
        return (format!("box {taker} can't take from itself"), false);
    }
    match run.site.sends(taker) {
        Some(true) => (
            format!("box {taker} sends a schedule itself, so it takes none"),
            true,
        ),
        Some(false) => (
            format!("box {sender} sends no schedule in this round"),
            false,
        ),
        // No take tells who sends, so all boxes have determined a schedule.
        None => (
            format!("box {sender} has determined a new schedule, and sends it with the epoch's last close"),
            false,
        ),
    }
}

/// What a box did at a close, and why; `version` is the one it has now.
pub fn reason(report: Report, version: u32) -> String {
    let missing = report.missing;
    match report.rule {
        Rule::Missing => format!("says nothing: the request of box {missing} is missing"),
        Rule::Majority => "says nothing: it knows too few boxes for a majority".to_string(),
        Rule::Lower => "says nothing: another box has a newer version".to_string(),
        Rule::Repeats => format!("repeats version {version}: another box has an older one"),
        Rule::Top => "says nothing: it is at the top version".to_string(),
        Rule::Determined => "has determined a new schedule; it goes out with the epoch's last close".to_string(),
        Rule::Sent if missing > 0 => format!(
            "sends version {version}, a new schedule (box {missing} not heard of; determined before)"
        ),
        Rule::Sent => format!("sends version {version}, a new schedule"),
    }
}

/// What a listing shows of a box, in words.
pub fn shown(node: u32, shown: &Shown) -> String {
    match shown.state {
        State::Down => "down, holds nothing".to_string(),
        State::Waiting => "waiting for the end of the epoch".to_string(),
        State::Live => {
            let slots = shown.own_slots(node);
            let owns = match slots.len() {
                0 => "no slot".to_string(),
                1 => format!("slot {}", slots[0]),
                _ => format!("slots {}", ranges(slots)),
            };
            format!(
                "version {}, {owns}, flags {}, request {}",
                shown.version,
                boxes(shown.flags),
                shown.request
            )
        }
    }
}

/// `1 box`, `2 boxes`.
pub fn count_es(number: u32, one: &str) -> String {
    match number {
        1 => format!("1 {one}"),
        _ => format!("{number} {one}es"),
    }
}
