//! A box's log, line by line: how far the box had come, and what it did there.

use std::fmt;

#[derive(Clone, Copy, PartialEq, Eq, PartialOrd, Ord)]
pub enum Phase {
    Negotiation,
    Distribution,
}
use Phase::{Distribution, Negotiation};

/// How far a box has come: a round and its phase. A log's round has 32 bits, so one more fits.
#[derive(Clone, Copy, PartialEq, Eq, PartialOrd, Ord)]
pub struct Place(pub u64, pub Phase);

pub const START: Place = Place(0, Negotiation);

impl Place {
    pub fn next(self) -> Place {
        match self {
            Place(round, Negotiation) => Place(round, Distribution),
            Place(round, Distribution) => Place(round + 1, Negotiation),
        }
    }
}

impl fmt::Display for Place {
    fn fmt(&self, f: &mut fmt::Formatter<'_>) -> fmt::Result {
        match self {
            Place(round, Negotiation) => write!(f, "the negotiation of round {round}"),
            Place(round, Distribution) => write!(f, "the distribution of round {round}"),
        }
    }
}

/// What a line of a log says. A crash is not in a log: it is where one ends, or goes on.
#[derive(Clone, Copy)]
pub enum Event {
    /// Version, flags and demand.
    Begin(u32, u32, u32),
    /// The packet's number among the box's own of the round.
    Send(u32),
    /// Sender, and that number.
    Hear(u32, u32),
    Close,
    /// Sender.
    Take(u32),
    End,
    Want(u32),
    Crash,
    /// Flags.
    Restart(u32),
    /// The last line of a box that ends in order.
    Area,
    /// A slot in use or missed, or a refused call: nothing that changes what the box holds.
    Nothing,
}
use Event::*;

pub struct Step {
    pub line: usize,
    pub place: Place,
    pub event: Event,
}

/// The settings of a box: its number, and what all boxes of its site have in common, which is the
/// site's number, N, K, F, heard and split.
#[derive(Clone, Copy, PartialEq)]
pub struct Settings {
    pub node: u32,
    pub common: [u32; 6],
}

impl Settings {
    pub fn nodes(&self) -> u32 {
        self.common[1]
    }

    pub fn rounds(&self) -> u64 {
        self.common[3].into()
    }
}

pub struct Log<'a> {
    pub name: &'a str,
    pub settings: Settings,
    pub lines: Vec<Step>,
}

fn number(field: &str) -> Option<u32> {
    field.parse().ok().filter(|n: &u32| n.to_string() == field)
}

/// A line "settings SITE NODE NODES SLOTS ROUNDS HEARD SPLIT".
fn settings_of(line: &str) -> Option<Settings> {
    let fields = line.strip_prefix("settings ")?.split(' ').map(number);
    let [site, node, n, k, f, heard, split] = fields.collect::<Option<Vec<_>>>()?[..] else {
        return None;
    };
    let common = [site, n, k, f, heard, split];
    Some(Settings { node, common })
}

/// A line "ROUND PHASE WORD" and what belongs to the word.
fn call_of(line: &str) -> Option<(Place, Event)> {
    let fields: Vec<&str> = line.split(' ').collect();
    let [round, phase, word, ref rest @ ..] = fields[..] else {
        return None;
    };
    let phase = match phase {
        "negotiation" => Negotiation,
        "distribution" => Distribution,
        _ => return None,
    };
    let event = match (word, rest) {
        ("close", [_rule, _missing]) => Close,
        ("area", [_bytes]) => Area,
        ("use", [_slot, _from, _to]) => Nothing,
        ("late", [_slot]) => Nothing,
        ("refused", [_call, _answer]) => Nothing,
        _ => event_of(word, rest)?,
    };
    Some((Place(number(round)?.into(), phase), event))
}

fn event_of(word: &str, fields: &[&str]) -> Option<Event> {
    let numbers: Option<Vec<u32>> = fields.iter().map(|field| number(field)).collect();
    Some(match (word, &numbers?[..]) {
        ("begin", &[version, flags, demand]) => Begin(version, flags, demand),
        ("send", &[number]) => Send(number),
        ("hear", &[sender, number]) => Hear(sender, number),
        ("take", &[sender]) => Take(sender),
        ("end", []) => End,
        ("want", &[demand]) => Want(demand),
        ("restart", &[flags]) => Restart(flags),
        _ => return None,
    })
}

/// The lines of a log, or what is wrong with them. Half a line at its end is what a crash has left.
pub fn read<'a>(name: &'a str, text: &str) -> Result<Log<'a>, Vec<String>> {
    let whole = text.rfind('\n').map_or("", |end| &text[..end]);
    let Some(settings) = whole.split('\n').next().and_then(settings_of) else {
        let fault = format!("{name}: the first line is not the settings of a box.");
        return Err(vec![fault]);
    };
    let (node, nodes) = (settings.node, settings.nodes());
    if node < 1 || node > nodes || nodes > 32 || settings.rounds() < 1 {
        return Err(vec![format!(
            "{name}, line 1: the settings are out of range."
        )]);
    }
    let (mut lines, mut faults) = (Vec::new(), Vec::new());
    for (line, text) in (1..).zip(whole.split('\n')) {
        match (settings_of(text), call_of(text)) {
            (Some(again), _) if again == settings => {}
            (Some(_), _) => faults.push((line, "the settings are not those of line 1".to_string())),
            (_, Some((place, event))) => lines.push(Step { line, place, event }),
            _ => faults.push((line, format!("\"{text}\" is no line of a log"))),
        }
    }
    if faults.is_empty() {
        return Ok(Log {
            name,
            settings,
            lines,
        });
    }
    let told = |(line, fault)| format!("{name}, line {line}: {fault}.");
    Err(faults.into_iter().map(told).collect())
}
