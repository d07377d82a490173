//! What `check` prints for people.

use std::collections::BTreeSet;
use std::fmt::Write;

use crate::causes::Mend;
use crate::check::{Checked, Refusal};
use crate::head::Fault;
use crate::out::Paint;
use crate::words;

/// As many causes are told one by one, unless all are asked for.
const TOP_TOLD: usize = 30;

pub fn text(name: &str, checked: &Checked, all: bool, paint: Paint) -> String {
    let mut out = String::new();
    let name = if name == "-" { "standard input" } else { name };
    if let Some(fault) = &checked.fault {
        let told = paint.red("refused before its events, so nothing is run");
        let _ = writeln!(out, "{}: {told}", paint.bold(name));
        out.push_str(&fault_text(fault));
        return out;
    }
    let events = words::count(checked.events, "event");
    if checked.refused == 0 {
        let _ = writeln!(out, "{}: {events}, none refused", paint.bold(name));
        return out;
    }
    let refused = paint.red(&format!("{} refused", words::grouped(checked.refused)));
    let _ = writeln!(out, "{}: {events}, {refused}", paint.bold(name));
    let followed: BTreeSet<u64> = checked
        .refusals
        .iter()
        .filter_map(|refusal| refusal.follows)
        .collect();
    let told = |refusal: &&Refusal| {
        let folded = refusal.ordinary && !all && !followed.contains(&refusal.line);
        refusal.follows.is_none() && !folded
    };
    let causes: Vec<&Refusal> = checked.refusals.iter().filter(told).collect();
    let shown = if all { causes.len() } else { TOP_TOLD };
    for cause in causes.iter().take(shown) {
        out.push_str(&cause_text(cause, &checked.refusals, paint));
    }
    if causes.len() > shown {
        let more = words::grouped((causes.len() - shown) as u64);
        let _ = writeln!(out, "  and {more} more (--all tells them)");
    }
    if checked.untold() > 0 {
        let more = words::grouped(checked.untold());
        let _ = writeln!(
            out,
            "  and {more} refused lines behind these, which are only counted"
        );
    }
    out.push_str(&counts_text(checked));
    out
}

fn fault_text(fault: &Fault) -> String {
    let text = match (&fault.text, fault.line) {
        (_, 0) => "  windows".to_string(),
        (Some(text), line) => format!("  line {line}  {text}"),
        (None, line) => format!("  line {line}"),
    };
    format!("{text}\n    {} ({})\n", fault.sentence, fault.number)
}

fn cause_text(cause: &Refusal, refusals: &[Refusal], paint: Paint) -> String {
    let mut out = String::new();
    let line = paint.bold(&format!("line {}", cause.line));
    let _ = writeln!(out, "  {line}  {}", cause.text);
    let _ = writeln!(out, "    {} ({})", cause.sentence, cause.number);
    let following: Vec<u64> = refusals
        .iter()
        .filter(|refusal| refusal.follows == Some(cause.line))
        .map(|refusal| refusal.line)
        .collect();
    let lines = match following.len() {
        1 => format!("line {}", following[0]),
        _ => format!("lines {}", words::ranges(following.iter().copied())),
    };
    let also = match following.is_empty() {
        true => "it is accepted".to_string(),
        false => format!("it is accepted, and so are the refused {lines}"),
    };
    match &cause.mend {
        Some(Mend::Instead(meant)) => {
            let _ = writeln!(out, "    as `{meant}` {also}");
        }
        // A line more is advised only where it mends more than this one.
        Some(Mend::Before(missing)) if !following.is_empty() => {
            let _ = writeln!(out, "    with `{missing}` before it {also}");
        }
        Some(Mend::Another) if !following.is_empty() => {
            let _ = writeln!(out, "    {lines}: refused because its packet is missing");
        }
        _ => {}
    }
    out
}

fn counts_text(checked: &Checked) -> String {
    let mut out = String::from("  by number:");
    for (at, (number, (count, ordinary))) in checked.counts.iter().enumerate() {
        let comma = if at > 0 { "," } else { "" };
        let _ = write!(out, "{comma} {} with {number}", words::grouped(*count));
        if *ordinary > 0 {
            let why = match number {
                5 => "a box that waits",
                _ => "a taker that sends itself",
            };
            let how_many = match ordinary == count {
                true => "ordinary".to_string(),
                false => format!("{} ordinary", words::grouped(*ordinary)),
            };
            let _ = write!(out, " ({how_many}: {why})");
        }
    }
    out.push('\n');
    out
}
