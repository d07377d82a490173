//! Windows of a day: a file of them, which line breaks a rule, and what each box wants when.
//! Whether they keep the rules is asked of the proved call.

use std::fmt::Write;
use std::io;

use crate::core::{Day, Window, DONE};
use crate::head::Fault;
use crate::meant;
use crate::script::{self, WINDOW_NAMES};
use crate::source::Source;
use crate::words;

/// A window and the line it stands on.
#[derive(Clone, Copy, Debug)]
pub struct Placed {
    pub line: u64,
    pub window: Window,
}

/// The windows of a file: a names line, and a line of four numbers for each.
pub fn read(mut source: Source) -> io::Result<Result<Vec<Placed>, Fault>> {
    let fault = |line: u64, number: u32, text: Option<String>, sentence: String| {
        Ok(Err(Fault {
            line,
            number,
            text,
            sentence,
        }))
    };
    let Some(names) = source.next_line()? else {
        return fault(
            1,
            1,
            None,
            format!("the file ends here; `{WINDOW_NAMES}` belongs here"),
        );
    };
    if names.text != WINDOW_NAMES.as_bytes() || !names.ended {
        let sentence = match meant::bytes(&names.text) {
            Some((sentence, _)) => sentence.to_string(),
            None => format!("the names line `{WINDOW_NAMES}` belongs here"),
        };
        return fault(1, 1, Some(names.shown()), sentence);
    }
    let mut windows = Vec::new();
    while let Some(line) = source.next_line()? {
        let numbers = line.ended.then(|| script::numbers(&line.text)).flatten();
        let Some([node, first, end, demand]) = numbers else {
            let sentence = match meant::bytes(&line.text) {
                Some((sentence, _)) => sentence.to_string(),
                None if !line.ended => "the last line has no newline".to_string(),
                None => format!("the line wants four numbers: {WINDOW_NAMES}"),
            };
            return fault(line.number, 2, Some(line.shown()), sentence);
        };
        let window = Window {
            node,
            first,
            end,
            demand,
        };
        windows.push(Placed {
            line: line.number,
            window,
        });
    }
    Ok(Ok(windows))
}

fn answer(nodes: u32, day: u32, windows: &[Window]) -> u32 {
    Day::new(day, windows.to_vec()).answer(nodes)
}

/// Which line breaks a rule, and which; none if the rules are kept.
pub fn fault(nodes: u32, day: u32, placed: &[Placed]) -> Option<Fault> {
    let windows: Vec<Window> = placed.iter().map(|placed| placed.window).collect();
    let number = answer(nodes, day, &windows);
    if number == DONE {
        return None;
    }
    if answer(nodes, day, &[]) != DONE {
        let sentence = format!("a day has 1 to 1,440 epochs, not {day}");
        return Some(Fault {
            line: 0,
            number,
            text: None,
            sentence,
        });
    }
    // The first line with which the list is refused.
    let at = (0..placed.len()).find(|&at| answer(nodes, day, &windows[..=at]) != DONE)?;
    let sentence = alone(nodes, day, windows[at])
        .or_else(|| beside(nodes, day, placed, at))
        .unwrap_or_else(|| "there are more than 64 windows".to_string());
    let window = windows[at];
    let text = format!(
        "{} {} {} {}",
        window.node, window.first, window.end, window.demand
    );
    Some(Fault {
        line: placed[at].line,
        number,
        text: Some(text),
        sentence,
    })
}

/// What is wrong with a window by itself: the first figure that, replaced alone, mends it.
fn alone(nodes: u32, day: u32, window: Window) -> Option<String> {
    let fine = |window| answer(nodes, day, &[window]) == DONE;
    if fine(window) {
        return None;
    }
    let Window {
        node,
        first,
        end,
        demand,
    } = window;
    Some(if fine(Window { node: 1, ..window }) {
        format!("there is no box {node}: the site has boxes 1 to {nodes}")
    } else if fine(Window {
        demand: 0,
        ..window
    }) {
        format!("a box wants 0 to 15 slots, not {demand}")
    } else if fine(Window {
        first: 0,
        end: 1,
        ..window
    }) {
        format!("first {first} must be below end {end}, and end at most the day's {day} epochs")
    } else {
        "several of its numbers are out of range".to_string()
    })
}

/// An earlier window with which it shares an epoch.
fn beside(nodes: u32, day: u32, placed: &[Placed], at: usize) -> Option<String> {
    let window = placed[at].window;
    let other = placed[..at]
        .iter()
        .find(|other| answer(nodes, day, &[other.window, window]) != DONE)?;
    Some(format!(
        "box {} has a window in these epochs already, at line {}",
        window.node, other.line
    ))
}

/// What each box wants when, in words.
pub fn text(name: &str, nodes: u32, day: u32, placed: &[Placed]) -> String {
    let windows: Vec<Window> = placed.iter().map(|placed| placed.window).collect();
    let lent = Day::new(day, windows);
    let number = words::count(placed.len() as u64, "window");
    let mut out = format!(
        "{name}: {number}, a day of {}\n",
        words::count(u64::from(day), "epoch")
    );
    let mut without = 0;
    for node in 1..=nodes {
        match of_box(&lent, nodes, node, day) {
            Some(line) => {
                let _ = writeln!(out, "  box {node} wants {line}");
            }
            None => without |= 1 << (node - 1),
        }
    }
    if without != 0 {
        let who = words::boxes(without);
        let _ = writeln!(
            out,
            "  no windows: {who}; these keep the demand that the script gives them"
        );
    }
    out
}

/// `4 in epochs 480-1079, 0 in the others`.
fn of_box(lent: &Day, nodes: u32, node: u32, day: u32) -> Option<String> {
    let mut spans: Vec<(u32, u32, u32)> = Vec::new();
    for epoch in 0..day {
        let demand = lent.demand(nodes, node, epoch).ok()??;
        match spans.last_mut() {
            Some((known, _, last)) if *known == demand => *last = epoch,
            _ => spans.push((demand, epoch, epoch)),
        }
    }
    let told = |(demand, first, last): &(u32, u32, u32)| match first == last {
        true => format!("{demand} in epoch {first}"),
        false => format!("{demand} in epochs {first}-{last}"),
    };
    Some(spans.iter().map(told).collect::<Vec<String>>().join(", "))
}
