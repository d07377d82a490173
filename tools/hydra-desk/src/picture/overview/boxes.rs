//! The lane of a box: its slots as bars, and a mark where it sent no new schedule at the epoch's last close.

use std::ops::Range;

use crate::core::{Rule, State};
use crate::words::count;

use super::super::style;
use super::super::svg::{self, width, Marks};
use super::axis::{name, Part, BEHIND, LEFT, RIGHT};
use super::column::{Column, Held};

/// A lane of a box.
pub struct Lane {
    pub high: f64,
    /// The most slots that a box of the strip holds.
    pub most: u32,
}

impl Lane {
    pub fn draw(&self, marks: &mut Marks, part: Part, y: f64, node: u32) -> f64 {
        let at_box = node as usize - 1;
        let bars = self.high - 22.0;
        let base = y + bars + 6.0;
        name(
            marks,
            y,
            &format!("box {node}"),
            &wants(part, at_box),
            "l g",
        );
        let looks = |column: &Column| {
            let held = &column.boxes[at_box];
            (held.state, held.version == 0, held.slots)
        };
        for (place, run) in runs(part, looks) {
            self.state(marks, part, (place, run), at_box, base, bars);
        }
        for (place, run) in runs(part, |column| column.last[at_box]) {
            if let Some(rule) = part.columns[place].last[at_box] {
                chip(
                    marks,
                    part.x(place),
                    base + 2.0,
                    part.step * run as f64,
                    rule,
                );
            }
        }
        marks.line((LEFT, base), (RIGHT, base), "thin");
        sums(marks, part, y, at_box);
        y + self.high
    }

    /// Epochs in which the box looks the same.
    fn state(
        &self,
        marks: &mut Marks,
        part: Part,
        (place, run): (usize, usize),
        at_box: usize,
        base: f64,
        bars: f64,
    ) {
        let Held {
            state,
            version,
            slots,
            ..
        } = part.columns[place].boxes[at_box];
        let (left, wide) = (part.x(place), part.step * run as f64);
        match state {
            State::Down => {
                marks.path(&hatched(part, place..place + run, base, bars), "hatch");
                without(marks, left, base, wide, bars, "down");
            }
            State::Waiting => without(marks, left, base, wide, bars, "waits"),
            State::Live if version == 0 => without(marks, left, base, wide, bars, "none"),
            State::Live if slots == 0 => {}
            State::Live => {
                let tall = (bars - 12.0) * f64::from(slots) / f64::from(self.most);
                for (at, column) in part.columns[place..place + run].iter().enumerate() {
                    let newest = column.boxes[at_box].version == column.newest;
                    let class = match newest {
                        true => style::bar(at_box as u32 + 1),
                        false => "plain".to_string(),
                    };
                    let attributes = format!("class=\"{class} thin\"");
                    marks.rect(
                        part.x(place + at),
                        base - tall,
                        part.step - 0.8,
                        tall,
                        &attributes,
                    );
                }
                if run >= 3 {
                    let (x, y) = (left + wide / 2.0, base - tall - 3.0);
                    marks.text(x, y, "l b m", &slots.to_string());
                }
            }
        }
    }
}

/// The demands of a box in the strip's epochs, as far as it is up.
fn wants(part: Part, at_box: usize) -> String {
    let up = part.columns.iter().map(|column| &column.boxes[at_box]);
    let up = up.filter(|held| held.state != State::Down);
    let demands: Vec<u32> = up.map(|held| held.wants).collect();
    match (demands.iter().min(), demands.iter().max()) {
        (Some(least), Some(most)) if least < most => format!("wants {least}\u{2013}{most}"),
        (Some(demand), _) => format!("wants {demand}"),
        _ => String::new(),
    }
}

/// What the epochs of the strip add up to.
fn sums(marks: &mut Marks, part: Part, y: f64, at_box: usize) {
    let slots = part.sum(|column| column.boxes[at_box].slots.into());
    marks.text(BEHIND, y + 14.0, "s b", &count(slots, "slot"));
    let silent = part.sum(|column| {
        let rules = Rule::ALL.into_iter().filter(|rule| rule.is_silent());
        rules.map(|rule| column.by_box(at_box, rule)).sum()
    });
    if silent > 0 {
        let told = format!("{} silent", count(silent, "time"));
        marks.text(BEHIND, y + 27.0, "l g", &told);
    }
}

/// Runs of epochs that look the same: where each begins, and how long it is.
fn runs<T: PartialEq>(part: Part, looks: impl Fn(&Column) -> T) -> Vec<(usize, usize)> {
    let mut runs: Vec<(usize, usize)> = Vec::new();
    for (place, column) in part.iter() {
        match runs.last_mut() {
            Some((first, run)) if looks(&part.columns[*first]) == looks(column) => *run += 1,
            _ => runs.push((place, 1)),
        }
    }
    runs
}

/// Slanting strokes as dense as they would be with narrow columns.
fn hatched(part: Part, places: Range<usize>, base: f64, high: f64) -> String {
    let (left, right) = (part.x(places.start), part.x(places.end));
    let strokes = ((right - left) / 10.0).floor().max(1.0);
    let wide = (right - left) / strokes;
    let stroke = |at: u32| {
        let x = svg::at(left + wide * f64::from(at));
        format!(
            "M{x} {}l{} -{}",
            svg::at(base),
            svg::at(wide),
            svg::at(high)
        )
    };
    (0..strokes as u32).map(stroke).collect()
}

/// A frame in place of bars, with a word where there is room.
fn without(marks: &mut Marks, left: f64, base: f64, wide: f64, high: f64, told: &str) {
    marks.rect(left, base - high, wide - 0.8, high, "class=\"gap\"");
    if width(told, 10.5, true) + 6.0 < wide {
        marks.text(left + wide / 2.0, base - high / 2.0 + 4.0, "l b m o", told);
    }
}

/// The letter of a rule, in a mark of its own shade; none if the box sent or determined a new schedule.
fn letter(rule: Rule) -> Option<(&'static str, &'static str, &'static str)> {
    match rule {
        Rule::Missing => Some(("?", "black", "l b m i")),
        Rule::Majority => Some(("\u{bd}", "grey", "l b m")),
        Rule::Lower => Some(("<", "plain", "l b m")),
        Rule::Repeats => Some(("R", "plain", "l b m")),
        Rule::Top => Some(("T", "plain", "l b m")),
        Rule::Determined | Rule::Sent => None,
    }
}

/// Whether a rule has a mark.
pub fn has_letter(rule: Rule) -> bool {
    letter(rule).is_some()
}

/// The mark of a rule, as wide as the columns in which it applied.
pub fn chip(marks: &mut Marks, left: f64, top: f64, wide: f64, rule: Rule) {
    if let Some((letter, class, text)) = letter(rule) {
        let attributes = format!("class=\"{class}\"");
        marks.rect(left, top, wide - 0.8, 12.0, &attributes);
        marks.text(left + wide / 2.0 - 0.4, top + 9.8, text, letter);
    }
}
