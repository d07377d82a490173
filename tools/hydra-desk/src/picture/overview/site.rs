//! The lanes of the whole site: versions, slots held, losses, and boxes at the closes by rule.

use std::fmt::Write;

use crate::core::Rule;
use crate::words::{count, grouped};

use super::super::svg::{at, width, Marks};
use super::axis::{name, Part, BEHIND, LEFT, RIGHT};
use super::boxes;
use super::column::Column;

const LEAST: f64 = 10.5;

/// The newest version as a line, with its number where the axis has one.
pub fn versions(marks: &mut Marks, part: Part, y: f64, top: u32) -> f64 {
    let high = 32.0;
    name(marks, y, "newest", "version", "s b");
    let level = |column: &Column| {
        y + 14.0 + high * (1.0 - f64::from(column.newest) / f64::from(top.max(1)))
    };
    let mut d = String::new();
    for (place, column) in part.iter() {
        let command = if place == 0 { 'M' } else { 'L' };
        let (left, right) = (at(part.x(place)), at(part.x(place + 1)));
        let _ = write!(d, "{command}{left} {}H{right}", at(level(column)));
    }
    marks.path(&d, "arrow");
    for (place, column) in part.iter() {
        if part.numbered(place) {
            let told = grouped(column.newest.into());
            // Above the line wherever the number reaches.
            let highest = under(part, place, &told)
                .iter()
                .map(level)
                .fold(f64::MAX, f64::min);
            marks.text(part.middle(place), highest - 3.0, "l b m", &told);
        }
    }
    let told = format!("version {}", grouped(part.last().newest.into()));
    marks.text(BEHIND, y + 27.0, "s b", &told);
    y + high + 20.0
}

/// The columns over which a text in the middle of one reaches.
fn under<'a>(part: Part<'a>, place: usize, told: &str) -> &'a [Column] {
    let reach = width(told, LEAST, true) / 2.0 + 1.0;
    let columns = ((reach - part.step / 2.0) / part.step).ceil().max(0.0) as usize;
    let last = (place + columns).min(part.columns.len() - 1);
    &part.columns[place.saturating_sub(columns)..=last]
}

/// The slots held by all boxes together.
pub fn held(marks: &mut Marks, part: Part, y: f64, slots: u32) -> f64 {
    let high = 36.0;
    name(marks, y, "slots held", &format!("of {slots}"), "s g");
    let base = y + high;
    let mut d = String::new();
    for (place, column) in part.iter() {
        // At a site that may split more can be held than there are.
        let share = f64::from(column.held()) / f64::from(slots);
        let tall = at((high - 4.0) * share.min(1.0));
        let (left, wide) = (at(part.x(place)), at(part.step - 1.0));
        let _ = write!(d, "M{left} {}v-{tall}h{wide}v{tall}z", at(base));
    }
    marks.line((LEFT, y + 4.0), (RIGHT, y + 4.0), "quiet");
    marks.path(&d, "bars");
    marks.line((LEFT, base), (RIGHT, base), "thin");
    let told = format!("{} at the end", part.last().held());
    marks.text(BEHIND, y + 22.0, "s b", &told);
    base + 6.0
}

/// Live boxes that did not hear a packet.
pub fn losses(marks: &mut Marks, part: Part, y: f64) -> f64 {
    name(marks, y, "hearings", "lost", "s b");
    let most = part.columns.iter().map(|column| column.lost).max();
    bars(marks, part, y, most.unwrap_or(0), "alarm", |column| {
        column.lost
    });
    let lost = part.sum(|column| column.lost);
    let all = lost + part.sum(|column| column.hearings);
    marks.text(BEHIND, y + 14.0, "s b", &format!("{} of", grouped(lost)));
    marks.text(BEHIND, y + 27.0, "s b", &format!("{} lost", grouped(all)));
    y + 44.0
}

/// How many boxes sent no new schedule, by the rule that kept them from it. All lanes have one scale.
pub fn rules(marks: &mut Marks, part: Part, mut y: f64, lanes: &[Rule], most: u64) -> f64 {
    for &rule in lanes {
        boxes::chip(marks, 4.0, y + 17.0, 12.0, rule);
        marks.text(20.0, y + 27.0, "s b", rule.word());
        bars(marks, part, y, most, "bars", |column| column.by_rule(rule));
        let all = part.sum(|column| column.by_rule(rule));
        marks.text(BEHIND, y + 27.0, "s b", &count(all, "time"));
        y += 40.0;
    }
    y
}

/// A bar for each column whose number is above 0, with the number over it where there is room.
fn bars(
    marks: &mut Marks,
    part: Part,
    y: f64,
    most: u64,
    class: &str,
    of: impl Fn(&Column) -> u64,
) {
    let base = y + 36.0;
    let tall = |column: &Column| match of(column) {
        0 => 0.0,
        number => (16.0 * number as f64 / most as f64).max(1.0),
    };
    let mut free = 0.0;
    for (place, column) in part.iter().filter(|(_, column)| of(column) > 0) {
        let high = tall(column);
        let attributes = format!("class=\"{class}\"");
        marks.rect(
            part.x(place),
            base - high,
            part.step - 1.0,
            high,
            &attributes,
        );
        let told = grouped(of(column));
        let wide = width(&told, LEAST, false);
        let start = part.middle(place) - wide / 2.0;
        if start > free {
            let reached = under(part, place, &told);
            let above = reached.iter().map(tall).fold(0.0, f64::max);
            marks.text(start, base - above - 3.0, "l", &told);
            free = start + wide + 2.0;
        }
    }
    marks.line((LEFT, base), (RIGHT, base), "thin");
}
