//! The numbers of the strips: by box, by epoch, and by both.

use std::fmt::Write;

use crate::core::{Rule, State};
use crate::words::grouped;

use super::super::svg::escape;
use super::column::{Column, Held};

/// A table; its head stands on each page that it is printed on.
fn table(class: &str, names: &[String], rows: impl Iterator<Item = Vec<String>>) -> String {
    let names: String = names
        .iter()
        .map(|name| format!("<th>{name}</th>"))
        .collect();
    let mut out = format!("<table class=\"{class}\"><thead><tr>{names}</tr></thead><tbody>\n");
    for cells in rows {
        let cells: String = cells
            .iter()
            .map(|cell| match cell.as_str() {
                // Paler, so that the eye finds the others.
                "0" => "<td class=\"zero\">0</td>".to_string(),
                cell => format!("<td>{cell}</td>"),
            })
            .collect();
        let _ = writeln!(out, "<tr>{cells}</tr>");
    }
    out.push_str("</tbody></table>\n");
    out
}

fn names(before: &[&str], rules: &[Rule], behind: &[&str]) -> Vec<String> {
    let rules = rules.iter().map(|rule| rule.word());
    let names = before.iter().copied().chain(rules);
    names
        .chain(behind.iter().copied())
        .map(str::to_string)
        .collect()
}

/// The sums of all columns, box by box.
pub fn by_box(columns: &[Column]) -> String {
    let names = names(
        &["box", "slots held, added", "epochs with a slot"],
        &Rule::ALL,
        &["last version"],
    );
    let nodes = columns.first().map_or(0, |column| column.boxes.len());
    let row = |at_box: usize| {
        let held = || columns.iter().map(move |column| &column.boxes[at_box]);
        let slots: u64 = held().map(|held| u64::from(held.slots)).sum();
        let with = held().filter(|held| held.slots > 0).count();
        let mut cells = vec![
            format!("<b>{}</b>", at_box + 1),
            grouped(slots),
            format!("{with} of {}", columns.len()),
        ];
        cells.extend(Rule::ALL.map(|rule| {
            let counts = columns.iter().map(|column| column.by_box(at_box, rule));
            grouped(counts.sum())
        }));
        let last = held().next_back().map_or(0, |held| held.version);
        cells.push(grouped(last.into()));
        cells
    };
    table("sums", &names, (0..nodes).map(row))
}

/// The lanes of the site, epoch by epoch; of the rules those that applied at some close.
pub fn by_epoch(columns: &[Column]) -> String {
    let applied = |rule: &Rule| columns.iter().any(|column| column.by_rule(*rule) > 0);
    let rules: Vec<Rule> = Rule::ALL.into_iter().filter(applied).collect();
    let names = names(
        &["epoch", "newest version", "slots held", "heard", "lost"],
        &rules,
        &["refused", "events"],
    );
    let row = |column: &Column| {
        let mut cells = vec![
            column.link(&column.number.to_string()),
            grouped(column.newest.into()),
            column.held().to_string(),
            grouped(column.hearings),
            grouped(column.lost),
        ];
        cells.extend(rules.iter().map(|rule| grouped(column.by_rule(*rule))));
        cells.push(grouped(column.refused));
        cells.push(escape(&column.notes.join(", ")));
        cells
    };
    table("epochs", &names, columns.iter().map(row))
}

/// As many epochs are in one table of slots.
const IN_TABLE: usize = 20;

/// The slots of each box as each epoch begins.
pub fn by_both(columns: &[Column]) -> String {
    let nodes = columns.first().map_or(0, |column| column.boxes.len());
    let boxes = (1..=nodes).map(|node| node.to_string());
    let names: Vec<String> = ["epoch".to_string()].into_iter().chain(boxes).collect();
    let row = |column: &Column| {
        let name = column.link(&column.number.to_string());
        let boxes = column.boxes.iter().map(|held| cell(held, column.newest));
        [name].into_iter().chain(boxes).collect()
    };
    // Narrow tables stand side by side, each with its head.
    let wide = 44 + 20 * nodes;
    let tables = columns
        .chunks(IN_TABLE)
        .map(|part| table("slots", &names, part.iter().map(row)));
    let tables: String = tables.collect();
    format!("<div style=\"columns:{wide}px\">{tables}</div>\n")
}

/// What the cells of that table mean beside the number of slots.
pub const CELLS: &str = "In brackets: its version is not the newest. \u{2013}: it has no schedule. w: it waits. \u{d7}: it is down.";

fn cell(held: &Held, newest: u32) -> String {
    match held.state {
        State::Down => "\u{d7}".to_string(),
        State::Waiting => "w".to_string(),
        State::Live if held.version == 0 => "\u{2013}".to_string(),
        State::Live if held.version < newest => format!("({})", held.slots),
        State::Live => held.slots.to_string(),
    }
}
