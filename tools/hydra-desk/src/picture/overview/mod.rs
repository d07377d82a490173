//! A long run at a glance: where to look, strips of sixty epochs, and the same in numbers.

mod axis;
mod boxes;
mod column;
mod site;
mod strip;
mod tables;

use std::cmp::Reverse;
use std::fmt::Write;

use crate::words::{count, grouped};

use super::svg::escape;
pub use column::Column;

/// As many epochs are named one by one.
const TOP_NAMED: usize = 20;
/// As many notes of an epoch are told there.
const TOP_NOTES: usize = 4;

const READ: &str = "\
<p>Each column is one epoch; its place on the axis leads to its drawing. A bar of a box is how many slots it holds when \
the epoch begins; it is white if the box's version is not the newest. Hatched: down. Dashed: waiting, or without a schedule. \
The letter under it says why the box sent no new schedule at the last close of the epoch: <b>?</b> a request was missing, \
<b>\u{bd}</b> too few boxes for a majority, <b>&lt;</b> others had a newer version, <b>R</b> it repeated its own. No letter: it \
sent or determined one. The lanes with these letters count the boxes at all closes of an epoch.</p>\n";

/// The section of a page.
pub fn section(columns: &[Column], slots: u32) -> String {
    let mut out = String::from("<section id=\"overview\"><h2>Epoch by epoch</h2>\n");
    out.push_str(READ);
    out.push_str(&odd_epochs(columns));
    out.push_str("<h2>The epochs side by side</h2>\n");
    for drawing in strip::draw(columns, slots) {
        out.push_str(&drawing.svg());
    }
    out.push_str("<h2>The same in numbers, by box</h2>\n");
    out.push_str(&tables::by_box(columns));
    out.push_str("<h2>The same in numbers, by epoch</h2>\n");
    out.push_str(&tables::by_epoch(columns));
    let _ = writeln!(
        out,
        "<h2>Slots held, by epoch and box</h2>\n<p>{}</p>",
        tables::CELLS
    );
    out.push_str(&tables::by_both(columns));
    out.push_str("</section>\n");
    out
}

/// The epochs in which most boxes were silent, lines refused, or boxes crashed, restarted or changed their demand.
/// Refusals that are ordinary do not count.
fn odd_epochs(columns: &[Column]) -> String {
    let mut odd: Vec<&Column> = columns.iter().filter(|column| column.odd() > 0).collect();
    let all = odd.len();
    if all == 0 {
        return String::new();
    }
    odd.sort_by_key(|column| (Reverse(column.odd()), column.number));
    odd.truncate(TOP_NAMED);
    odd.sort_by_key(|column| column.number);
    let these = if all > odd.len() {
        "; these have the most"
    } else {
        ""
    };
    let mut out = format!(
        "<h2>Where to look</h2>\n<p>{} of {} epochs have a silent close, an event of a box or a refused line that is not ordinary{these}.</p>\n<ul>\n",
        grouped(all as u64),
        grouped(columns.len() as u64)
    );
    // Epochs that follow each other and are odd in the same way are one line.
    let alike = |a: &&Column, b: &&Column| a.number + 1 == b.number && oddities(a) == oddities(b);
    for run in odd.chunk_by(alike) {
        let (first, last) = (run[0], run[run.len() - 1]);
        let link = |column: &Column| column.link(&column.number.to_string());
        let name = match run.len() {
            1 => first.link(&format!("epoch {}", first.number)),
            _ => format!("epochs {}\u{2013}{}", link(first), link(last)),
        };
        let _ = writeln!(out, "<li>{name}: {}</li>", escape(&oddities(first)));
    }
    out.push_str("</ul>\n");
    out
}

fn oddities(column: &Column) -> String {
    let mut parts = Vec::new();
    if column.silent() > 0 {
        parts.push(format!("{} silent", grouped(column.silent())));
    }
    if column.lost > 0 {
        parts.push(format!("{} lost", count(column.lost, "hearing")));
    }
    if column.wrong > 0 {
        parts.push(format!("{} refused", grouped(column.wrong)));
    }
    let notes = column.notes.iter().take(TOP_NOTES);
    parts.extend(notes.map(|note| format!("box {note}")));
    parts.join(", ")
}
