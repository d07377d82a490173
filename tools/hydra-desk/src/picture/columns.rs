//! Up to six boxes across: the column of each, and what each holds.

use crate::core::{Shown, State};
use crate::epoch::{two_owners, Since};

use super::sentences;
use super::style;
use super::svg::{self, width, wrap, Marks, SMALL, TEXT, WIDTH};

/// The columns lie between these; left are the lines' numbers, right the words.
pub const LEFT: f64 = 90.0;
pub const RIGHT: f64 = 672.0;
/// Where words at the right begin, and how much room they have.
pub const WORDS: f64 = 678.0;
pub const WORDS_WIDTH: f64 = WIDTH - 4.0 - WORDS;

/// At most this many rows of cells; more slots are drawn as one strip for each schedule.
const TOP_ROWS: usize = 3;

#[derive(Clone, Copy)]
pub struct Columns {
    pub count: u32,
}

impl Columns {
    pub fn step(&self) -> f64 {
        (RIGHT - LEFT) / f64::from(self.count)
    }

    /// The middle of a box's column.
    pub fn x(&self, node: u32) -> f64 {
        LEFT + self.step() * (f64::from(node) - 0.5)
    }

    fn cells_in_row(&self) -> usize {
        ((self.step() - 10.0) / 13.0) as usize
    }

    /// Whether the slots can be drawn box by box.
    pub fn fit(&self, slots: usize) -> bool {
        slots.div_ceil(self.cells_in_row()) <= TOP_ROWS
    }
}

/// What is told of a box in place of cells, where it has no schedule.
fn without_schedule(node: u32, now: &Shown, since: Since) -> Option<&'static str> {
    let is = |set: u32| set >> (node - 1) & 1 == 1;
    match now.state {
        State::Down => Some("nothing held"),
        State::Waiting => Some("waits"),
        State::Live if now.version > 0 => None,
        State::Live if is(since.began) => Some("begins, no schedule"),
        State::Live if is(since.expired) => Some("schedule expired"),
        State::Live => Some("no schedule"),
    }
}

/// The heads of the columns and what each box holds, from the height 0 on; how high it is.
pub fn draw(
    marks: &mut Marks,
    columns: Columns,
    shown: &[Shown],
    since: Since,
    distribution: bool,
) -> f64 {
    let slots = shown[0].owners.len();
    marks.text(4.0, 18.0, "b", "holds");
    let y = heads(marks, columns, shown);
    let mut bottom = y;
    if columns.fit(slots) {
        marks.text(4.0, y + 15.0, "s g", &slot_range(slots));
        for (node, now) in (1..).zip(shown) {
            let lowest = match without_schedule(node, now, since) {
                Some(told) => frame(marks, columns, node, y, told, now.state),
                None => cells(marks, columns, node, y, now, shown),
            };
            bottom = bottom.max(lowest);
        }
    }
    bottom = below(marks, columns, bottom, shown, since.changed);
    if let Some(told) = sentences::owners(shown, distribution) {
        bottom = alarm(marks, bottom, &told);
    }
    bottom
}

fn slot_range(slots: usize) -> String {
    match slots {
        1 => "slot 1".to_string(),
        _ => format!("slots 1\u{2013}{slots}"),
    }
}

/// Number and state of each box, beside each other where there is room, else below.
fn heads(marks: &mut Marks, columns: Columns, shown: &[Shown]) -> f64 {
    let told = |shown: &Shown| match shown.state {
        State::Live => format!("version {}", shown.version),
        State::Waiting => "waiting".to_string(),
        State::Down => "down".to_string(),
    };
    let gap = 7.0;
    let long = |node: u32, shown: &Shown| {
        width(&format!("box {node}"), 13.0, true) + gap + width(&told(shown), TEXT, false)
    };
    let beside = (1..)
        .zip(shown)
        .all(|(node, shown)| long(node, shown) < columns.step() - 8.0);
    for (node, shown) in (1..).zip(shown) {
        let x = columns.x(node);
        let name = format!("box {node}");
        if beside {
            let start = x - long(node, shown) / 2.0;
            marks.text(start, 18.0, "h b", &name);
            marks.text(
                start + width(&name, 13.0, true) + gap,
                18.0,
                "",
                &told(shown),
            );
        } else {
            marks.text(x, 16.0, "h b m", &name);
            marks.text(x, 31.0, "m", &told(shown));
        }
    }
    if beside {
        24.0
    } else {
        37.0
    }
}

fn cells(
    marks: &mut Marks,
    columns: Columns,
    node: u32,
    y: f64,
    now: &Shown,
    all: &[Shown],
) -> f64 {
    let in_row = columns.cells_in_row().min(now.owners.len());
    let step = ((columns.step() - 10.0) / in_row as f64).min(20.0);
    let left = columns.x(node) - step * in_row as f64 / 2.0;
    let twice = two_owners(all);
    let place = |slot: usize| {
        let (row, column) = (slot / in_row, slot % in_row);
        (left + step * column as f64, y + 18.0 * row as f64)
    };
    // The own cells come last, so that their frames lie above the others.
    let owned = |slot: &usize| u32::from(now.owners[*slot]) == node;
    let (own, other): (Vec<usize>, Vec<usize>) = (0..now.owners.len()).partition(owned);
    for slot in other.into_iter().chain(own) {
        let (x, y) = place(slot);
        let owner = now.owners[slot];
        let is_own = u32::from(owner) == node;
        let class = style::cell(owner, is_own);
        marks.rect(x + 0.7, y, step - 1.4, 16.0, &format!("class=\"{class}\""));
        if owner > 0 {
            let class = if is_own { "l m b" } else { "l m" };
            marks.text(x + step / 2.0, y + 12.0, class, &owner.to_string());
        }
        if is_own && twice.iter().any(|(number, _)| *number as usize == slot + 1) {
            let (middle, top) = (x + step / 2.0, y + 17.5);
            let d = format!("M{} {}l-3.5 5h7z", svg::at(middle), svg::at(top));
            marks.path(&d, "alarm");
        }
    }
    let rows = now.owners.len().div_ceil(in_row);
    y + 18.0 * rows as f64 + if twice.is_empty() { 0.0 } else { 4.0 }
}

fn frame(marks: &mut Marks, columns: Columns, node: u32, y: f64, told: &str, state: State) -> f64 {
    let wide = (columns.step() - 10.0).min(150.0);
    let left = columns.x(node) - wide / 2.0;
    let lines = wrap(told, SMALL, false, wide - 8.0);
    let high = 4.0 + 13.0 * lines.len() as f64;
    let class = if state == State::Live {
        "silent"
    } else {
        "none"
    };
    marks.rect(
        left,
        y,
        wide,
        high,
        &format!("class=\"{class}\" data-card=\"\""),
    );
    for (at, line) in lines.iter().enumerate() {
        marks.text(columns.x(node), y + 12.0 + 13.0 * at as f64, "s m", line);
    }
    y + high
}

/// The flags of each live box, and whether its schedule is new.
fn below(marks: &mut Marks, columns: Columns, y: f64, shown: &[Shown], changed: u32) -> f64 {
    let flags = |shown: &Shown| format!("flags {}", sentences::boxes(shown.flags));
    let is_new = |node: u32| changed >> (node - 1) & 1 == 1;
    let fits = (1..).zip(shown).all(|(node, shown)| {
        !is_new(node)
            || width(&format!("new; {}", flags(shown)), SMALL, false) < columns.step() - 4.0
    });
    let mut bottom = y + 2.0;
    for (node, shown) in (1..).zip(shown).filter(|(_, shown)| shown.is_live()) {
        let x = columns.x(node);
        let lines = match (is_new(node) && shown.version > 0, fits) {
            (true, true) => vec![format!("new; {}", flags(shown))],
            (true, false) => vec!["new".to_string(), flags(shown)],
            (false, _) => vec![flags(shown)],
        };
        for (at, line) in lines.iter().enumerate() {
            let y = y + 13.0 + 13.0 * at as f64;
            marks.text(x, y, "s g m", line);
            bottom = bottom.max(y + 5.0);
        }
    }
    bottom
}

/// A framed sentence over the whole width.
fn alarm(marks: &mut Marks, y: f64, told: &str) -> f64 {
    let lines = wrap(told, SMALL, true, WIDTH - LEFT - 20.0);
    let high = 5.0 + 14.0 * lines.len() as f64;
    marks.rect(
        LEFT,
        y + 2.0,
        WIDTH - LEFT - 2.0,
        high,
        "class=\"refused\" data-card=\"\"",
    );
    for (at, line) in lines.iter().enumerate() {
        marks.text(LEFT + 8.0, y + 15.0 + 14.0 * at as f64, "s b", line);
    }
    y + high + 6.0
}
