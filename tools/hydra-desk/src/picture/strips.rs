//! What boxes hold, where there are many of them or many slots: one strip for each distinct schedule.

use crate::core::{Shown, State};
use crate::telling;

use super::sentences::boxes;
use super::style;
use super::svg::{width, Marks, SMALL, WIDTH};

const IN_ROW: usize = 40;
const LEFT: f64 = 36.0;

/// Draws from a height on; the height behind it.
pub fn draw(marks: &mut Marks, mut y: f64, shown: &[Shown]) -> f64 {
    // Boxes of the same state, version and schedule share a strip.
    let held = |shown: &Shown| (shown.state, shown.version, shown.owners.clone());
    let groups = telling::together((1..).zip(shown.iter().map(held)));
    for ((state, version, owners), holders) in groups {
        y = match state {
            State::Live if version > 0 => strip(marks, y, version, &owners, holders),
            _ => without(marks, y, state, holders),
        };
    }
    y
}

fn who(holders: u32) -> String {
    match holders.count_ones() {
        1 => format!("Box {}", boxes(holders)),
        _ => format!("Boxes {}", boxes(holders)),
    }
}

fn strip(marks: &mut Marks, y: f64, version: u32, owners: &[u8], holders: u32) -> f64 {
    let slots = owners.len();
    let given = owners.iter().filter(|&&owner| owner > 0).count();
    let head = format!(
        "{}: version {version}, {given} of {slots} slots given",
        who(holders)
    );
    marks.text(4.0, y + 13.0, "s b", &head);
    let top = y + 18.0;
    let step = ((WIDTH - 2.0 - LEFT) / IN_ROW.min(slots) as f64).min(22.0);
    let held = |owner: u8| owner > 0 && holders >> (owner - 1) & 1 == 1;
    let mut strangers = 0u32;
    for (slot, &owner) in owners.iter().enumerate() {
        let (x, y) = (
            LEFT + step * (slot % IN_ROW) as f64,
            top + 18.0 * (slot / IN_ROW) as f64,
        );
        if slot % IN_ROW == 0 {
            marks.text(LEFT - 5.0, y + 12.0, "l e g", &(slot + 1).to_string());
        }
        let class = match owner {
            0 => "free".to_string(),
            owner if held(owner) => style::cell(owner, false),
            _ => "stranger".to_string(),
        };
        marks.rect(x + 0.5, y, step - 1.0, 16.0, &format!("class=\"{class}\""));
        if owner > 0 {
            marks.text(x + step / 2.0, y + 12.0, "l m", &owner.to_string());
            if !held(owner) {
                strangers |= 1 << (owner - 1);
            }
        }
    }
    let mut bottom = top + 18.0 * slots.div_ceil(IN_ROW) as f64;
    if strangers != 0 {
        let told = format!(
            "white with a number: given to {}, which do not hold this schedule",
            boxes(strangers)
        );
        marks.text(LEFT, bottom + 11.0, "s g", &told);
        bottom += 15.0;
    }
    bottom + 4.0
}

/// A row for boxes that have no schedule.
fn without(marks: &mut Marks, y: f64, state: State, holders: u32) -> f64 {
    let (told, class) = match state {
        State::Live => ("no schedule (version 0)", "silent"),
        State::Waiting => ("waiting for the end of the epoch", "none"),
        State::Down => ("down, nothing held", "none"),
    };
    let told = format!("{}: {told}", who(holders));
    marks.rect(
        4.0,
        y + 3.0,
        WIDTH - 6.0,
        17.0,
        &format!("class=\"{class}\" data-card=\"\""),
    );
    marks.text(12.0, y + 15.0, "s b", &told);
    if state == State::Down {
        let from = 12.0 + width(&told, SMALL, true) + 14.0;
        let mut d = String::new();
        let mut x = from;
        while x < WIDTH - 16.0 {
            d.push_str(&format!("M{x:.0} {:.0}l8 -12", y + 18.0));
            x += 8.0;
        }
        marks.path(&d, "hatch");
    }
    y + 24.0
}
