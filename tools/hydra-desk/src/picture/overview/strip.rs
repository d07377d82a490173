//! The lanes of an overview: a column for each epoch, sixty to a strip.

use crate::core::Rule;

use super::super::svg::{Drawing, Marks};
use super::axis::{self, Part};
use super::boxes::{self, Lane};
use super::column::Column;
use super::site;

/// As many boxes stand in one drawing; with more it would not fit on a printed page.
const IN_DRAWING: usize = 16;
/// From so many boxes on their lanes are narrower.
const NARROW_FROM: usize = 9;

/// What the strips of a run have in common, so that one can be compared with the other.
struct Scale {
    slots: u32,
    /// The highest version.
    top: u32,
    /// The rules with a mark that applied at some close.
    lanes: Vec<Rule>,
    /// The most boxes of an epoch to which one of them applied.
    most: u64,
}

impl Scale {
    fn of(columns: &[Column], slots: u32) -> Scale {
        let marked = |rule: &Rule| {
            boxes::has_letter(*rule) && columns.iter().any(|column| column.by_rule(*rule) > 0)
        };
        let lanes: Vec<Rule> = Rule::ALL.into_iter().filter(marked).collect();
        let counts = columns
            .iter()
            .flat_map(|column| lanes.iter().map(|rule| column.by_rule(*rule)));
        Scale {
            slots,
            top: columns
                .iter()
                .map(|column| column.newest)
                .max()
                .unwrap_or(0),
            most: counts.max().unwrap_or(0),
            lanes,
        }
    }
}

/// The strips: one drawing each, or more if there are many boxes.
pub fn draw(columns: &[Column], slots: u32) -> Vec<Drawing> {
    let scale = Scale::of(columns, slots);
    Part::all(columns)
        .flat_map(|part| strip(part, &scale))
        .collect()
}

fn strip(part: Part, scale: &Scale) -> Vec<Drawing> {
    let nodes: Vec<u32> = (1..=part.first().boxes.len() as u32).collect();
    let held = part.columns.iter().flat_map(|column| &column.boxes);
    let lane = Lane {
        high: if nodes.len() < NARROW_FROM {
            56.0
        } else {
            42.0
        },
        most: held.map(|held| held.slots).max().unwrap_or(0).max(1),
    };
    let groups = nodes.chunks(IN_DRAWING).enumerate();
    groups
        .map(|(at, group)| match at {
            0 => drawing(part, group, &lane, Some(scale)),
            _ => drawing(part, group, &lane, None),
        })
        .collect()
}

/// Some boxes of a strip; the first of them stand under the lanes of the site.
fn drawing(part: Part, group: &[u32], lane: &Lane, scale: Option<&Scale>) -> Drawing {
    let mut marks = Marks::default();
    let (first, last) = (part.first().number, part.last().number);
    let mut y = match scale {
        Some(_) => axis::notes(&mut marks, part),
        None => 0.0,
    };
    y = axis::epochs(&mut marks, part, y);
    let top = y;
    if let Some(scale) = scale {
        y = site::versions(&mut marks, part, y, scale.top);
        y = site::held(&mut marks, part, y, scale.slots);
        y = site::losses(&mut marks, part, y);
        y = site::rules(&mut marks, part, y, &scale.lanes, scale.most);
    }
    for &node in group {
        y = lane.draw(&mut marks, part, y, node);
    }
    let grid = axis::grid(part, top, y);
    y = axis::epochs(&mut marks, part, y);
    let (low, high) = (group[0], group[group.len() - 1]);
    let which = match scale {
        Some(_) => {
            "Versions, slots held, losses, closes without a new schedule by rule, and the boxes"
        }
        None => "The boxes",
    };
    Drawing {
        id: format!("o{first}b{low}"),
        title: format!("Epochs {first} to {last}, boxes {low} to {high}"),
        words: format!("{which} {low} to {high} in epochs {first} to {last}; the tables below have the numbers."),
        height: y + 4.0,
        marks: [grid.0, marks.0].concat(),
    }
}
