//! Packets in a space-time diagram: a row for each, in bands.

use crate::epoch::{Band, Row};
use crate::telling;

use super::columns::{LEFT, WORDS, WORDS_WIDTH};
use super::sentences::boxes;
use super::spacetime::Spacetime;
use super::svg::{at, wrap, SMALL, WIDTH};

impl Spacetime<'_> {
    pub(super) fn band(&mut self, band: &Band) {
        let room = self.name_room();
        let top = self.y + 3.0;
        let heights: Vec<f64> = band
            .rows
            .iter()
            .map(|row| 7.0 + 13.0 * told(row).len() as f64)
            .collect();
        let least = 14.0 + room;
        let high = (heights.iter().sum::<f64>() + 6.0).max(least + 6.0);
        self.back
            .rect(LEFT, top, WIDTH - LEFT - 2.0, high, "class=\"band\"");
        let lines = telling::lines(band.first, band.last).replace(" to ", "\u{2013}");
        self.label(top + 16.0, &lines);
        let mut y = top + 3.0;
        for (row, height) in band.rows.iter().zip(heights) {
            self.row(row, y + height / 2.0);
            y += height;
        }
        self.y = top + high + 3.0;
    }

    fn row(&mut self, row: &Row, y: f64) {
        let from = self.columns.x(row.sender);
        for up in [false, true] {
            self.side(row, y, from, up);
        }
        let class = if row.late { "again" } else { "packet" };
        self.front.circle(from, y, 8.5, class);
        self.front
            .text(from, y + 4.0, "s b m", &row.packet.to_string());
        let lines = told(row);
        let start = y + 4.0 - 6.5 * (lines.len() as f64 - 1.0);
        for (at, (class, line)) in lines.iter().enumerate() {
            self.front
                .text(WORDS, start + 13.0 * at as f64, class, line);
        }
    }

    /// The boxes on one side of the sender, from the nearest on.
    fn side(&mut self, row: &Row, y: f64, from: f64, up: bool) {
        let has = |set: u32, node: u32| set >> (node - 1) & 1 == 1;
        let nodes: Vec<u32> = match up {
            true => (row.sender + 1..=self.columns.count).collect(),
            false => (1..row.sender).rev().collect(),
        };
        let sign = if up { 1.0 } else { -1.0 };
        let start = from + sign * 8.5;
        let farthest = |set: u32| nodes.iter().rfind(|&&node| has(set, node)).copied();
        let heard = farthest(row.heard());
        let reached = match heard {
            Some(node) => {
                let x = self.columns.x(node) - sign * 9.0;
                self.front.line((start, y), (x, y), "arrow");
                self.columns.x(node)
            }
            None => start,
        };
        if let Some(node) = farthest(row.lost) {
            let x = self.columns.x(node);
            if (x - reached) * sign > 0.0 {
                self.front.line((reached, y), (x, y), "lost");
            }
        }
        for node in nodes {
            let x = self.columns.x(node);
            if has(row.heard(), node) {
                let class = if has(row.noted, node) {
                    "hollow"
                } else {
                    "head"
                };
                let d = format!(
                    "M{} {}l{} -4.5v9z",
                    at(x - sign * 1.5),
                    at(y),
                    at(-sign * 9.0)
                );
                self.front.path(&d, class);
            } else if has(row.lost, node) {
                let d = format!("M{} {}l8 8m0 -8l-8 8", at(x - 4.0), at(y - 4.0));
                self.front.path(&d, "loss");
            }
        }
    }
}

/// The words at the right of a packet's row: who did not hear it, and who heard it and did not merge it.
fn told(row: &Row) -> Vec<(&'static str, String)> {
    let mut sentences = Vec::new();
    if row.lost != 0 {
        sentences.push(("s b", format!("not heard by {}", boxes(row.lost))));
    }
    if row.noted != 0 {
        sentences.push(("s b", format!("not merged by {}", boxes(row.noted))));
    }
    if row.late {
        sentences.push(("s", format!("later heard by {}", boxes(row.heard()))));
    } else if sentences.is_empty() {
        let all = if row.heard() == 0 {
            "nobody is there"
        } else {
            "heard by all"
        };
        sentences.push(("s g", all.to_string()));
    }
    let lines = |(class, text): (&'static str, String)| {
        let lines = wrap(&text, SMALL, class.contains('b'), WORDS_WIDTH);
        lines.into_iter().map(move |line| (class, line))
    };
    sentences.into_iter().flat_map(lines).collect()
}
