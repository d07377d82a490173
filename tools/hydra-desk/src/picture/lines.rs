//! The lines of a space-time diagram that are no packets: what befalls boxes, closes, takes and ends.

use crate::core::State;
use crate::epoch::{Closed, RefusedLine};

use super::card::{self, card};
use super::columns::{LEFT, WORDS};
use super::sentences::boxes;
use super::spacetime::Spacetime;
use super::svg::{at, width, wrap, SMALL, WIDTH};

impl Spacetime<'_> {
    fn note(&mut self, line: u64, node: u32, bold: &str, small: &str) -> (f64, f64) {
        let room = self.name_room();
        let y = self.y + 14.0;
        self.label(y + 2.0, &format!("line {line}"));
        let x = self.columns.x(node);
        self.front.line((x + 10.0, y), (WORDS - 4.0, y), "quiet");
        self.front.text(WORDS, y, "s b", bold);
        if !small.is_empty() {
            self.front.text(WORDS, y + 12.0, "s", small);
        }
        self.y = y + 12.0 + room.max(if small.is_empty() { 0.0 } else { 6.0 });
        (x, y)
    }

    pub(super) fn crash(&mut self, line: u64, node: u32) {
        let (x, y) = self.note(
            line,
            node,
            &format!("box {node} crashes"),
            "all it held is lost",
        );
        self.becomes(node, State::Down, y);
        self.front
            .rect(x - 7.0, y - 7.0, 14.0, 14.0, "class=\"black\"");
        let d = format!("M{} {}l8 8m0 -8l-8 8", at(x - 4.0), at(y - 4.0));
        self.front.raw(&format!(
            "<path d=\"{d}\" style=\"stroke:#fff;stroke-width:2\"/>"
        ));
    }

    pub(super) fn restart(&mut self, line: u64, node: u32, flags: u32) {
        let small = format!("flags {}; waits", boxes(flags));
        let (x, y) = self.note(line, node, &format!("box {node} restarts"), &small);
        self.becomes(node, State::Waiting, y);
        let d = format!("M{} {}v14l12 -7z", at(x - 6.0), at(y - 7.0));
        self.front.path(&d, "packet");
    }

    pub(super) fn want(&mut self, line: u64, node: u32, demand: u32) {
        let (x, y) = self.note(line, node, &format!("box {node} wants {demand}"), "");
        let d = format!("M{} {}l7 7l-7 7l-7 -7z", at(x), at(y - 7.0));
        self.front.path(&d, "packet");
    }

    pub(super) fn take(&mut self, line: u64, node: u32, from: u32, version: u32) {
        let room = self.name_room();
        let y = self.y + 12.0;
        self.label(y + 4.0, &format!("line {line}"));
        let (start, end) = (self.columns.x(from), self.columns.x(node));
        let sign = if end > start { 1.0 } else { -1.0 };
        for shift in [-1.5, 1.5] {
            self.front
                .line((start, y + shift), (end - sign * 9.0, y + shift), "thin");
        }
        let d = format!(
            "M{} {}l{} -5v10z",
            at(end - sign * 1.5),
            at(y),
            at(-sign * 10.0)
        );
        self.front.path(&d, "head");
        self.front
            .rect(start - 8.0, y - 8.0, 16.0, 16.0, "class=\"packet\"");
        self.front.text(start, y + 4.0, "s b m", &from.to_string());
        self.front.text(
            WORDS,
            y + 4.0,
            "s b",
            &format!("{node} takes version {version}"),
        );
        self.y = y + 12.0 + room;
    }

    pub(super) fn refused(&mut self, refused: &RefusedLine) {
        let room = self.name_room();
        let top = self.y + 4.0;
        let head = format!("refused ({}): {}", refused.number, refused.text);
        let most = WIDTH - LEFT - 30.0;
        let behind = width(&head, SMALL, true) + 16.0;
        let beside = behind + width(&refused.sentence, SMALL, false) < most;
        let mut lines: Vec<(f64, &str, String)> = Vec::new();
        if beside {
            lines.push((0.0, "s b", head));
            lines.push((behind, "s", refused.sentence.clone()));
        } else {
            let bold = wrap(&head, SMALL, true, most)
                .into_iter()
                .map(|line| (0.0, "s b", line));
            let plain = wrap(&refused.sentence, SMALL, false, most)
                .into_iter()
                .map(|line| (0.0, "s", line));
            lines.extend(bold.chain(plain));
        }
        let rows = if beside { 1 } else { lines.len() };
        let high = (5.0 + 14.0 * rows as f64).max(room + 6.0);
        self.front.rect(
            LEFT,
            top,
            WIDTH - LEFT - 2.0,
            high,
            "class=\"refused\" data-card=\"\"",
        );
        self.front.rect(LEFT, top, 6.0, high, "class=\"alarm\"");
        for (at, (shift, class, line)) in lines.iter().enumerate() {
            let row = if beside { 0 } else { at };
            self.front.text(
                LEFT + 14.0 + shift,
                top + 13.0 + 14.0 * row as f64,
                class,
                line,
            );
        }
        self.label(top + 13.0, &format!("line {}", refused.line));
        self.y = top + high + 4.0 + room;
    }

    pub(super) fn close(&mut self, line: u64, closed: &[Closed]) {
        let room = self.name_room();
        let top = self.y + 6.0 + room;
        if room > 0.0 {
            self.label(self.y + 10.0, "");
        }
        self.front.line((LEFT, top), (WIDTH - 2.0, top), "thin");
        self.front.text(4.0, top + 9.0, "b", "close");
        self.front
            .text(4.0, top + 22.0, "s g", &format!("line {line}"));
        let wide = self.columns.step() - 6.0;
        let texts: Vec<Vec<(bool, String)>> = closed
            .iter()
            .map(|closed| card(closed, wide - 16.0))
            .collect();
        let most = texts.iter().map(Vec::len).max().unwrap_or(0);
        let high = 6.0 + 13.5 * most as f64;
        for (closed, lines) in closed.iter().zip(texts) {
            let left = self.columns.x(closed.node) - wide / 2.0;
            let (class, bar) = card::frame(closed);
            let attributes = format!("rx=\"3\" class=\"{class}\" data-card=\"close\"");
            self.front.rect(left, top, wide, high, &attributes);
            if let Some(bar) = bar {
                self.front
                    .rect(left, top, 6.0, high, &format!("class=\"{bar}\""));
            }
            for (at, (bold, text)) in lines.iter().enumerate() {
                let class = if *bold { "s b" } else { "s" };
                self.front
                    .text(left + 11.0, top + 13.0 + 13.5 * at as f64, class, text);
            }
        }
        if closed.is_empty() {
            self.front
                .text(LEFT + 8.0, top + 14.0, "s", "no box is live");
        }
        self.y = top + high.max(24.0) + 4.0;
    }

    pub(super) fn end(&mut self, line: u64, round: u64, epoch_ends: bool) {
        let y = self.y + 10.0;
        let (class, told) = match epoch_ends {
            true => ("thick", format!("epoch {} ends", self.epoch.number)),
            false => ("dash", format!("round {round} ends")),
        };
        self.front.line((LEFT, y), (WORDS - 6.0, y), class);
        self.front.rect(
            WORDS - 6.0,
            y - 9.0,
            WIDTH - 2.0 - WORDS + 6.0,
            18.0,
            "class=\"plain\" data-card=\"\"",
        );
        self.front.text(WORDS, y + 4.0, "s b", &told);
        self.front.text(4.0, y + 1.0, "b", "end");
        self.front
            .text(4.0, y + 14.0, "s g", &format!("line {line}"));
        self.y = y + if epoch_ends { 10.0 } else { 20.0 };
        self.unnamed = (!epoch_ends).then_some(round + 1);
    }
}
