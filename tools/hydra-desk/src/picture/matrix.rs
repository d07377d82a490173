//! From seven boxes on: for each round a square, a row for each box that listens and a column for each that sends.

use crate::epoch::{live, Closed, Epoch};
use crate::telling;
use crate::words;

use super::round::{Cell, Round};
use super::sentences;
use super::svg::{at, wrap, Drawing, Marks, SMALL, WIDTH};

/// The square of a round.
pub fn draw(epoch: &Epoch, number: usize, round: &Round) -> Drawing {
    let nodes = epoch.begins.len() as u32;
    let side = (400.0 / f64::from(nodes)).min(24.0);
    let (left, top) = (64.0, 44.0);
    let all = side * f64::from(nodes);
    let mut marks = Marks::default();
    axes(&mut marks, nodes, side, left, top);
    squares(&mut marks, round, nodes, side, left, top);
    let beside = match round.close {
        Some((line, closed)) => brackets(
            &mut marks,
            line,
            closed,
            nodes,
            side,
            (left + all + 10.0, top),
        ),
        None => top,
    };
    let what = match round.close {
        Some((_, closed)) => {
            let groups = telling::close_groups(closed);
            let told: Vec<String> = groups.iter().map(telling::group).collect();
            sentences::dashes(&format!("At the close: {}.", told.join("; ")))
        }
        None => "The round is not closed.".to_string(),
    };
    Drawing {
        id: format!("{}r{number}", epoch.number),
        title: format!("Epoch {}, round {number}: who heard whom", epoch.number),
        words: what,
        height: (top + all).max(beside) + 8.0,
        marks: marks.0,
    }
}

fn axes(marks: &mut Marks, nodes: u32, side: f64, left: f64, top: f64) {
    let middle = left + side * f64::from(nodes) / 2.0;
    marks.text(middle, 14.0, "s b m", "box that sends");
    let (x, y) = (16.0, top + side * f64::from(nodes) / 2.0);
    let turned = format!(
        "<text class=\"s b m\" transform=\"translate({} {})rotate(-90)\">box that listens</text>",
        at(x),
        at(y)
    );
    marks.raw(&turned);
    let every = if side < 15.0 { 2 } else { 1 };
    for node in (1..=nodes).filter(|node| (node - 1) % every == 0) {
        let x = left + side * (f64::from(node) - 0.5);
        marks.text(x, top - 6.0, "l m", &node.to_string());
    }
    for node in 1..=nodes {
        let y = top + side * (f64::from(node) - 0.5);
        marks.text(left - 6.0, y + 4.0, "l e", &node.to_string());
    }
}

fn squares(marks: &mut Marks, round: &Round, nodes: u32, side: f64, left: f64, top: f64) {
    let mut paths = [
        String::new(),
        String::new(),
        String::new(),
        String::new(),
        String::new(),
    ];
    let [heard, noted, crosses, own, mute] = &mut paths;
    for listener in 1..=nodes {
        for sender in 1..=nodes {
            let x = left + side * f64::from(sender - 1);
            let y = top + side * f64::from(listener - 1);
            let full = |inset: f64| {
                let wide = at(side - 2.0 * inset);
                format!(
                    "M{} {}h{wide}v{wide}h-{wide}z",
                    at(x + inset),
                    at(y + inset)
                )
            };
            if listener == sender {
                own.push_str(&format!(
                    "M{} {}h2v2h-2z",
                    at(x + side / 2.0 - 1.0),
                    at(y + side / 2.0 - 1.0)
                ));
                continue;
            }
            match round.cell(listener, sender) {
                Cell::Merged => heard.push_str(&full(0.7)),
                Cell::Noted => noted.push_str(&full(1.4)),
                Cell::Lost => {
                    let arm = at(side - 8.0);
                    crosses.push_str(&format!(
                        "M{} {}l{arm} {arm}m0 -{arm}l-{arm} {arm}",
                        at(x + 4.0),
                        at(y + 4.0)
                    ));
                }
                Cell::Nothing => mute.push_str(&full(0.7)),
            }
        }
    }
    let all = side * f64::from(nodes);
    marks.path(mute, "mute");
    marks.path(heard, "heard");
    marks.path(noted, "noted");
    marks.path(crosses, "loss");
    marks.path(own, "head");
    let mut hatch = String::new();
    for node in (0..nodes).filter(|node| round.live >> node & 1 == 0) {
        let place = side * f64::from(node);
        let mut shift = 0.0;
        while shift < all - side / 4.0 {
            let long = at(side - 3.0);
            let row = (left + shift, top + place + side - 1.5);
            let column = (left + place + 1.5, top + shift + side - 3.0);
            for (x, y) in [row, column] {
                hatch.push_str(&format!("M{} {}l{long} -{long}", at(x), at(y)));
            }
            shift += side / 2.0;
        }
    }
    marks.path(&hatch, "hatch");
    marks.rect(left, top, all, all, "class=\"thin\"");
}

/// Beside the rows a bracket for each run of boxes that did the same; how deep the words go.
fn brackets(
    marks: &mut Marks,
    line: u64,
    closed: &[Closed],
    nodes: u32,
    side: f64,
    corner: (f64, f64),
) -> f64 {
    let (x, top) = corner;
    marks.text(x, top - 8.0, "s b", &format!("At the close, line {line}"));
    let mut runs: Vec<(String, u32, u32, bool)> = Vec::new();
    for node in 1..=nodes {
        let own = closed.iter().find(|closed| closed.node == node);
        let (told, sends) = match own {
            Some(closed) => (telling::did(closed), closed.sends()),
            None => ("not live".to_string(), false),
        };
        match runs.last_mut() {
            Some((known, _, last, _)) if *known == told => *last = node,
            _ => runs.push((told, node, node, sends)),
        }
    }
    let mut free = top;
    for (told, first, last, sends) in runs {
        let from = top + side * f64::from(first - 1) + 1.0;
        let to = top + side * f64::from(last) - 1.0;
        let class = if sends { "head" } else { "plain" };
        marks.rect(x, from, 6.0, to - from, &format!("class=\"{class}\""));
        let who = match first == last {
            true => format!("{first}: {told}"),
            false => format!("{first}\u{2013}{last}: {told}"),
        };
        let lines = wrap(&who, SMALL, !sends, WIDTH - x - 18.0);
        let high = 13.0 * lines.len() as f64;
        let y = ((from + to - high) / 2.0).max(free);
        for (at, line) in lines.iter().enumerate() {
            let class = if sends { "s" } else { "s b" };
            marks.text(x + 14.0, y + 10.0 + 13.0 * at as f64, class, line);
        }
        free = y + high + 1.0;
    }
    free
}

/// How many are there, above the squares.
pub fn head(epoch: &Epoch) -> String {
    let up = live(&epoch.begins).count_ones();
    let owners =
        sentences::owners(&epoch.begins, false).map_or(String::new(), |told| format!(" {told}."));
    format!(
        "{} as the epoch begins.{owners}",
        words::count_es(up, "live box")
    )
}
