//! The card of a box at a close.

use crate::core::Rule;
use crate::epoch::Closed;

use super::svg::{width, wrap, SMALL};

/// The frame of a card and the bar at its left.
pub fn frame(closed: &Closed) -> (&'static str, Option<&'static str>) {
    match closed.report.rule {
        _ if closed.sends() => ("sends", Some("black")),
        Rule::Determined => ("later", Some("grey")),
        _ => ("silent", None),
    }
}

/// What a card says, in lines of a width; the first is bold.
pub fn card(closed: &Closed, most: f64) -> Vec<(bool, String)> {
    let version = closed.version;
    let missing = closed.report.missing;
    let (head, rest) = match closed.report.rule {
        Rule::Missing if closed.unmerged => (
            "says nothing:".to_string(),
            format!("the request of box {missing} is missing (heard, not merged)"),
        ),
        Rule::Missing => (
            "says nothing:".to_string(),
            format!("the request of box {missing} is missing"),
        ),
        Rule::Majority => (
            "says nothing:".to_string(),
            "it knows too few boxes".to_string(),
        ),
        Rule::Lower => (
            "says nothing:".to_string(),
            "others have a newer version".to_string(),
        ),
        Rule::Top => (
            "says nothing:".to_string(),
            "it is at the top version".to_string(),
        ),
        Rule::Repeats => (
            format!("repeats version {version}"),
            "others have an older one".to_string(),
        ),
        Rule::Determined if closed.repeats => (
            format!("repeats version {version}"),
            "until a new schedule goes out with the epoch's last close".to_string(),
        ),
        Rule::Determined => (
            "determines".to_string(),
            "a new schedule; it goes out with the epoch's last close".to_string(),
        ),
        Rule::Sent if missing > 0 => (
            format!("sends version {version}"),
            format!("(box {missing} not heard of; determined before)"),
        ),
        Rule::Sent => (
            format!("sends version {version}"),
            "a new schedule".to_string(),
        ),
    };
    // In a narrow card the verb stands alone.
    let (head, rest) = match head.split_once(' ') {
        Some((verb, version)) if width(&head, SMALL, true) > most => {
            let comma = if rest.is_empty() || rest.starts_with('(') {
                " "
            } else {
                ", "
            };
            (
                verb.to_string(),
                format!("{version}{comma}{rest}").trim_end().to_string(),
            )
        }
        _ => (head, rest),
    };
    let mut lines: Vec<(bool, String)> = wrap(&head, SMALL, true, most)
        .into_iter()
        .map(|line| (true, line))
        .collect();
    if !rest.is_empty() {
        lines.extend(
            wrap(&rest, SMALL, false, most)
                .into_iter()
                .map(|line| (false, line)),
        );
    }
    lines
}
