//! A round as a square shows it: who heard whom, and the parts that did not hear each other.

use crate::epoch::{live, Closed, Epoch, Item, Row};

use super::sentences::boxes;

/// What happened in a round between its start and its end.
pub struct Round<'a> {
    rows: Vec<&'a Row>,
    pub close: Option<(u64, &'a [Closed])>,
    /// The boxes that are live at the close, or behind the last line where there is none.
    pub live: u32,
}

/// The rounds of an epoch in which there was a packet or a close.
pub fn rounds(epoch: &Epoch) -> Vec<Round<'_>> {
    let empty = || Round {
        rows: Vec::new(),
        close: None,
        live: live(&epoch.after),
    };
    let mut rounds = vec![empty()];
    for item in &epoch.items {
        let round = rounds.last_mut().expect("there is always one");
        match item {
            Item::Band(band) => round.rows.extend(&band.rows),
            Item::Close { line, boxes } => {
                round.close = Some((*line, boxes));
                round.live = boxes
                    .iter()
                    .fold(0, |set, closed| set | 1 << (closed.node - 1));
            }
            Item::End { .. } => rounds.push(empty()),
            _ => {}
        }
    }
    rounds.retain(|round| !round.rows.is_empty() || round.close.is_some());
    rounds
}

/// What a square shows of a listener and a sender.
#[derive(Clone, Copy, PartialEq, Eq)]
pub enum Cell {
    Merged,
    Noted,
    Lost,
    /// The sender has sent nothing, or the listener is not live.
    Nothing,
}

impl Round<'_> {
    pub fn cell(&self, listener: u32, sender: u32) -> Cell {
        let has = |set: u32| set >> (listener - 1) & 1 == 1;
        let of_sender = || self.rows.iter().filter(|row| row.sender == sender);
        if of_sender().any(|row| has(row.merged | row.unknown)) {
            Cell::Merged
        } else if of_sender().any(|row| has(row.noted)) {
            Cell::Noted
        } else if of_sender().any(|row| has(row.lost)) {
            Cell::Lost
        } else {
            Cell::Nothing
        }
    }

    /// Who heard whom, as sets of senders by listener.
    fn heard(&self, nodes: u32) -> Vec<u32> {
        (1..=nodes)
            .map(|listener| {
                let heard = |row: &&&Row| row.heard() >> (listener - 1) & 1 == 1;
                let bit = |row: &&Row| 1u32 << (row.sender - 1);
                self.rows
                    .iter()
                    .filter(heard)
                    .map(bit)
                    .fold(0, |set, bit| set | bit)
            })
            .collect()
    }

    /// Parts that did not hear each other, deaf boxes, and senders that nobody heard.
    pub fn sentences(&self, nodes: u32) -> Vec<String> {
        let up = self.live;
        let heard = self.heard(nodes);
        let senders = self
            .rows
            .iter()
            .fold(0, |set, row| set | 1 << (row.sender - 1));
        let mut out = Vec::new();
        // A box that neither heard nor was heard is told of below.
        let mut parts = parts(&heard, up);
        parts.retain(|part| part.count_ones() > 1);
        if parts.len() > 1 {
            let told: Vec<String> = parts.iter().map(|part| boxes(*part)).collect();
            out.push(format!(
                "Nobody heard across these parts: {}.",
                told.join(" | ")
            ));
        }
        let deaf = (0..nodes).filter(|at| {
            up >> at & 1 == 1 && heard[*at as usize] == 0 && senders & !(1 << at) != 0
        });
        let deaf = deaf.fold(0u32, |set, at| set | 1 << at);
        if deaf != 0 && senders != 0 {
            out.push(format!("Heard nobody: {}.", boxes(deaf)));
        }
        let reached = heard.iter().fold(0, |set, heard| set | heard);
        let unheard = senders & !reached;
        if unheard != 0 {
            out.push(format!("Heard by nobody: {}.", boxes(unheard)));
        }
        out
    }
}

/// The live boxes in parts between which nothing was heard.
fn parts(heard: &[u32], up: u32) -> Vec<u32> {
    let mut rest = up;
    let mut parts = Vec::new();
    while rest != 0 {
        let mut part = rest & rest.wrapping_neg();
        loop {
            let mut more = part;
            for (at, &from) in heard.iter().enumerate() {
                let bit = 1 << at;
                if part & bit != 0 {
                    more |= from & up;
                } else if from & part != 0 {
                    more |= bit & up;
                }
            }
            if more == part {
                break;
            }
            part = more;
        }
        parts.push(part);
        rest &= !part;
    }
    parts
}
