//! What the tests of one site's calls and of a group's share: the numbers that
//! a call is given, and what the second implementation expects of it.

use crate::inputs;
use reference::random::Random;
use reference::refusal::Refusal;
use reference::settings::Settings;
use reference::site::{Event, EventKind, Row, Site, State, REPORTS_LENGTH};
use reference::tally::Tally;

/// Bytes that show a node.
pub const SHOWN: usize = 90;

/// Words behind those that are lent, so that a write beyond them shows.
const GUARD: [u32; 8] = [0x5a5a_5a5a; 8];

/// No tally, so that a write beyond a lent one shows.
pub const TALLY_GUARD: Tally = Tally {
    epochs: 0x5a5a_5a5a,
    total: 0x5a5a_5a5a,
    slots: [0x5a5a_5a5a; 32],
    held: [0x5a5a_5a5a; 32],
};

/// Words to be lent, with a guard behind them.
#[derive(Clone, PartialEq)]
pub struct LentWords {
    whole: Vec<u32>,
}

impl LentWords {
    pub fn any(random: &mut Random, length: usize) -> LentWords {
        let mut whole: Vec<u32> = (0..length).map(|_| random.next_u32()).collect();
        whole.extend(GUARD);
        LentWords { whole }
    }

    fn length(&self) -> usize {
        self.whole.len() - GUARD.len()
    }

    pub fn contents(&self) -> &[u32] {
        &self.whole[..self.length()]
    }

    pub fn contents_mut(&mut self) -> &mut [u32] {
        let length = self.length();
        &mut self.whole[..length]
    }

    pub fn keeps_guard(&self) -> bool {
        self.whole.ends_with(&GUARD)
    }
}

pub fn answer_of(result: Result<(), Refusal>) -> u32 {
    result.map_or_else(|refusal| u32::from(refusal.number()), |()| 0)
}

pub fn figures(settings: &Settings) -> [u32; 5] {
    [
        settings.nodes(),
        settings.slots(),
        settings.rounds(),
        settings.heard(),
        settings.split(),
    ]
}

/// The rows of a table for C, three numbers each.
pub fn rows(table: &[Row]) -> Vec<u32> {
    table
        .iter()
        .flat_map(|row| [row.version, row.flags, row.want])
        .collect()
}

/// The table of such numbers, in node order.
pub fn table_of(rows: &[u32]) -> Vec<Row> {
    (1u32..)
        .zip(rows.chunks(3))
        .map(|(node, row)| Row {
            node,
            version: row[0],
            flags: row[1],
            want: row[2],
        })
        .collect()
}

/// An output for reports: empty, long enough, or too short.
pub fn report_output(random: &mut Random) -> Vec<u8> {
    let length = match random.below(10) {
        0 => random.below(REPORTS_LENGTH),
        1..=4 => 0,
        _ => REPORTS_LENGTH + random.below(3),
    };
    inputs::bytes(random, length)
}

/// The numbers of an event for C.
pub fn numbers(event: Event) -> [u32; 3] {
    let place = EventKind::ALL.iter().position(|&kind| kind == event.kind);
    let number = 1 + place.expect("each kind is there") as u32;
    [number, event.node, event.with]
}

/// What a listing shows of a node, by the second implementation.
pub fn shown(site: &Site, node: u32) -> [u8; SHOWN] {
    let mut bytes = [0; SHOWN];
    bytes[0] = match site.state(node) {
        State::Down => 0,
        State::Waiting => 1,
        State::Live => 2,
    };
    if let Some(live) = site.live(node) {
        bytes[1..5].copy_from_slice(&live.version.to_be_bytes());
        bytes[5..9].copy_from_slice(&live.flags.to_be_bytes());
        bytes[9] = live.request as u8;
        bytes[10..].copy_from_slice(&live.schedule.owners());
    }
    bytes
}
