//! The node area of docs/node-area.md for a node of the second
//! implementation: 828 bytes, words with the highest byte first.
//!
//! | from | what |
//! |------|------|
//! | 0    | words: node, N, K, F, heard, split, version, M, M', lowest, highest, C_r, I_e, f |
//! | 56   | bytes: demand, request, phase, updated |
//! | 60   | R', 32 requests, 255 for none |
//! | 92   | C_e, 32 counters |
//! | 124  | schedule, the masks of 32 nodes |
//! | 476  | determined schedule, masks |
//!
//! Masks are 32 words of 8 bytes, 32 of 2, and 32 counts of a byte.

use reference::node::{Node, Phase, Round};
use reference::schedule::{Mask, Schedule, FREE_SCHEDULE};
use reference::set;
use reference::settings::{Settings, MAX_REQUEST, TOP_VERSION};
use reference::wire::{are_in_range, check_schedule, requesters};

pub const LENGTH: usize = 828;

const SMALL: usize = 56;
const DEMAND: usize = SMALL;
const REQUEST: usize = SMALL + 1;
/// Where the version, a word, and the phase, a byte, stand.
pub const VERSION: usize = 24;
pub const PHASE: usize = SMALL + 2;
const UPDATED: usize = SMALL + 3;
const REQUESTS: usize = 60;
const COUNTERS: usize = 92;
pub const SCHEDULE: usize = 124;
pub const DETERMINED: usize = 476;

/// The parts of masks: first words, second words, counts.
const MASKS: usize = 352;
pub const SECOND: usize = 256;
pub const COUNTS: usize = 320;

/// The bytes of a node.
pub fn encode(node: &Node) -> [u8; LENGTH] {
    let mut bytes = [0; LENGTH];
    for (part, word) in bytes.chunks_exact_mut(4).zip(words(node)) {
        part.copy_from_slice(&word.to_be_bytes());
    }
    bytes[SMALL..REQUESTS].copy_from_slice(&small(node));
    bytes[REQUESTS..COUNTERS].copy_from_slice(&node.round.requests);
    bytes[COUNTERS..SCHEDULE].copy_from_slice(&node.counters);
    bytes[SCHEDULE..DETERMINED].copy_from_slice(&masks(&node.schedule));
    bytes[DETERMINED..].copy_from_slice(&masks(&node.determined.unwrap_or(FREE_SCHEDULE)));
    bytes
}

/// The bytes of a schedule: of each node the word of its first 64 slots, then
/// those of the other 16, then the counts.
fn masks(schedule: &Schedule) -> [u8; MASKS] {
    let mut bytes = [0; MASKS];
    for node in 0..32 {
        let mask = schedule.mask(node);
        let (first, second) = (mask as u64, (mask >> 64) as u16);
        bytes[8 * node..8 * node + 8].copy_from_slice(&first.to_be_bytes());
        bytes[SECOND + 2 * node..SECOND + 2 * node + 2].copy_from_slice(&second.to_be_bytes());
    }
    bytes[COUNTS..].copy_from_slice(schedule.counts());
    bytes
}

/// The schedule of masks, unless two nodes share a slot or a count is wrong.
fn read_masks(bytes: &[u8; LENGTH], from: usize) -> Option<Schedule> {
    let mut schedule = FREE_SCHEDULE;
    let mut taken = 0;
    for node in 0..32 {
        let first = u64::from_be_bytes(read_list(bytes, from + 8 * node));
        let second = u16::from_be_bytes(read_list(bytes, from + SECOND + 2 * node));
        let mask = Mask::from(first) | Mask::from(second) << 64;
        let count = bytes[from + COUNTS + node];
        if mask & taken != 0 || u32::from(count) != mask.count_ones() {
            return None;
        }
        taken |= mask;
        schedule.set(node, mask);
    }
    Some(schedule)
}

fn words(node: &Node) -> [u32; 14] {
    [
        node.id,
        node.settings.nodes(),
        node.settings.slots(),
        node.settings.rounds(),
        node.settings.heard(),
        node.settings.split(),
        node.version,
        node.flags,
        node.round.flags,
        node.round.lowest,
        node.round.highest,
        node.round.heard,
        node.interactions,
        node.place,
    ]
}

/// Demand, request, phase and mark, in the area and in the report alike.
pub fn small(node: &Node) -> [u8; 4] {
    let phase = match node.phase {
        Phase::Negotiation => 0,
        Phase::Distribution { sends: false } => 1,
        Phase::Distribution { sends: true } => 2,
        Phase::Waiting => 3,
    };
    [
        node.demand as u8,
        node.request as u8,
        phase,
        u8::from(node.determined.is_some()),
    ]
}

/// The node within its ranges that has these bytes, if there is one.
pub fn decode(bytes: &[u8]) -> Option<Node> {
    let bytes: &[u8; LENGTH] = bytes.try_into().ok()?;
    let node = read(bytes)?;
    is_in_range(&node).then_some(node)
}

/// The node that the bytes name, with settings in range; all else is open.
fn read(bytes: &[u8; LENGTH]) -> Option<Node> {
    let word = |index: usize| {
        let part = [0, 1, 2, 3].map(|place| bytes[4 * index + place]);
        u32::from_be_bytes(part)
    };
    Some(Node {
        settings: Settings::new(word(1), word(2), word(3), word(4), word(5)).ok()?,
        id: word(0),
        phase: read_phase(bytes[PHASE])?,
        place: word(13),
        version: word(6),
        schedule: read_masks(bytes, SCHEDULE)?,
        demand: u32::from(bytes[DEMAND]),
        request: u32::from(bytes[REQUEST]),
        flags: word(7),
        round: Round {
            flags: word(8),
            requests: read_list(bytes, REQUESTS),
            lowest: word(9),
            highest: word(10),
            heard: word(11),
        },
        counters: read_list(bytes, COUNTERS),
        interactions: word(12),
        determined: read_determined(bytes)?,
    })
}

fn read_phase(byte: u8) -> Option<Phase> {
    match byte {
        0 => Some(Phase::Negotiation),
        1 => Some(Phase::Distribution { sends: false }),
        2 => Some(Phase::Distribution { sends: true }),
        3 => Some(Phase::Waiting),
        _ => None,
    }
}

fn read_list<const COUNT: usize>(bytes: &[u8; LENGTH], from: usize) -> [u8; COUNT] {
    let mut list = [0; COUNT];
    list.copy_from_slice(&bytes[from..from + COUNT]);
    list
}

/// Without the mark the schedule is all free; each node has one form only.
fn read_determined(bytes: &[u8; LENGTH]) -> Option<Option<Schedule>> {
    let schedule = read_masks(bytes, DETERMINED)?;
    match bytes[UPDATED] {
        0 if schedule == FREE_SCHEDULE => Some(None),
        1 => Some(Some(schedule)),
        _ => None,
    }
}

/// The ranges of a node (specification, 1 Figures and 2 What a node holds).
fn is_in_range(node: &Node) -> bool {
    node.settings.has_node(node.id)
        && node.demand <= MAX_REQUEST
        && node.request <= MAX_REQUEST
        && is_set_of(&node.settings, node.flags)
        && set::contains(node.flags, node.id)
        && check_schedule(node.version, &node.schedule, &node.settings).is_ok()
        && is_phase_in_range(node)
        && is_epoch_in_range(node)
}

fn is_set_of(settings: &Settings, nodes: u32) -> bool {
    nodes & !set::full(settings.nodes()) == 0
}

fn is_phase_in_range(node: &Node) -> bool {
    match node.phase {
        Phase::Negotiation => is_round_in_range(node),
        Phase::Distribution { .. } => node.round == Round::LAPSED,
        Phase::Waiting => is_idle(node),
    }
}

fn is_round_in_range(node: &Node) -> bool {
    let round = &node.round;
    let known = requesters(&round.requests);
    round.lowest <= node.version
        && node.version <= round.highest
        && round.highest <= TOP_VERSION
        && is_set_of(&node.settings, round.flags)
        && node.flags & !round.flags == 0
        && known & !round.flags == 0
        && are_in_range(&round.requests)
        && round.requests[node.id as usize - 1] == node.request as u8
        && is_set_of(&node.settings, round.heard)
}

/// A waiting node holds its demand, its flags and the place.
fn is_idle(node: &Node) -> bool {
    node.version == 0
        && node.request == 0
        && node.round == Round::LAPSED
        && node.interactions == 0
        && node.determined.is_none()
}

fn is_epoch_in_range(node: &Node) -> bool {
    let (used, beyond) = node.counters.split_at(node.settings.nodes() as usize);
    node.place < node.settings.rounds()
        && used.iter().all(|&count| u32::from(count) <= closes(node))
        && beyond.iter().all(|&count| count == 0)
        && is_set_of(&node.settings, node.interactions)
        && node
            .determined
            .is_none_or(|schedule| is_determined_in_range(node, &schedule))
}

/// The closes of this epoch that the node took part in.
fn closes(node: &Node) -> u32 {
    match node.phase {
        Phase::Waiting => 0,
        Phase::Negotiation => node.place,
        Phase::Distribution { .. } => node.place + 1,
    }
}

/// A close determines at every version below the top, for the next one.
fn is_determined_in_range(node: &Node, schedule: &Schedule) -> bool {
    node.version < TOP_VERSION && check_schedule(node.version + 1, schedule, &node.settings).is_ok()
}
