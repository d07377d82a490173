//! Random nodes, packets, schedules and numbers, in range and out of it.

use reference::allotment::{NO_REQUEST, NO_REQUESTS};
use reference::node::{Node, Phase, Round};
use reference::random::Random;
use reference::schedule::{Schedule, FREE, FREE_SCHEDULE};
use reference::set;
use reference::settings::{Settings, MAX_NODES, MAX_REQUEST, MAX_ROUNDS, MAX_SLOTS, TOP_VERSION};
use reference::wire::{write_packet, write_schedule, Packet};

use crate::area;
use crate::call::{Beginning, Call, Restarting};

pub fn bytes(random: &mut Random, length: usize) -> Vec<u8> {
    let mut bytes = Vec::with_capacity(length + 8);
    while bytes.len() < length {
        bytes.extend_from_slice(&random.next_u64().to_le_bytes());
    }
    bytes.truncate(length);
    bytes
}

/// Small sites are met more often, since their nodes agree more often.
pub fn settings(random: &mut Random) -> Settings {
    let nodes = match random.below(8) {
        0..=4 => random.between(1, 5),
        5 => random.between(6, 31),
        6 => 31,
        _ => MAX_NODES,
    };
    let slots = match random.below(8) {
        0..=4 => random.between(1, 12),
        5..=6 => random.between(13, 79),
        _ => MAX_SLOTS,
    };
    let rounds = match random.below(8) {
        0..=5 => random.between(1, 4),
        6 => random.between(5, 31),
        _ => MAX_ROUNDS,
    };
    let heard = match random.below(8) {
        0..=4 => 1,
        5..=6 => random.between(1, rounds),
        _ => rounds,
    };
    let split = u32::from(random.chance(30));
    Settings::new(nodes, slots, rounds, heard, split).expect("settings in range")
}

/// All nodes, none, or any of them.
pub fn nodes_of(random: &mut Random, settings: &Settings) -> u32 {
    let any = random.next_u32();
    set::full(settings.nodes()) & random.pick(&[u32::MAX, u32::MAX, any, any, 0])
}

pub fn version(random: &mut Random) -> u32 {
    let any = random.between(0, TOP_VERSION);
    random.pick(&[0, 0, 1, 1, 2, 3, any, TOP_VERSION - 1, TOP_VERSION])
}

/// A schedule in range for a version above 0, some or all of it free.
pub fn schedule(random: &mut Random, settings: &Settings) -> Schedule {
    let free = random.pick(&[0, 30, 100]);
    let mut owner = || match random.chance(free) {
        true => FREE,
        false => random.between(0, settings.nodes()) as u8,
    };
    let owners: Vec<u8> = (0..settings.slots()).map(|_| owner()).collect();
    Schedule::of(&owners)
}

/// A version and its schedule, as a sender would have them.
pub fn versioned(random: &mut Random, settings: &Settings) -> (u32, Schedule) {
    match version(random) {
        0 => (0, FREE_SCHEDULE),
        version => (version, schedule(random, settings)),
    }
}

pub fn request(random: &mut Random) -> u32 {
    random.between(0, MAX_REQUEST)
}

/// Any node within its ranges, whether or not calls can lead there.
pub fn node(random: &mut Random) -> Node {
    let settings = settings(random);
    node_of(random, settings)
}

/// As [`node`], of a site with these settings.
pub fn node_of(random: &mut Random, settings: Settings) -> Node {
    let id = random.between(1, settings.nodes());
    let place = random.between(0, settings.rounds() - 1);
    let flags = nodes_of(random, &settings) | set::single(id);
    let mut node = Node::restart(settings, place, id, flags).expect("numbers in range");
    node.demand = request(random);
    let kind = random.below(10);
    if kind == 0 {
        return node;
    }
    let versioned = with_version(random, node);
    if kind <= 6 {
        negotiating(random, versioned)
    } else {
        distributing(random, versioned)
    }
}

fn with_version(random: &mut Random, mut node: Node) -> Node {
    (node.version, node.schedule) = versioned(random, &node.settings);
    node.request = request(random);
    node.interactions = nodes_of(random, &node.settings);
    let may_determine = node.version < TOP_VERSION;
    if may_determine && random.chance(40) {
        node.determined = Some(schedule(random, &node.settings));
    }
    node
}

fn negotiating(random: &mut Random, mut node: Node) -> Node {
    node.phase = Phase::Negotiation;
    node.counters = counters(random, &node.settings, node.place);
    node.round = round(random, &node);
    node
}

fn distributing(random: &mut Random, mut node: Node) -> Node {
    let sends = random.chance(30);
    node.phase = Phase::Distribution { sends };
    node.counters = counters(random, &node.settings, node.place + 1);
    node
}

fn counters(random: &mut Random, settings: &Settings, closes: u32) -> [u8; 32] {
    let mut counters = [0; MAX_NODES as usize];
    for counter in &mut counters[..settings.nodes() as usize] {
        let any = random.between(0, closes);
        *counter = random.pick(&[0, any, closes]) as u8;
    }
    counters
}

/// A round of the node; in many of them it is complete and settled.
fn round(random: &mut Random, node: &Node) -> Round {
    let flags = node.flags | nodes_of(random, &node.settings);
    let missing = random.pick(&[0, 0, 0, 5, 30, 90]);
    let mut requests = NO_REQUESTS;
    for (other, entry) in (1u32..).zip(requests.iter_mut()) {
        if other == node.id {
            *entry = node.request as u8;
        } else if set::contains(flags, other) && !random.chance(missing) {
            *entry = request(random) as u8;
        }
    }
    let (lower, higher) = (version(random), version(random));
    let level = random.chance(60);
    Round {
        flags,
        requests,
        lowest: if level {
            node.version
        } else {
            lower.min(node.version)
        },
        highest: if level {
            node.version
        } else {
            higher.max(node.version)
        },
        heard: nodes_of(random, &node.settings),
    }
}

/// A packet in range, from another node unless there is none. In most of them
/// sender and hearer know of each other and no request is another one.
pub fn packet(random: &mut Random, hearer: &Node) -> Packet {
    let settings = &hearer.settings;
    let sender = match random.between(1, settings.nodes()) {
        own if own == hearer.id => own % settings.nodes() + 1,
        other => other,
    };
    let mut flags = nodes_of(random, settings) | set::single(sender);
    if random.chance(80) {
        flags |= set::single(hearer.id);
    }
    let (changed, missing) = random.pick(&[(0, 0), (0, 50), (3, 50)]);
    let mut requests = NO_REQUESTS;
    for (node, entry) in (1u32..).zip(requests.iter_mut()) {
        if node == sender || set::contains(flags, node) && !random.chance(missing) {
            let known = hearer.round.requests[node as usize - 1];
            let other = request(random) as u8;
            let keeps = known != NO_REQUEST && !random.chance(changed);
            *entry = if keeps { known } else { other };
        }
    }
    let (one, two) = (version(random), version(random));
    let level = random.chance(60);
    Packet {
        sender,
        lowest: if level { hearer.version } else { one.min(two) },
        highest: if level { hearer.version } else { one.max(two) },
        flags,
        requests,
    }
}

/// The bytes of a packet for a call to hear, of a schedule for one to take; a
/// schedule is sometimes the node's own. Other calls get none.
pub fn input(random: &mut Random, call: Call, node: &Node) -> Vec<u8> {
    match call {
        Call::Hear => write_packet(&packet(random, node)).to_vec(),
        Call::Take => {
            let (version, schedule) = match random.below(4) {
                0 => (node.version, node.schedule),
                _ => versioned(random, &node.settings),
            };
            write_schedule(version, &schedule).to_vec()
        }
        _ => Vec::new(),
    }
}

/// Numbers at the limits of all ranges, and wild ones.
pub fn odd_number(random: &mut Random) -> u32 {
    let any = random.next_u32();
    let small = random.between(0, 100);
    random.pick(&[
        0,
        1,
        2,
        MAX_REQUEST,
        MAX_REQUEST + 1,
        31,
        32,
        33,
        80,
        81,
        255,
        256,
        257,
        263,
        TOP_VERSION,
        any,
        small,
        u32::MAX,
    ])
}

/// Replaces one of the numbers in one case of three.
fn disturb<const COUNT: usize>(random: &mut Random, numbers: &mut [u32; COUNT]) {
    if random.chance(33) {
        numbers[random.below(COUNT)] = odd_number(random);
    }
}

pub fn beginning(random: &mut Random) -> Beginning {
    let settings = settings(random);
    let id = random.between(1, settings.nodes());
    let mut numbers = [
        id,
        settings.nodes(),
        settings.slots(),
        settings.rounds(),
        settings.heard(),
        settings.split(),
        random.between(0, 1),
        nodes_of(random, &settings) | set::single(id),
        request(random),
    ];
    disturb(random, &mut numbers);
    disturb(random, &mut numbers);
    let [node, nodes, slots, rounds, heard, split, version, flags, demand] = numbers;
    Beginning {
        node,
        nodes,
        slots,
        rounds,
        heard,
        split,
        version,
        flags,
        demand,
    }
}

pub fn restarting(random: &mut Random) -> Restarting {
    let settings = settings(random);
    let id = random.between(1, settings.nodes());
    let mut numbers = [
        id,
        settings.nodes(),
        settings.slots(),
        settings.rounds(),
        settings.heard(),
        settings.split(),
        nodes_of(random, &settings) | set::single(id),
        random.between(0, settings.rounds() - 1),
    ];
    disturb(random, &mut numbers);
    disturb(random, &mut numbers);
    let [node, nodes, slots, rounds, heard, split, flags, place] = numbers;
    Restarting {
        node,
        nodes,
        slots,
        rounds,
        heard,
        split,
        flags,
        place,
    }
}

/// The bytes with one to three edits.
pub fn damaged(random: &mut Random, bytes: &[u8]) -> Vec<u8> {
    let mut bytes = bytes.to_vec();
    for _ in 0..random.between(1, 3) {
        damage(random, &mut bytes);
    }
    bytes
}

fn damage(random: &mut Random, bytes: &mut Vec<u8>) {
    if bytes.is_empty() {
        bytes.push(0);
    }
    let at = random.below(bytes.len());
    match random.below(16) {
        0 => bytes.truncate(bytes.len() - 1),
        1 => bytes.push(random.next_u32() as u8),
        2..=3 => bytes[at] = random.next_u32() as u8,
        4..=5 => bytes[at] = bytes[at].wrapping_add(1),
        6..=7 => bytes[at] = bytes[at].wrapping_sub(1),
        8..=9 => bytes[at] ^= 1 << random.below(8),
        10..=11 => bytes[at] = odd_number(random) as u8,
        12..=14 => damage_word(random, bytes),
        _ => {
            let other = random.below(bytes.len());
            bytes.swap(at, other);
        }
    }
}

/// Writes an odd number where a word of a packet, schedule or area may stand.
fn damage_word(random: &mut Random, bytes: &mut [u8]) {
    let number = odd_number(random).to_be_bytes();
    let from = random.below(14) * 4 + random.pick(&[0, 0, 1]);
    if let Some(word) = bytes.get_mut(from..from + 4) {
        word.copy_from_slice(&number);
    }
}

/// The bytes as they are, damaged, or replaced by random ones.
pub fn spoilt(random: &mut Random, bytes: Vec<u8>) -> Vec<u8> {
    match random.below(8) {
        0..=2 => bytes,
        3..=6 => damaged(random, &bytes),
        _ => self::bytes(random, bytes.len()),
    }
}

/// An output that is long enough, or now and then is not.
pub fn output(random: &mut Random) -> Vec<u8> {
    let length = random.between(0, 120) as usize;
    let length = random.pick(&[length, 23, 24, 44, 45, 83, 84, 95, 96, 110]);
    bytes(random, length)
}

/// Any call; most of the plain numbers are in range.
pub fn call(random: &mut Random) -> Call {
    match random.below(15) {
        0 => Call::Begin(beginning(random)),
        1 => Call::Restart(restarting(random)),
        2 => Call::Send,
        3..=5 => Call::Hear,
        6..=7 => Call::Close,
        8..=10 => Call::Take,
        11 => Call::End,
        12 => Call::Want(odd_number(random)),
        13 => Call::Read,
        _ => Call::Slots,
    }
}

/// An area in which a node has a slot more, or a slot less, in one of its two
/// schedules. Mostly its count goes along, so that only another node's mask, K
/// or N speaks against it.
pub fn with_slot_moved(random: &mut Random, mut area: Vec<u8>) -> Vec<u8> {
    let (nodes, slots) = random.pick(&[(area[7], area[11]), (32, 80)]);
    let (node, slot) = (random.below(nodes.into()), random.below(slots.into()));
    let masks = random.pick(&[area::SCHEDULE, area::DETERMINED]);
    let byte = match slot {
        0..=63 => masks + 8 * node + 7 - slot / 8,
        _ => masks + area::SECOND + 2 * node + 1 - (slot - 64) / 8,
    };
    let bit = 1 << (slot % 8);
    area[byte] ^= bit;
    if random.chance(90) {
        let more = area[byte] & bit != 0;
        let count = &mut area[masks + area::COUNTS + node];
        *count = if more { *count + 1 } else { *count - 1 };
    }
    area
}
