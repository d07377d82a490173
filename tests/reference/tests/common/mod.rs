//! What the test programs share.

// Each test program uses a part of this.
#![allow(dead_code)]

use reference::allotment::{Requests, NO_REQUESTS};
use reference::node::{Node, GROUND_LENGTH};
use reference::refusal::Refusal;
use reference::schedule::{Schedule, FREE_SCHEDULE};
use reference::script::replay;
use reference::set;
use reference::settings::Settings;
use reference::wire::Packet;

/// Who was heard once is taken in.
pub fn settings(nodes: u32, slots: u32, rounds: u32) -> Settings {
    Settings::new(nodes, slots, rounds, 1, 0).expect("settings in range")
}

/// As [`settings`], of a site that may split.
pub fn split_settings(nodes: u32, slots: u32, rounds: u32) -> Settings {
    Settings::new(nodes, slots, rounds, 1, 1).expect("settings in range")
}

/// A node at version 1 with all flags set.
pub fn node(settings: Settings, id: u32, demand: u32) -> Node {
    let flags = set::full(settings.nodes());
    Node::begin(settings, id, 1, flags, demand).expect("a node in range")
}

/// Steps that give the next node and leave the one before, so that a test can
/// go on from either.
pub trait Next: Sized {
    fn next(self, step: impl FnOnce(&mut Node) -> Result<(), Refusal>) -> Result<Node, Refusal>;

    fn heard(self, packet: &Packet) -> Result<Node, Refusal> {
        self.next(|node| node.hear(packet))
    }

    fn heard_bytes(self, bytes: &[u8]) -> Result<Node, Refusal> {
        self.next(|node| node.hear_bytes(bytes))
    }

    fn closed(self) -> Result<Node, Refusal> {
        self.next(Node::close)
    }

    fn closed_into(self, output: &mut [u8]) -> Result<Node, Refusal> {
        self.next(|node| node.close_into(output, &mut [0; GROUND_LENGTH]))
    }

    fn taken(self, version: u32, schedule: &Schedule) -> Result<Node, Refusal> {
        self.next(|node| node.take(version, schedule))
    }

    fn taken_bytes(self, bytes: &[u8]) -> Result<Node, Refusal> {
        self.next(|node| node.take_bytes(bytes))
    }

    fn ended(self) -> Result<Node, Refusal> {
        self.next(Node::end)
    }

    fn wanting(self, demand: u32) -> Result<Node, Refusal> {
        self.next(|node| node.want(demand))
    }
}

impl Next for Node {
    /// A refused step has changed nothing.
    fn next(self, step: impl FnOnce(&mut Node) -> Result<(), Refusal>) -> Result<Node, Refusal> {
        let mut node = self;
        let outcome = step(&mut node);
        assert!(
            outcome.is_ok() || node == self,
            "a refusal changed the node"
        );
        outcome.map(|()| node)
    }
}

/// The node after a distribution in which it takes `version` from somebody,
/// all slots free, at the start of the next round.
pub fn moved_to(node: Node, version: u32) -> Node {
    let closed = node.closed().expect("in negotiation");
    let taken = closed.taken(version, &FREE_SCHEDULE).expect("silent");
    taken.ended().expect("in distribution")
}

pub fn requests(pairs: &[(u32, u8)]) -> Requests {
    let mut requests = NO_REQUESTS;
    for &(node, request) in pairs {
        requests[node as usize - 1] = request;
    }
    requests
}

/// A packet of one version with all the flags in `flags`.
pub fn packet(sender: u32, version: u32, flags: u32, pairs: &[(u32, u8)]) -> Packet {
    Packet {
        sender,
        lowest: version,
        highest: version,
        flags,
        requests: requests(pairs),
    }
}

pub fn schedule(owners: &[u8]) -> Schedule {
    Schedule::of(owners)
}

pub fn replay_text(script: &str) -> String {
    String::from_utf8(replay(script.as_bytes())).expect("output is text")
}

/// The rows under the first head of a replay's output.
pub fn refusals(output: &[u8]) -> Vec<(usize, u8)> {
    let text = std::str::from_utf8(output).expect("output is text");
    let rows = text.lines().skip(1);
    rows.take_while(|row| !row.starts_with("node"))
        .map(|row| {
            let (line, refusal) = row.split_once(' ').expect("two fields");
            (
                line.parse().expect("a line number"),
                refusal.parse().expect("a refusal number"),
            )
        })
        .collect()
}
