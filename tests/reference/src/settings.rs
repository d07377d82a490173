//! The figures of a site: how many nodes, slots and rounds it has, how often a
//! node is heard in an epoch to be taken into the flags, and whether it may
//! split.

use crate::refusal::{require, Refusal};

pub const MAX_NODES: u32 = 32;
pub const MAX_SLOTS: u32 = 80;
pub const MAX_ROUNDS: u32 = 32;
pub const TOP_VERSION: u32 = 1_000_000;
pub const MAX_REQUEST: u32 = 15;

/// N, K, F, `heard` and `split`, each known to be within its range.
#[derive(Clone, Copy, Debug, PartialEq, Eq)]
pub struct Settings {
    nodes: u32,
    slots: u32,
    rounds: u32,
    heard: u32,
    split: u32,
}

impl Settings {
    pub fn new(
        nodes: u32,
        slots: u32,
        rounds: u32,
        heard: u32,
        split: u32,
    ) -> Result<Settings, Refusal> {
        require((1..=MAX_NODES).contains(&nodes), Refusal::Value)?;
        require((1..=MAX_SLOTS).contains(&slots), Refusal::Value)?;
        require((1..=MAX_ROUNDS).contains(&rounds), Refusal::Value)?;
        require((1..=rounds).contains(&heard), Refusal::Value)?;
        require(split <= 1, Refusal::Value)?;
        Ok(Settings {
            nodes,
            slots,
            rounds,
            heard,
            split,
        })
    }

    /// N, the number of nodes.
    pub fn nodes(&self) -> u32 {
        self.nodes
    }

    /// K, the number of slots.
    pub fn slots(&self) -> u32 {
        self.slots
    }

    /// F, the number of rounds in an epoch.
    pub fn rounds(&self) -> u32 {
        self.rounds
    }

    /// In how many rounds of an epoch a node is heard at least, to be in the
    /// flags of the next.
    pub fn heard(&self) -> u32 {
        self.heard
    }

    /// 1 for a site that may split, 0 for any other (S-14).
    pub fn split(&self) -> u32 {
        self.split
    }

    pub fn may_split(&self) -> bool {
        self.split == 1
    }

    pub fn has_node(&self, node: u32) -> bool {
        (1..=self.nodes).contains(&node)
    }

    pub fn require_node(&self, node: u32) -> Result<(), Refusal> {
        require(self.has_node(node), Refusal::NodeNumber)
    }
}
