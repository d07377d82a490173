//! Slots held, by box and month (specification, 3.8).

use crate::refusal::{require, Refusal};
use crate::site::Site;

pub const MAX_EPOCHS: u32 = 100_000;
const NODES: usize = 32;
const SLOTS: usize = 80;

/// Epochs counted, the site's slots, and of the node at index node - 1 the
/// slots that it held and in how many epochs it held any. The fields
/// lie as C has them.
#[derive(Clone, Copy, Debug, PartialEq, Eq)]
#[repr(C)]
pub struct Tally {
    pub epochs: u32,
    pub total: u32,
    pub slots: [u32; NODES],
    pub held: [u32; NODES],
}

impl Tally {
    /// No epoch is counted.
    pub const EMPTY: Tally = Tally {
        epochs: 0,
        total: 0,
        slots: [0; NODES],
        held: [0; NODES],
    };

    /// As a load sets it: the epoch that begins is the first one.
    pub fn loaded(site: &Site) -> Tally {
        let mut tally = Tally::EMPTY;
        tally.count(site);
        tally
    }

    pub fn is_full(&self) -> bool {
        self.epochs == MAX_EPOCHS
    }

    /// Refuses what no count can have made.
    pub fn require_valid(&self) -> Result<(), Refusal> {
        require(self.epochs <= MAX_EPOCHS, Refusal::Tally)?;
        for (&slots, &held) in self.slots.iter().zip(&self.held) {
            require(held <= self.epochs, Refusal::Tally)?;
            require(
                u64::from(slots) <= SLOTS as u64 * u64::from(held),
                Refusal::Tally,
            )?;
        }
        let sum: u64 = self.slots.iter().map(|&slots| u64::from(slots)).sum();
        require(sum == u64::from(self.total), Refusal::Tally)
    }

    /// Counts the epoch that begins at a site, unless the tally is full.
    pub fn count(&mut self, site: &Site) {
        if self.is_full() {
            return;
        }
        self.epochs += 1;
        for node in site.live_nodes() {
            let index = node.id as usize - 1;
            let slots = u32::from(node.schedule.counts()[index]);
            self.slots[index] += slots;
            self.held[index] += u32::from(slots > 0);
        }
        let slots = 0..SLOTS;
        self.total += slots.map(|slot| claimants(site, slot)).sum::<u32>();
    }
}

/// How many live nodes claim a slot by their own schedule.
pub fn claimants(site: &Site, slot: usize) -> u32 {
    let claims = site
        .live_nodes()
        .filter(|node| node.schedule.has(slot, node.id as usize - 1));
    claims.count() as u32
}
