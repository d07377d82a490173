//! A schedule: of each node the mask of its slots, and how many they are.

use crate::settings::{MAX_NODES, MAX_SLOTS};

const NODES: usize = MAX_NODES as usize;
const SLOTS: usize = MAX_SLOTS as usize;

/// The owner of a slot that nobody owns.
pub const FREE: u8 = 0;

/// The owner of each slot, as on the air and in a listing.
pub type Owners = [u8; SLOTS];

/// A number of slots for each node, at index node - 1.
pub type SlotCounts = [u8; NODES];

/// Slots, a bit for each: that of slot s is bit s - 1.
pub type Mask = u128;

/// The masks of the nodes, at index node - 1. No slot is in two of them, and
/// those beyond the site's K are in none.
#[derive(Clone, Copy, Debug, PartialEq, Eq)]
pub struct Schedule {
    /// Slots 1 to 64 of each node, and 65 to 80: 10 bytes a node, where a
    /// whole mask takes 16.
    first: [u64; NODES],
    second: [u16; NODES],
    counts: SlotCounts,
}

pub const FREE_SCHEDULE: Schedule = Schedule {
    first: [0; NODES],
    second: [0; NODES],
    counts: [0; NODES],
};

/// The slots up to a number of them.
pub fn slots_up_to(slots: u32) -> Mask {
    (1 << slots) - 1
}

/// The slots of a mask, going up, each counted from 0.
pub fn slots_of(mask: Mask) -> impl Iterator<Item = usize> {
    let mut rest = mask;
    std::iter::from_fn(move || {
        let slot = (rest != 0).then(|| rest.trailing_zeros() as usize);
        rest &= rest.wrapping_sub(1);
        slot
    })
}

impl Schedule {
    /// The schedule of the first slots' owners; each is a node's number or [`FREE`].
    pub fn of(owners: &[u8]) -> Schedule {
        let mut schedule = FREE_SCHEDULE;
        for (slot, &owner) in owners.iter().enumerate().filter(|(_, &owner)| owner != FREE) {
            schedule.give(slot, usize::from(owner) - 1);
        }
        schedule
    }

    pub fn owners(&self) -> Owners {
        let mut owners = [FREE; SLOTS];
        for index in self.holders() {
            for slot in slots_of(self.mask(index)) {
                owners[slot] = index as u8 + 1;
            }
        }
        owners
    }

    /// The indexes of the nodes that have a slot.
    fn holders(&self) -> impl Iterator<Item = usize> + '_ {
        (0..NODES).filter(|&index| self.counts[index] != 0)
    }

    pub fn mask(&self, index: usize) -> Mask {
        Mask::from(self.first[index]) | Mask::from(self.second[index]) << 64
    }

    pub fn counts(&self) -> &SlotCounts {
        &self.counts
    }

    pub fn has(&self, slot: usize, index: usize) -> bool {
        self.mask(index) >> slot & 1 == 1
    }

    /// The slots that have an owner.
    pub fn taken(&self) -> Mask {
        let first = self.first.iter().fold(0, |all, one| all | one);
        let second = self.second.iter().fold(0, |all, one| all | one);
        Mask::from(first) | Mask::from(second) << 64
    }

    /// The mask of a node that had none.
    pub fn set(&mut self, index: usize, mask: Mask) {
        self.first[index] = mask as u64;
        self.second[index] = (mask >> 64) as u16;
        self.counts[index] = mask.count_ones() as u8;
    }

    /// A slot that had no owner.
    pub fn give(&mut self, slot: usize, index: usize) {
        if slot < 64 {
            self.first[index] |= 1 << slot;
        } else {
            self.second[index] |= 1 << (slot - 64);
        }
        self.counts[index] += 1;
    }

    /// Whether the owners are nodes of a site, and the slots with one are its slots.
    pub fn fits(&self, nodes: u32, slots: u32) -> bool {
        self.counts[nodes as usize..].iter().all(|&count| count == 0)
            && self.taken() & !slots_up_to(slots) == 0
    }

    pub fn is_free(&self) -> bool {
        self.counts.iter().all(|&count| count == 0)
    }
}
