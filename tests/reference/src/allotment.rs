//! The allotment of slots: the next schedule, from a schedule and requests.

use crate::schedule::{slots_of, slots_up_to, Schedule, SlotCounts, FREE_SCHEDULE};
use crate::settings::MAX_NODES;

/// The known request of each node, at index node - 1, or [`NO_REQUEST`].
pub type Requests = [u8; MAX_NODES as usize];

/// The byte that stands for "no request known".
pub const NO_REQUEST: u8 = 255;

pub const NO_REQUESTS: Requests = [NO_REQUEST; MAX_NODES as usize];

/// How many slots each node shall own. Single slots are dealt in rising node
/// order, over and over, until all requests are met or no slot is left.
pub fn targets(requests: &Requests, slots: u32) -> SlotCounts {
    let mut targets = [0; MAX_NODES as usize];
    let mut left = slots;
    loop {
        let before = left;
        for (target, &request) in targets.iter_mut().zip(requests) {
            if left > 0 && request != NO_REQUEST && *target < request {
                *target += 1;
                left -= 1;
            }
        }
        if left == before {
            return targets;
        }
    }
}

/// The schedule that follows `old`. A slot changes hands only by way of being
/// free for one version, so that both schedules can be in use side by side.
pub fn next_schedule(old: &Schedule, requests: &Requests, slots: u32) -> Schedule {
    let targets = targets(requests, slots);
    let mut next = keep(old, &targets);
    // Free in the old schedule: a slot released just now is not dealt.
    for slot in slots_of(slots_up_to(slots) & !old.taken()) {
        let Some(index) = neediest(next.counts(), &targets) else {
            break;
        };
        next.give(slot, index);
    }
    next
}

/// What the owners of `old` keep: the lowest of their slots, up to their targets.
fn keep(old: &Schedule, targets: &SlotCounts) -> Schedule {
    let mut kept = FREE_SCHEDULE;
    for (index, &target) in targets.iter().enumerate() {
        let mut mask = old.mask(index);
        for _ in target..old.counts()[index] {
            mask ^= 1 << mask.ilog2();
        }
        kept.set(index, mask);
    }
    kept
}

/// The index of the node below its target that owns the fewest slots.
/// `min_by_key` gives the first of equals, hence the lowest node on a tie.
fn neediest(owned: &SlotCounts, targets: &SlotCounts) -> Option<usize> {
    (0..MAX_NODES as usize)
        .filter(|&index| owned[index] < targets[index])
        .min_by_key(|&index| owned[index])
}
