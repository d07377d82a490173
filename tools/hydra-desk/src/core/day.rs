//! Demands by the hour: a day and its windows, and what a box wants when.

use super::raw;
pub use super::raw::Window;
use super::site::DONE;

#[derive(Clone, Debug)]
pub struct Day {
    pub(super) epochs: u32,
    pub(super) windows: Vec<Window>,
}

impl Day {
    pub fn new(epochs: u32, windows: Vec<Window>) -> Day {
        Day { epochs, windows }
    }

    /// No windows; then a day has one epoch.
    pub(super) fn plain() -> Day {
        Day::new(1, Vec::new())
    }

    /// Whether the day and its windows keep the rules at a site of so many boxes: 0, or the refusal.
    pub fn answer(&self, nodes: u32) -> u32 {
        match self.demand(nodes, 1, 0) {
            Ok(_) => DONE,
            Err(refusal) => refusal,
        }
    }

    /// What a box wants as an epoch of the day begins; none if it has no windows.
    pub fn demand(&self, nodes: u32, node: u32, epoch: u32) -> Result<Option<u32>, u32> {
        // No demand is so high, so one that stays was not written.
        let mut demand = u32::MAX;
        // The pointers are to a list of the length that goes with it, and to one number.
        let answer = unsafe {
            raw::hydra_demand(
                nodes,
                node,
                self.epochs,
                self.windows.as_ptr(),
                self.windows.len(),
                epoch,
                &mut demand,
            )
        };
        match answer {
            DONE => Ok((demand != u32::MAX).then_some(demand)),
            refusal => Err(refusal),
        }
    }
}
