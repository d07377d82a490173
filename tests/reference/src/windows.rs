//! Demands by the hour (specification, 3.7): a day of epochs, and windows that
//! tell what a node wants when.

use crate::refusal::{require, Refusal};
use crate::settings::{Settings, MAX_REQUEST};

pub const MAX_WINDOWS: usize = 64;
pub const MAX_DAY: u32 = 1440;

/// What `node` wants from epoch `first` on and before epoch `end`. The fields
/// lie as C has them.
#[derive(Clone, Copy, Debug, PartialEq, Eq)]
#[repr(C)]
pub struct Window {
    pub node: u32,
    pub first: u32,
    pub end: u32,
    pub demand: u32,
}

/// Whether a day and a list of windows keep the rules: each epoch of a node
/// has at most one of its windows.
pub fn require_windows(settings: &Settings, day: u32, windows: &[Window]) -> Result<(), Refusal> {
    require((1..=MAX_DAY).contains(&day), Refusal::Windows)?;
    require(windows.len() <= MAX_WINDOWS, Refusal::Windows)?;
    let mut taken = vec![false; settings.nodes() as usize * day as usize];
    for window in windows {
        let fits = settings.has_node(window.node)
            && window.first < window.end
            && window.end <= day
            && window.demand <= MAX_REQUEST;
        require(fits, Refusal::Windows)?;
        for epoch in window.first..window.end {
            let place = (window.node - 1) * day + epoch;
            let before = std::mem::replace(&mut taken[place as usize], true);
            require(!before, Refusal::Windows)?;
        }
    }
    Ok(())
}

/// The demand of a node as an epoch begins, or `None` if it has no windows and
/// keeps the one it had.
pub fn due(windows: &[Window], node: u32, epoch: u32) -> Option<u32> {
    let mut own = windows
        .iter()
        .filter(|window| window.node == node)
        .peekable();
    own.peek()?;
    let holding = own.find(|window| (window.first..window.end).contains(&epoch));
    Some(holding.map_or(0, |window| window.demand))
}
