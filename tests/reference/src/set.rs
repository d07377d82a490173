//! Sets of nodes as 32-bit words: bit j-1 stands for node j.

/// The set that holds only `node`, a number from 1 to 32.
pub fn single(node: u32) -> u32 {
    1 << (node - 1)
}

/// The set of the nodes 1 to `nodes`, with `nodes` from 1 to 32.
pub fn full(nodes: u32) -> u32 {
    u32::MAX >> (32 - nodes)
}

/// The nodes at whose index `test` holds.
pub fn of(list: &[u8; 32], test: impl Fn(u8) -> bool) -> u32 {
    let bits = list.iter().enumerate();
    bits.fold(0, |set, (index, &entry)| {
        set | u32::from(test(entry)) << index
    })
}

pub fn contains(set: u32, node: u32) -> bool {
    set & single(node) != 0
}

/// Whether `set` counts more than half of `nodes`. The half is exact, so the
/// doubled count is compared and nothing is rounded.
pub fn is_majority(set: u32, nodes: u32) -> bool {
    2 * set.count_ones() > nodes
}
