//! Which values settings and rows may have, asked of the proved load, and the words for one that they may not.

use crate::core::{Row, Settings, Site};

pub fn settings(values: [u32; 5]) -> Settings {
    let [nodes, slots, rounds, heard, split] = values;
    Settings {
        nodes,
        slots,
        rounds,
        heard,
        split,
    }
}

/// A row that is in range at every site.
fn plain_row(node: u32) -> Row {
    Row {
        version: 0,
        flags: 1 << (node - 1),
        want: 0,
    }
}

pub fn accepts_settings(values: [u32; 5]) -> bool {
    // No more rows than a site can have: a number above is refused anyway.
    let rows: Vec<Row> = (1..=values[0].min(32)).map(plain_row).collect();
    Site::load(settings(values), &rows, None).is_ok()
}

pub fn accepts_row(settings: Settings, node: u32, row: Row) -> bool {
    let mut rows: Vec<Row> = (1..=settings.nodes).map(plain_row).collect();
    rows[node as usize - 1] = row;
    Site::load(settings, &rows, None).is_ok()
}

/// The last value that, replaced alone, makes the line acceptable.
fn culprit<const COUNT: usize>(
    values: [u32; COUNT],
    safe: [u32; COUNT],
    accepts: impl Fn([u32; COUNT]) -> bool,
) -> Option<usize> {
    (0..COUNT).rev().find(|&at| {
        let mut tried = values;
        tried[at] = safe[at];
        accepts(tried)
    })
}

pub fn settings_fault(values: [u32; 5]) -> String {
    let safe = [1, 1, values[3].clamp(1, 32), 1, 0];
    match culprit(values, safe, accepts_settings) {
        Some(0) => format!("a site has 1 to 32 boxes, not {}", values[0]),
        Some(1) => format!("a site has 1 to 80 slots, not {}", values[1]),
        Some(2) => format!("an epoch has 1 to 32 rounds, not {}", values[2]),
        Some(3) => format!(
            "heard is 1 to the rounds of an epoch, {}, and not {}",
            values[2], values[3]
        ),
        Some(4) => format!("split is 0 or 1, not {}", values[4]),
        _ => "several values are out of range: 1 to 32 boxes, 1 to 80 slots, 1 to 32 rounds, heard 1 to the rounds, split 0 or 1".to_string(),
    }
}

pub fn row_fault(settings: Settings, node: u32, row: Row) -> String {
    let plain = plain_row(node);
    let accepts = |[version, flags, want]: [u32; 3]| {
        let row = Row {
            version,
            flags,
            want,
        };
        accepts_row(settings, node, row)
    };
    let values = [row.version, row.flags, row.want];
    match culprit(values, [plain.version, plain.flags, plain.want], accepts) {
        Some(0) => format!("a site begins at version 0 or 1, not {}", row.version),
        Some(1) => format!(
            "the flags {} must have box {node} itself and no box above {}",
            row.flags, settings.nodes
        ),
        Some(2) => format!("a box wants 0 to 15 slots, not {}", row.want),
        _ => "several values are out of range: version 0 or 1, flags with the box itself, want 0 to 15".to_string(),
    }
}
