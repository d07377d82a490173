//! An epoch of a run: its packets and who heard them, its closes, takes and refusals.

use crate::core::{Event, Report, Shown};

/// A packet, or what boxes heard of an earlier one.
#[derive(Clone, Debug, Default, PartialEq, Eq)]
pub struct Row {
    pub packet: u32,
    pub sender: u32,
    /// The packet was sent in an earlier band.
    pub late: bool,
    /// The boxes that heard it here and merged it, and those that heard it and did not; sets of boxes.
    pub merged: u32,
    pub noted: u32,
    /// Hearings of which nothing shows whether they merged.
    pub unknown: u32,
    /// Live boxes that have not heard it up to the close. Of a late row it is none.
    pub lost: u32,
}

impl Row {
    pub fn heard(&self) -> u32 {
        self.merged | self.noted | self.unknown
    }
}

/// A run of sends and the hearings behind it: all of its packets left before the first was heard.
#[derive(Clone, Debug, Default)]
pub struct Band {
    pub first: u64,
    pub last: u64,
    pub rows: Vec<Row>,
    /// Whether a hearing has been there: then a send begins another band.
    heard: bool,
}

/// What a box did at a close.
#[derive(Clone, Debug)]
pub struct Closed {
    pub node: u32,
    pub report: Report,
    /// The version that it has behind the close.
    pub version: u32,
    /// Whether a packet of the missing box was heard in this round, but not merged.
    pub unmerged: bool,
    /// Whether it sends its old schedule while a new one is determined.
    pub repeats: bool,
}

impl Closed {
    /// Whether a schedule goes out, a new one or an old.
    pub fn sends(&self) -> bool {
        self.repeats || self.report.rule.sends() == Some(true)
    }
}

#[derive(Clone, Debug)]
pub struct RefusedLine {
    pub line: u64,
    pub text: String,
    pub number: u32,
    pub sentence: String,
    pub event: Option<Event>,
}

#[derive(Clone, Debug)]
pub enum Item {
    Band(Band),
    Refused(RefusedLine),
    Close {
        line: u64,
        boxes: Vec<Closed>,
    },
    Take {
        line: u64,
        node: u32,
        from: u32,
        version: u32,
    },
    Want {
        line: u64,
        node: u32,
        demand: u32,
    },
    Crash {
        line: u64,
        node: u32,
    },
    Restart {
        line: u64,
        node: u32,
        flags: u32,
    },
    End {
        line: u64,
        round: u64,
        epoch_ends: bool,
        after: Vec<Shown>,
    },
}

/// Accepted lines and lost hearings of an epoch, by what they are.
#[derive(Clone, Copy, Debug, Default, PartialEq, Eq)]
pub struct Counts {
    pub sends: u64,
    pub hearings: u64,
    pub unmerged: u64,
    pub lost: u64,
    pub takes: u64,
    pub refused: u64,
    /// Of the refused lines those that are as they should be: a box that waits, a taker that sends itself.
    pub ordinary: u64,
}

/// Sets of boxes, as an epoch begins.
#[derive(Clone, Copy, Debug, Default)]
pub struct Since {
    /// They hold another schedule or version than as the epoch before began.
    pub changed: u32,
    /// They were waiting, and begin now.
    pub began: u32,
    /// They had a version above 0, and the end has taken it from them.
    pub expired: u32,
}

#[derive(Clone, Debug)]
pub struct Epoch {
    pub number: u64,
    /// What each box holds as the epoch begins.
    pub begins: Vec<Shown>,
    /// What became of boxes since the epoch before began.
    pub since: Since,
    pub items: Vec<Item>,
    pub counts: Counts,
    /// What each box holds behind the last line that was read.
    pub after: Vec<Shown>,
    /// The senders of this round's packets, by number.
    pub(crate) senders: Vec<u32>,
    /// Whether the script stops within the epoch.
    pub cut: bool,
    /// Whether it stops behind a close and before the end.
    pub in_distribution: bool,
}

impl Epoch {
    pub(crate) fn new(number: u64, begins: Vec<Shown>, since: Since) -> Epoch {
        Epoch {
            number,
            after: Vec::new(),
            begins,
            since,
            items: Vec::new(),
            counts: Counts::default(),
            senders: Vec::new(),
            cut: false,
            in_distribution: false,
        }
    }

    /// How many refused lines are kept one by one.
    pub fn refusals(&self) -> usize {
        let refused = |item: &&Item| matches!(item, Item::Refused(_));
        self.items.iter().filter(refused).count()
    }

    /// Refused lines that are only counted.
    pub fn untold(&self) -> u64 {
        self.counts.refused - self.refusals() as u64
    }

    /// The bands since the last close, which are those of this round.
    pub(crate) fn round_bands(&mut self) -> impl Iterator<Item = &mut Band> {
        let start = self
            .items
            .iter()
            .rposition(|item| matches!(item, Item::Close { .. }));
        let items = &mut self.items[start.map_or(0, |at| at + 1)..];
        items.iter_mut().filter_map(|item| match item {
            Item::Band(band) => Some(band),
            _ => None,
        })
    }

    /// The band that a line joins, if it stands directly before it; else a new one.
    fn band(&mut self, line: u64, new_if: impl Fn(&Band) -> bool) -> &mut Band {
        let joins = matches!(self.items.last(), Some(Item::Band(band)) if !new_if(band));
        if !joins {
            let band = Band {
                first: line,
                ..Band::default()
            };
            self.items.push(Item::Band(band));
        }
        match self.items.last_mut() {
            Some(Item::Band(band)) => {
                band.last = line;
                band
            }
            _ => unreachable!("a band was just put there"),
        }
    }

    pub(crate) fn sent(&mut self, line: u64, sender: u32, packet: u32) {
        self.counts.sends += 1;
        self.senders.push(sender);
        let band = self.band(line, |band| band.heard);
        band.rows.push(Row {
            packet,
            sender,
            ..Row::default()
        });
    }

    pub(crate) fn heard(
        &mut self,
        line: u64,
        node: u32,
        packet: u32,
        sender: u32,
        merged: Option<bool>,
    ) {
        self.counts.hearings += 1;
        self.counts.unmerged += u64::from(merged == Some(false));
        let band = self.band(line, |_| false);
        band.heard = true;
        let known = band.rows.iter().position(|row| row.packet == packet);
        let at = known.unwrap_or_else(|| {
            band.rows.push(Row {
                packet,
                sender,
                late: true,
                ..Row::default()
            });
            band.rows.len() - 1
        });
        let row = &mut band.rows[at];
        let bit = 1 << (node - 1);
        match merged {
            Some(true) => {
                row.merged |= bit;
                row.noted &= !bit;
            }
            Some(false) if row.merged & bit == 0 => row.noted |= bit,
            Some(false) => {}
            None => row.unknown |= bit,
        }
    }

    /// The round is over for its packets: who is live and has not heard one has lost it.
    pub(crate) fn lose(&mut self, live: u32) {
        let mut heard = [0; 257];
        for band in self.round_bands() {
            for row in &band.rows {
                heard[row.packet as usize] |= row.heard();
            }
        }
        let mut lost = 0;
        for band in self.round_bands() {
            for row in band.rows.iter_mut().filter(|row| !row.late) {
                let sender = 1 << (row.sender - 1);
                row.lost = live & !sender & !heard[row.packet as usize];
                lost += u64::from(row.lost.count_ones());
            }
        }
        self.counts.lost += lost;
    }
}

/// The live boxes, as a set.
pub fn live(shown: &[Shown]) -> u32 {
    let bit = |(at, shown): (usize, &Shown)| u32::from(shown.is_live()) << at;
    shown.iter().enumerate().map(bit).sum()
}

/// Slots that more than one live box owns by its own schedule, with these boxes.
pub fn two_owners(shown: &[Shown]) -> Vec<(u32, Vec<u32>)> {
    let slots = shown.first().map_or(0, |shown| shown.owners.len());
    let owners = |slot: usize| {
        let own = |(at, shown): (usize, &Shown)| {
            let node = at as u32 + 1;
            let is = shown.is_live() && u32::from(shown.owners[slot]) == node;
            is.then_some(node)
        };
        let owners: Vec<u32> = shown.iter().enumerate().filter_map(own).collect();
        (owners.len() > 1).then_some((slot as u32 + 1, owners))
    };
    (0..slots).filter_map(owners).collect()
}
