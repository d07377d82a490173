//! Several sites in one packet area (specification, 3.9).

use crate::refusal::Refusal;
use crate::settings::Settings;
use crate::site::{Event, EventKind, PacketArea, Placed, Row, Site, AREA_LENGTH};
use crate::tally::Tally;
use crate::windows::Window;

/// How many numbers a group has, from 1 on.
pub const SITES: usize = 8;
/// The places of the area.
pub const PLACES: usize = 256;
/// The packets that each site may always have in a phase.
pub const OWN_SHARE: usize = 16;
/// Those that all sites together may have beyond them.
pub const COMMON_SHARE: usize = 128;

/// What lies in a place: a packet of the site at an index, by its number.
type Entry = Option<(usize, u32)>;

#[derive(Clone, Debug, PartialEq, Eq)]
pub struct Group {
    sites: [Option<Site>; SITES],
    places: [Entry; PLACES],
}

impl Default for Group {
    fn default() -> Group {
        Group {
            sites: [const { None }; SITES],
            places: [None; PLACES],
        }
    }
}

impl Group {
    /// The site of a number, if one is loaded there.
    pub fn site(&self, number: u32) -> Option<&Site> {
        self.sites.get(index(number)?)?.as_ref()
    }

    /// The places that are in use.
    pub fn used(&self) -> usize {
        self.places.iter().flatten().count()
    }

    /// The common places that are taken.
    pub fn common(&self) -> usize {
        self.sites
            .iter()
            .flatten()
            .map(|site| site.packets().saturating_sub(OWN_SHARE))
            .sum()
    }

    /// A load begins a number anew and frees its packets.
    pub fn load(
        &mut self,
        number: u32,
        settings: Result<Settings, Refusal>,
        table: &[Row],
        day: u32,
        windows: &[Window],
    ) -> Result<(), Refusal> {
        let at = index(number).ok_or(Refusal::NodeNumber)?;
        let site = Site::load_day(settings?, table, day, windows)?;
        self.sites[at] = Some(site);
        self.free(at);
        Ok(())
    }

    /// An event of a number, with windows, the tally of that number and an
    /// output for reports. A send writes the lowest free place, and a close
    /// frees those of its site.
    pub fn apply(
        &mut self,
        area: &mut [u8],
        number: u32,
        event: Event,
        windows: &[Window],
        tally: &mut Tally,
        reports: &mut [u8],
    ) -> Result<(), Refusal> {
        let at = index(number).ok_or(Refusal::NodeNumber)?;
        let crowded = self.common() >= COMMON_SHARE;
        let site = self.sites[at].as_mut().ok_or(Refusal::NodeNumber)?;
        let area = area.get_mut(..AREA_LENGTH).ok_or(Refusal::Capacity)?;
        let area: &mut PacketArea = area.try_into().expect("its length");
        let find = |entry: Entry| self.places.iter().position(|&place| place == entry);
        // A place is read only for a packet that there is, and written only
        // where the shares leave one free.
        let write = find(None).unwrap_or_default();
        let placed = Placed {
            write,
            read: find(Some((at, event.with))).unwrap_or_default(),
            full: crowded && site.packets() >= OWN_SHARE,
        };
        site.apply_kept_placed(area, event, windows, tally, reports, placed)?;
        match event.kind {
            EventKind::Send => self.places[write] = Some((at, site.packets() as u32)),
            EventKind::Close => self.free(at),
            _ => {}
        }
        Ok(())
    }

    fn free(&mut self, at: usize) {
        for place in &mut self.places {
            if matches!(place, Some((site, _)) if *site == at) {
                *place = None;
            }
        }
    }
}

/// The index of a number from 1 to 8.
fn index(number: u32) -> Option<usize> {
    let at = (number as usize).checked_sub(1)?;
    (at < SITES).then_some(at)
}

#[cfg(test)]
mod tests {
    use super::*;

    fn event(kind: EventKind, node: u32, with: u32) -> Event {
        Event { kind, node, with }
    }

    fn apply(group: &mut Group, area: &mut [u8], number: u32, event: Event) -> Result<(), Refusal> {
        group.apply(area, number, event, &[], &mut Tally::EMPTY.clone(), &mut [])
    }

    fn loaded(number: u32, group: &mut Group) {
        let settings = Settings::new(32, 4, 1, 1, 0);
        let table: Vec<Row> = (1..=32)
            .map(|node| Row {
                node,
                version: 1,
                flags: u32::MAX,
                want: 1,
            })
            .collect();
        assert_eq!(group.load(number, settings, &table, 1, &[]), Ok(()));
    }

    /// Sends, one after another by eight packets a node.
    fn sends(group: &mut Group, area: &mut [u8], number: u32, packets: std::ops::Range<u32>) {
        for packet in packets {
            let send = event(EventKind::Send, packet / 8 + 1, 0);
            assert_eq!(apply(group, area, number, send), Ok(()), "{packet}");
        }
    }

    #[test]
    fn shares() {
        let mut group = Group::default();
        let mut area = vec![0; AREA_LENGTH];
        let send = event(EventKind::Send, 20, 0);
        let close = event(EventKind::Close, 0, 0);
        assert_eq!(
            apply(&mut group, &mut area, 1, send),
            Err(Refusal::NodeNumber)
        );
        for number in 1..=8 {
            loaded(number, &mut group);
        }
        sends(&mut group, &mut area, 3, 0..144);
        assert_eq!(apply(&mut group, &mut area, 3, send), Err(Refusal::Crowded));
        let low = event(EventKind::Send, 1, 0);
        assert_eq!(apply(&mut group, &mut area, 3, low), Err(Refusal::AllSent));
        for number in [1, 2, 4, 5, 6, 7, 8] {
            sends(&mut group, &mut area, number, 0..16);
            assert_eq!(
                apply(&mut group, &mut area, number, send),
                Err(Refusal::Crowded)
            );
        }
        assert_eq!(group.used(), PLACES);
        assert_eq!(apply(&mut group, &mut area, 4, close), Ok(()));
        assert_eq!(group.used(), PLACES - 16);
        assert_eq!(apply(&mut group, &mut area, 5, send), Err(Refusal::Crowded));
        assert_eq!(apply(&mut group, &mut area, 3, close), Ok(()));
        assert_eq!(apply(&mut group, &mut area, 5, send), Ok(()));
        // Packet 17 of number 5 lies in the first place that number 3 left.
        assert_eq!(group.places[0], Some((4, 17)));
    }

    #[test]
    fn a_load_frees() {
        let mut group = Group::default();
        let mut area = vec![0; AREA_LENGTH];
        loaded(8, &mut group);
        sends(&mut group, &mut area, 8, 0..3);
        let bad = group.load(8, Settings::new(1, 1, 1, 1, 0), &[], 1, &[]);
        assert!(bad.is_err() && group.used() == 3);
        loaded(8, &mut group);
        assert_eq!(group.used(), 0);
        let none = event(EventKind::Hear, 2, 1);
        assert_eq!(
            apply(&mut group, &mut area, 8, none),
            Err(Refusal::NoSuchPacket)
        );
        let settings = Settings::new(1, 1, 1, 1, 0);
        assert_eq!(
            group.load(9, settings, &[], 1, &[]),
            Err(Refusal::NodeNumber)
        );
        assert_eq!(
            group.load(0, settings, &[], 1, &[]),
            Err(Refusal::NodeNumber)
        );
    }
}
