//! A site in memory: loaded, led through its events, and looked at.

use super::day::{Day, Window};
use super::raw;
use super::raw::Tally;
use super::reports::{Report, Rule};
use super::values::{word, Event, Kind, Packet, Row, Settings, Shown, State};

/// The answer of a call that was not refused. Every other answer is a refusal's number.
pub const DONE: u32 = 0;

#[derive(Clone)]
pub struct Site {
    settings: Settings,
    words: Vec<u32>,
    bytes: Vec<u8>,
    /// The packets of this phase, and how many they are.
    area: Vec<u8>,
    packets: u32,
    tally: Tally,
    day: Day,
    /// Of the last close, two bytes for each box.
    reports: [u8; raw::REPORTS_SIZE],
}

impl Site {
    /// The site of a script's settings and table, with demands by the hour if a day is lent.
    pub fn load(settings: Settings, rows: &[Row], day: Option<Day>) -> Result<Site, u32> {
        let mut site = Site {
            settings,
            words: vec![0; raw::SITE_WORDS],
            bytes: vec![0; raw::SITE_BYTES],
            area: vec![0; raw::AREA_SIZE],
            packets: 0,
            tally: Tally::default(),
            day: day.unwrap_or_else(Day::plain),
            reports: [0; raw::REPORTS_SIZE],
        };
        let rows: Vec<u32> = rows
            .iter()
            .flat_map(|row| [row.version, row.flags, row.want])
            .collect();
        // Each pointer is to a buffer of the length that goes with it, and no two overlap.
        let answer = unsafe {
            raw::hydra_site_load(
                site.words.as_mut_ptr(),
                site.words.len(),
                site.bytes.as_mut_ptr(),
                site.bytes.len(),
                settings.nodes,
                settings.slots,
                settings.rounds,
                settings.heard,
                settings.split,
                rows.as_ptr(),
                rows.len(),
                site.day.epochs,
                site.day.windows.as_ptr(),
                site.day.windows.len(),
                &mut site.tally,
            )
        };
        match answer {
            DONE => Ok(site),
            refusal => Err(refusal),
        }
    }

    pub fn settings(&self) -> Settings {
        self.settings
    }

    /// Packets sent in this phase so far; the newest has this number.
    pub fn packets(&self) -> u32 {
        self.packets
    }

    pub fn tally(&self) -> &Tally {
        &self.tally
    }

    /// A tally of zeros counts from the next epoch on.
    pub fn clear_tally(&mut self) {
        self.tally = Tally::default();
    }

    /// One event: 0, or the number of its refusal, which changes nothing.
    pub fn event(&mut self, event: Event) -> u32 {
        // Only an end gives demands. Every event would test the windows that it is lent.
        let windows: &[Window] = match event.kind {
            Kind::End => &self.day.windows,
            _ => &[],
        };
        // Each pointer is to a buffer of the length that goes with it, and no two overlap.
        let answer = unsafe {
            raw::hydra_site_event(
                self.words.as_mut_ptr(),
                self.words.len(),
                self.bytes.as_mut_ptr(),
                self.bytes.len(),
                self.area.as_mut_ptr(),
                self.area.len(),
                event.kind as u32,
                event.node,
                event.with,
                windows.as_ptr(),
                windows.len(),
                &mut self.tally,
                self.reports.as_mut_ptr(),
                self.reports.len(),
            )
        };
        if answer == DONE {
            match event.kind {
                Kind::Send => self.packets += 1,
                Kind::Close => self.packets = 0,
                _ => {}
            }
        }
        answer
    }

    /// What a copy of the site answers to an event, and the copy behind it.
    fn tried(&self, event: Event) -> (u32, Site) {
        let mut copy = self.clone();
        (copy.event(event), copy)
    }

    /// What each live box did at the last close and why.
    pub fn reports(&self) -> impl Iterator<Item = Report> + '_ {
        let grounds = (1..).zip(self.reports.chunks_exact(raw::GROUND_SIZE));
        grounds.filter_map(|(node, ground)| {
            Some(Report {
                node,
                rule: Rule::of_number(ground[0])?,
                missing: u32::from(ground[1]),
            })
        })
    }

    /// Whether a live box sends its schedule in this distribution. What it reported tells it, but of a box that has
    /// determined one: it may repeat the old one meanwhile. Then a take tells it; none where no box can take.
    pub fn sends(&self, node: u32) -> Option<bool> {
        let report = self.reports().find(|report| report.node == node)?;
        if let Some(sends) = report.rule.sends() {
            return Some(sends);
        }
        let taken = |taker, sender| self.tried(Event::new(Kind::Take, taker, sender)).0 == DONE;
        let others = || (1..=self.settings.nodes).filter(|&other| other != node);
        if others().any(|other| taken(other, node)) {
            return Some(true);
        }
        others().any(|other| taken(node, other)).then_some(false)
    }

    /// The packet that a box would send now, if it may send one: its merged flags, and the requests that it knows.
    pub fn would_send(&self, node: u32) -> Option<Packet> {
        let (answer, copy) = self.tried(Event::new(Kind::Send, node, 0));
        (answer == DONE).then(|| copy.packet(copy.packets))
    }

    /// Packet p of this phase, counted from 1.
    pub fn packet(&self, p: u32) -> Packet {
        Packet::from_bytes(&self.area[place(p)..], self.settings.nodes)
    }

    /// A copy of the site on which a box hears packet p with another request of its sender; none where there is no such packet
    /// or the hearing is refused.
    pub fn marked(&self, node: u32, p: u32) -> Option<Marked> {
        if !(1..=self.packets).contains(&p) {
            return None;
        }
        let mut copy = self.clone();
        let packet = &mut copy.area[place(p)..];
        let request = Packet::REQUESTS + usize::from(packet[0]) - 1;
        packet[request] = (packet[request] + 1) % 16;
        match copy.event(Event::new(Kind::Hear, node, p)) {
            DONE => Some(Marked::Heard(Box::new(copy))),
            raw::TWO_REQUESTS => Some(Marked::Refused),
            _ => None,
        }
    }

    /// What a listing shows of a box; none for a number that no box has.
    pub fn shown(&self, node: u32) -> Option<Shown> {
        let mut out = [0; raw::SHOWN_SIZE];
        // Each pointer is to a buffer of the length that goes with it, and no two overlap.
        let answer = unsafe {
            raw::hydra_site_node(
                self.words.as_ptr(),
                self.words.len(),
                self.bytes.as_ptr(),
                self.bytes.len(),
                node,
                out.as_mut_ptr(),
                out.len(),
            )
        };
        if answer != DONE {
            return None;
        }
        Some(Shown {
            state: match out[0] {
                0 => State::Down,
                1 => State::Waiting,
                _ => State::Live,
            },
            version: word(&out[1..]),
            flags: word(&out[5..]),
            request: u32::from(out[9]),
            owners: out[10..10 + self.settings.slots as usize].to_vec(),
        })
    }

    /// What a listing shows of every box, in order.
    pub fn all_shown(&self) -> Vec<Shown> {
        (1..=self.settings.nodes)
            .filter_map(|node| self.shown(node))
            .collect()
    }

    /// Whether what is lent for the site is the same, but for packets and tally.
    pub fn same_memory(&self, other: &Site) -> bool {
        self.words == other.words && self.bytes == other.bytes
    }
}

/// A hearing on a copy, of a packet with another request of its sender: only a merge looks at requests.
pub enum Marked {
    /// The box has the sender's request, and a merge would give it a second one.
    Refused,
    Heard(Box<Site>),
}

impl Marked {
    /// Whether the box merged the packet, by the site that has heard it as it is: a merge takes a request over.
    pub fn merged(&self, after: &Site) -> bool {
        match self {
            Marked::Refused => true,
            Marked::Heard(copy) => !copy.same_memory(after),
        }
    }
}

/// Where packet p, counted from 1, lies in the packet area (specification, 5).
fn place(p: u32) -> usize {
    raw::PACKET_SIZE * (p as usize - 1)
}
