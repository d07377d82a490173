//! A site: its nodes, the phase and place they share, and the eight events.

use std::fmt;

use crate::node::Node;
use crate::refusal::{require, Refusal};
use crate::settings::{Settings, MAX_REQUEST};
use crate::tally::Tally;
use crate::windows::{due, require_windows, Window};
use crate::wire::PACKET_LENGTH;

/// How many packets a node can send in one negotiation.
pub const MAX_SENT: usize = 8;
/// How many packets one negotiation can hold: those of 32 nodes.
pub const MAX_PACKETS: usize = 32 * MAX_SENT;
pub const AREA_LENGTH: usize = MAX_PACKETS * PACKET_LENGTH;

/// Bytes of the reports of a close: two for each of 32 nodes.
pub const REPORTS_LENGTH: usize = 64;

/// The lent bytes of the packets, one after another. They may hold anything.
pub type PacketArea = [u8; AREA_LENGTH];

#[derive(Clone, Copy, Debug, PartialEq, Eq)]
pub enum SitePhase {
    Negotiation,
    Distribution,
}

#[derive(Clone, Copy, Debug, PartialEq, Eq)]
pub enum State {
    Live,
    Waiting,
    Down,
}

/// One line of the table a site is loaded from.
#[derive(Clone, Copy, Debug, PartialEq, Eq)]
pub struct Row {
    pub node: u32,
    pub version: u32,
    pub flags: u32,
    pub want: u32,
}

#[derive(Clone, Copy, Debug, PartialEq, Eq)]
pub enum EventKind {
    Send,
    Hear,
    Close,
    Take,
    End,
    Want,
    Crash,
    Restart,
}

impl EventKind {
    pub const ALL: [EventKind; 8] = [
        EventKind::Send,
        EventKind::Hear,
        EventKind::Close,
        EventKind::Take,
        EventKind::End,
        EventKind::Want,
        EventKind::Crash,
        EventKind::Restart,
    ];

    pub fn word(self) -> &'static str {
        match self {
            EventKind::Send => "send",
            EventKind::Hear => "hear",
            EventKind::Close => "close",
            EventKind::Take => "take",
            EventKind::End => "end",
            EventKind::Want => "want",
            EventKind::Crash => "crash",
            EventKind::Restart => "restart",
        }
    }
}

#[derive(Clone, Copy, Debug, PartialEq, Eq)]
pub struct Event {
    pub kind: EventKind,
    pub node: u32,
    pub with: u32,
}

/// The event as a script writes it, without the byte 10.
impl fmt::Display for Event {
    fn fmt(&self, f: &mut fmt::Formatter<'_>) -> fmt::Result {
        write!(f, "{} {} {}", self.kind.word(), self.node, self.with)
    }
}

#[derive(Clone, Debug, PartialEq, Eq)]
pub struct Site {
    settings: Settings,
    phase: SitePhase,
    place: u32,
    /// How many epochs a day has, and which of them this is.
    day: u32,
    epoch: u32,
    /// How many packets of this negotiation the area holds.
    packets: usize,
    /// How many of them the node at index node - 1 has sent, whether or not it
    /// has crashed since.
    sent: Vec<usize>,
    /// The node at index node - 1, or `None` while it is down.
    nodes: Vec<Option<Node>>,
}

/// Loading, and what can be seen of a site.
impl Site {
    /// The node that the table's row for `expected` gives. A row with another
    /// node number breaks the node order.
    pub fn load_row(settings: Settings, expected: u32, row: &Row) -> Result<Node, Refusal> {
        require(row.node == expected, Refusal::Value)?;
        Node::begin(settings, row.node, row.version, row.flags, row.want)
    }

    /// A site at the start of its first negotiation, without windows.
    pub fn load(settings: Settings, table: &[Row]) -> Result<Site, Refusal> {
        Site::load_day(settings, table, 1, &[])
    }

    /// A site at the start of its first negotiation, in epoch 0 of a day. A
    /// node that has windows takes its request from the demand that is due.
    pub fn load_day(
        settings: Settings,
        table: &[Row],
        day: u32,
        windows: &[Window],
    ) -> Result<Site, Refusal> {
        require(table.len() as u32 == settings.nodes(), Refusal::NamesLine)?;
        let nodes = (1u32..)
            .zip(table)
            .map(|(expected, row)| Site::load_row(settings, expected, row).map(Some))
            .collect::<Result<Vec<_>, _>>()?;
        require_windows(&settings, day, windows)?;
        let mut nodes = nodes;
        for (slot, row) in nodes.iter_mut().zip(table) {
            if let Some(want) = due(windows, row.node, 0) {
                let row = Row { want, ..*row };
                *slot = Some(Site::load_row(settings, row.node, &row)?);
            }
        }
        Ok(Site {
            settings,
            phase: SitePhase::Negotiation,
            place: 0,
            day,
            epoch: 0,
            packets: 0,
            sent: vec![0; nodes.len()],
            nodes,
        })
    }

    pub fn settings(&self) -> Settings {
        self.settings
    }

    pub fn phase(&self) -> SitePhase {
        self.phase
    }

    pub fn place(&self) -> u32 {
        self.place
    }

    /// The epoch of the day.
    pub fn epoch(&self) -> u32 {
        self.epoch
    }

    pub fn packets(&self) -> usize {
        self.packets
    }

    /// The node, live or waiting, or `None` if it is down or not of the site.
    pub fn node(&self, node: u32) -> Option<&Node> {
        let index = (node as usize).checked_sub(1)?;
        self.nodes.get(index)?.as_ref()
    }

    pub fn state(&self, node: u32) -> State {
        match self.node(node) {
            None => State::Down,
            Some(node) if node.is_live() => State::Live,
            Some(_) => State::Waiting,
        }
    }

    /// The node if it is live.
    pub fn live(&self, node: u32) -> Option<&Node> {
        self.node(node).filter(|node| node.is_live())
    }

    pub fn live_nodes(&self) -> impl Iterator<Item = &Node> {
        self.nodes.iter().flatten().filter(|node| node.is_live())
    }
}

/// Where packets lie in the area: the part that a send writes, and whether it
/// may have none; and the part that a hear finds its packet in.
pub(crate) struct Placed {
    pub(crate) write: usize,
    pub(crate) read: usize,
    pub(crate) full: bool,
}

/// The events. Each tests its refusals in rising order and only then changes
/// the site or the area.
impl Site {
    pub fn apply(&mut self, area: &mut PacketArea, event: Event) -> Result<(), Refusal> {
        self.apply_lent(area, event, &[])
    }

    /// As [`Site::apply`], with the windows that are lent to an end.
    pub fn apply_lent(
        &mut self,
        area: &mut PacketArea,
        event: Event,
        windows: &[Window],
    ) -> Result<(), Refusal> {
        let next = self.packets;
        self.apply_placed(
            area,
            event,
            windows,
            next,
            (event.with as usize).wrapping_sub(1),
        )
    }

    /// As [`Site::apply_lent`], with the index of the part that a send writes
    /// and of the part that a hear finds its packet in.
    fn apply_placed(
        &mut self,
        area: &mut PacketArea,
        event: Event,
        windows: &[Window],
        write: usize,
        read: usize,
    ) -> Result<(), Refusal> {
        require(has_zeros_in_place(event), Refusal::Value)?;
        let Event { kind, node, with } = event;
        match kind {
            EventKind::Send => self.send(area, node, write),
            EventKind::Hear => self.hear(area, node, with, read),
            EventKind::Close => self.close(),
            EventKind::Take => self.take(node, with),
            EventKind::End => self.end(windows),
            EventKind::Want => self.want(node, with),
            EventKind::Crash => self.crash(node),
            EventKind::Restart => self.restart(node, with),
        }
    }

    /// One event as a desk tool makes it: with windows, a tally of slots held,
    /// and an output for the reports of a close, which may be empty. What the
    /// site itself refuses comes before tally and list: where these are wrong,
    /// the event is tried on copies.
    pub fn apply_kept(
        &mut self,
        area: &mut PacketArea,
        event: Event,
        windows: &[Window],
        tally: &mut Tally,
        reports: &mut [u8],
    ) -> Result<(), Refusal> {
        let placed = Placed {
            write: self.packets,
            read: (event.with as usize).wrapping_sub(1),
            full: false,
        };
        self.apply_kept_placed(area, event, windows, tally, reports, placed)
    }

    /// As [`Site::apply_kept`], with the places of its packets in the area.
    pub(crate) fn apply_kept_placed(
        &mut self,
        area: &mut PacketArea,
        event: Event,
        windows: &[Window],
        tally: &mut Tally,
        reports: &mut [u8],
        placed: Placed,
    ) -> Result<(), Refusal> {
        let Placed { write, read, full } = placed;
        let fits = reports.is_empty() || reports.len() >= REPORTS_LENGTH;
        require(fits, Refusal::Capacity)?;
        let objection = self.objection(event, windows, tally, full);
        if objection.is_err() {
            let tried = &mut area.clone();
            self.clone().apply_placed(tried, event, &[], write, read)?;
            return objection;
        }
        let told = event.kind == EventKind::Close && !reports.is_empty();
        let grounds = told.then(|| self.grounds());
        self.apply_placed(area, event, windows, write, read)?;
        if let Some(grounds) = grounds {
            reports[..REPORTS_LENGTH].copy_from_slice(&grounds);
        }
        if event.kind == EventKind::End && self.place == 0 {
            tally.count(self);
        }
        Ok(())
    }

    /// What an event has against its tally, its list of windows and the places
    /// of its group.
    fn objection(
        &self,
        event: Event,
        windows: &[Window],
        tally: &Tally,
        full: bool,
    ) -> Result<(), Refusal> {
        if event.kind == EventKind::End {
            tally.require_valid()?;
        }
        require_windows(&self.settings, self.day, windows)?;
        require(event.kind != EventKind::Send || !full, Refusal::Crowded)
    }

    /// The grounds of a close now: two bytes for each node, 0 for one that is
    /// not live.
    fn grounds(&self) -> [u8; REPORTS_LENGTH] {
        let mut bytes = [0; REPORTS_LENGTH];
        for node in self.live_nodes() {
            let at = 2 * (node.id as usize - 1);
            let ground = node.ground();
            bytes[at..at + 2].copy_from_slice(&[ground.rule.number(), ground.missing]);
        }
        bytes
    }

    /// What is tested before a packet is written: the sender.
    fn require_sender(&self, sender: u32) -> Result<&Node, Refusal> {
        self.settings.require_node(sender)?;
        self.require_phase(SitePhase::Negotiation)?;
        let node = self.require_live(sender)?;
        let sent = self.sent[sender as usize - 1];
        require(sent < MAX_SENT, Refusal::AllSent)?;
        Ok(node)
    }

    fn send(&mut self, area: &mut PacketArea, sender: u32, part: usize) -> Result<(), Refusal> {
        let node = self.require_sender(sender)?;
        node.send_into(&mut area[part * PACKET_LENGTH..])?;
        self.packets += 1;
        self.sent[sender as usize - 1] += 1;
        Ok(())
    }

    /// The bytes in the area are heard as bytes off the air: their sender is
    /// what they say, whether or not it is still live.
    fn hear(
        &mut self,
        area: &PacketArea,
        hearer: u32,
        number: u32,
        part: usize,
    ) -> Result<(), Refusal> {
        self.settings.require_node(hearer)?;
        self.require_phase(SitePhase::Negotiation)?;
        let exists = number >= 1 && number as usize <= self.packets;
        let node = self.require_live_mut(hearer)?;
        require(exists, Refusal::NoSuchPacket)?;
        let start = part * PACKET_LENGTH;
        node.hear_bytes(&area[start..start + PACKET_LENGTH])
    }

    fn close(&mut self) -> Result<(), Refusal> {
        self.require_phase(SitePhase::Negotiation)?;
        for node in self.nodes.iter_mut().flatten() {
            if node.is_live() {
                node.close()?;
            }
        }
        self.phase = SitePhase::Distribution;
        self.packets = 0;
        self.sent.fill(0);
        Ok(())
    }

    fn take(&mut self, taker: u32, sender: u32) -> Result<(), Refusal> {
        self.settings.require_node(taker)?;
        self.settings.require_node(sender)?;
        self.require_phase(SitePhase::Distribution)?;
        self.require_live(taker)?;
        let from = self.require_live(sender)?;
        require(from.sends(), Refusal::NoTaking)?;
        let (version, schedule) = (from.version, from.schedule);
        let node = self.require_live_mut(taker)?;
        node.require_taker()?;
        node.take_checked(version, &schedule);
        Ok(())
    }

    /// Waiting nodes count the rounds too, and begin with the new epoch. Its
    /// demands are given first, before anything takes a request.
    fn end(&mut self, windows: &[Window]) -> Result<(), Refusal> {
        self.require_phase(SitePhase::Distribution)?;
        require_windows(&self.settings, self.day, windows)?;
        if self.place + 1 == self.settings.rounds() {
            self.epoch = (self.epoch + 1) % self.day;
            self.give(windows)?;
        }
        for node in self.nodes.iter_mut().flatten() {
            node.end()?;
        }
        self.phase = SitePhase::Negotiation;
        self.place = (self.place + 1) % self.settings.rounds();
        Ok(())
    }

    /// The demands of this epoch, for all nodes that are not down.
    fn give(&mut self, windows: &[Window]) -> Result<(), Refusal> {
        for (number, node) in (1u32..).zip(&mut self.nodes) {
            if let (Some(node), Some(demand)) = (node, due(windows, number, self.epoch)) {
                node.want(demand)?;
            }
        }
        Ok(())
    }

    fn want(&mut self, node: u32, demand: u32) -> Result<(), Refusal> {
        require(demand <= MAX_REQUEST, Refusal::Value)?;
        self.settings.require_node(node)?;
        self.require_up(node)?.want(demand)
    }

    fn crash(&mut self, node: u32) -> Result<(), Refusal> {
        self.settings.require_node(node)?;
        self.require_up(node)?;
        self.nodes[node as usize - 1] = None;
        Ok(())
    }

    fn restart(&mut self, node: u32, flags: u32) -> Result<(), Refusal> {
        let restarted = Node::restart(self.settings, self.place, node, flags)?;
        require(self.state(node) == State::Down, Refusal::NotDown)?;
        self.nodes[node as usize - 1] = Some(restarted);
        Ok(())
    }
}

/// What the events share.
impl Site {
    fn require_phase(&self, phase: SitePhase) -> Result<(), Refusal> {
        require(self.phase == phase, Refusal::WrongPhase)
    }

    fn require_live(&self, node: u32) -> Result<&Node, Refusal> {
        self.live(node).ok_or(Refusal::NotLive)
    }

    fn require_live_mut(&mut self, node: u32) -> Result<&mut Node, Refusal> {
        let node = self.require_up(node)?;
        require(node.is_live(), Refusal::NotLive)?;
        Ok(node)
    }

    /// The node, live or waiting.
    fn require_up(&mut self, node: u32) -> Result<&mut Node, Refusal> {
        let index = (node as usize).checked_sub(1).ok_or(Refusal::NotLive)?;
        let node = self.nodes.get_mut(index).ok_or(Refusal::NotLive)?;
        node.as_mut().ok_or(Refusal::NotLive)
    }
}

/// Whether every place of the event that is written 0 is 0.
fn has_zeros_in_place(event: Event) -> bool {
    match event.kind {
        EventKind::Close | EventKind::End => event.node == 0 && event.with == 0,
        EventKind::Send | EventKind::Crash => event.with == 0,
        EventKind::Hear | EventKind::Take | EventKind::Want | EventKind::Restart => true,
    }
}
