//! The layouts on the air: packets of 45 bytes and schedules of 84 bytes,
//! highest byte first. Each meaning has exactly one form in bytes.

use crate::allotment::{Requests, NO_REQUEST, NO_REQUESTS};
use crate::refusal::{require, Refusal};
use crate::schedule::Schedule;
use crate::set;
use crate::settings::{Settings, MAX_REQUEST, TOP_VERSION};

pub const PACKET_LENGTH: usize = 45;
pub const SCHEDULE_LENGTH: usize = 84;

/// What a node sends in negotiation.
#[derive(Clone, Copy, Debug, PartialEq, Eq)]
pub struct Packet {
    pub sender: u32,
    pub lowest: u32,
    pub highest: u32,
    pub flags: u32,
    pub requests: Requests,
}

impl Packet {
    /// The nodes whose request this packet carries.
    pub fn requesters(&self) -> u32 {
        requesters(&self.requests)
    }

    /// Refuses a packet that no node of a site with these settings sends.
    pub fn check(&self, settings: &Settings) -> Result<(), Refusal> {
        let requesters = self.requesters();
        let well_formed = settings.has_node(self.sender)
            && set::contains(requesters, self.sender)
            && self.lowest <= self.highest
            && self.highest <= TOP_VERSION
            && self.flags & !set::full(settings.nodes()) == 0
            && requesters & !self.flags == 0
            && are_in_range(&self.requests);
        require(well_formed, Refusal::Layout)
    }
}

/// The nodes that have a request in `requests`.
pub fn requesters(requests: &Requests) -> u32 {
    set::of(requests, |request| request != NO_REQUEST)
}

/// Whether each known request is one that a node may have. All are looked at,
/// without an early way out.
pub fn are_in_range(requests: &Requests) -> bool {
    requests.iter().fold(true, |good, &request| {
        good & (request == NO_REQUEST || u32::from(request) <= MAX_REQUEST)
    })
}

pub fn write_packet(packet: &Packet) -> [u8; PACKET_LENGTH] {
    let mut bytes = [0; PACKET_LENGTH];
    bytes[0] = packet.sender as u8;
    bytes[1..5].copy_from_slice(&packet.lowest.to_be_bytes());
    bytes[5..9].copy_from_slice(&packet.highest.to_be_bytes());
    bytes[9..13].copy_from_slice(&packet.flags.to_be_bytes());
    bytes[13..].copy_from_slice(&packet.requests);
    bytes
}

pub fn read_packet(bytes: &[u8], settings: &Settings) -> Result<Packet, Refusal> {
    require(bytes.len() == PACKET_LENGTH, Refusal::WrongLength)?;
    let mut requests = NO_REQUESTS;
    requests.copy_from_slice(&bytes[13..]);
    let packet = Packet {
        sender: u32::from(bytes[0]),
        lowest: read_word(bytes, 1),
        highest: read_word(bytes, 5),
        flags: read_word(bytes, 9),
        requests,
    };
    packet.check(settings)?;
    Ok(packet)
}

/// Refuses a version and schedule that no node of such a site can hold.
pub fn check_schedule(
    version: u32,
    schedule: &Schedule,
    settings: &Settings,
) -> Result<(), Refusal> {
    let well_formed = version <= TOP_VERSION
        && schedule.fits(settings.nodes(), settings.slots())
        && (version > 0 || schedule.is_free());
    require(well_formed, Refusal::Layout)
}

pub fn write_schedule(version: u32, schedule: &Schedule) -> [u8; SCHEDULE_LENGTH] {
    let mut bytes = [0; SCHEDULE_LENGTH];
    bytes[..4].copy_from_slice(&version.to_be_bytes());
    bytes[4..].copy_from_slice(&schedule.owners());
    bytes
}

pub fn read_schedule(bytes: &[u8], settings: &Settings) -> Result<(u32, Schedule), Refusal> {
    require(bytes.len() == SCHEDULE_LENGTH, Refusal::WrongLength)?;
    let version = read_word(bytes, 0);
    let owners = &bytes[4..];
    let are_nodes = owners.iter().all(|&owner| u32::from(owner) <= settings.nodes());
    require(are_nodes, Refusal::Layout)?;
    let schedule = Schedule::of(owners);
    check_schedule(version, &schedule, settings)?;
    Ok((version, schedule))
}

fn read_word(bytes: &[u8], at: usize) -> u32 {
    let mut word = [0; 4];
    word.copy_from_slice(&bytes[at..at + 4]);
    u32::from_be_bytes(word)
}
