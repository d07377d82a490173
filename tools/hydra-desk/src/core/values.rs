//! The values that the calls take and give: settings, events, what is shown of a box, packets.

/// The settings line of a script.
#[derive(Clone, Copy, Debug, PartialEq, Eq)]
pub struct Settings {
    pub nodes: u32,
    pub slots: u32,
    pub rounds: u32,
    pub heard: u32,
    pub split: u32,
}

/// A row of a script's table, without the box's number.
#[derive(Clone, Copy, Debug, PartialEq, Eq)]
pub struct Row {
    pub version: u32,
    pub flags: u32,
    pub want: u32,
}

/// The events by the numbers that the calls know them by.
#[derive(Clone, Copy, Debug, PartialEq, Eq)]
pub enum Kind {
    Send = 1,
    Hear = 2,
    Close = 3,
    Take = 4,
    End = 5,
    Want = 6,
    Crash = 7,
    Restart = 8,
}

/// An event line: its word and the two numbers behind it.
#[derive(Clone, Copy, Debug, PartialEq, Eq)]
pub struct Event {
    pub kind: Kind,
    pub node: u32,
    pub with: u32,
}

impl Event {
    pub fn new(kind: Kind, node: u32, with: u32) -> Event {
        Event { kind, node, with }
    }
}

#[derive(Clone, Copy, Debug, PartialEq, Eq, Hash, PartialOrd, Ord)]
pub enum State {
    Down,
    Waiting,
    Live,
}

/// What a listing shows of a box.
#[derive(Clone, Debug, PartialEq, Eq, Hash)]
pub struct Shown {
    pub state: State,
    pub version: u32,
    pub flags: u32,
    pub request: u32,
    /// The owner of each slot, 0 for a free one.
    pub owners: Vec<u8>,
}

impl Shown {
    pub fn is_live(&self) -> bool {
        self.state == State::Live
    }

    /// The slots that the box owns by its own schedule, counted from 1.
    pub fn own_slots(&self, node: u32) -> Vec<u32> {
        (1..)
            .zip(&self.owners)
            .filter(|(_, &owner)| u32::from(owner) == node)
            .map(|(slot, _)| slot)
            .collect()
    }
}

/// The bytes of a packet on the air (specification, 5).
#[derive(Clone, Debug, PartialEq, Eq)]
pub struct Packet {
    pub sender: u32,
    pub lowest: u32,
    pub highest: u32,
    pub flags: u32,
    /// Of each box its request, if the packet has it.
    pub requests: Vec<Option<u32>>,
}

impl Packet {
    /// Where the requests begin, a byte for each box.
    pub(super) const REQUESTS: usize = 13;

    pub(super) fn from_bytes(bytes: &[u8], nodes: u32) -> Packet {
        let request = |&byte: &u8| (byte != 255).then_some(u32::from(byte));
        Packet {
            sender: u32::from(bytes[0]),
            lowest: word(&bytes[1..]),
            highest: word(&bytes[5..]),
            flags: word(&bytes[9..]),
            requests: bytes[Packet::REQUESTS..][..nodes as usize]
                .iter()
                .map(request)
                .collect(),
        }
    }

    /// The boxes whose requests it has, as a word.
    pub fn known(&self) -> u32 {
        let known = |(at, request): (usize, &Option<u32>)| u32::from(request.is_some()) << at;
        self.requests.iter().enumerate().map(known).sum()
    }
}

/// Four bytes, highest first.
pub(super) fn word(bytes: &[u8]) -> u32 {
    u32::from_be_bytes([bytes[0], bytes[1], bytes[2], bytes[3]])
}
