//! The refusal numbers (specification, 9 Refusals).

/// Why a call was refused. Of number 14 only the tally is here: the bytes of a
/// lent node area belong to the implementation that has one.
#[derive(Clone, Copy, Debug, PartialEq, Eq, PartialOrd, Ord, Hash)]
#[repr(u8)]
pub enum Refusal {
    /// A names line is wrong, or a line before the events is missing.
    NamesLine = 1,
    /// A value line is malformed, or a value is out of its range.
    Value = 2,
    /// A node number is outside 1 to N.
    NodeNumber = 3,
    WrongPhase = 4,
    /// The node is not live; for a want or a crash, it is down.
    NotLive = 5,
    /// A restart of a node that is not down.
    NotDown = 6,
    /// The node has already sent 8 packets of this phase.
    AllSent = 7,
    NoSuchPacket = 8,
    OwnPacket = 9,
    /// The taker sends itself, or the named sender does not send.
    NoTaking = 10,
    WrongLength = 11,
    /// The contents break the layout on the air.
    Layout = 12,
    /// A merge would meet two different requests of one node.
    RequestConflict = 13,
    /// A tally breaks its rules.
    Tally = 14,
    /// An output or packet area is too short, or a script too long.
    Capacity = 15,
    /// A list of windows or a day breaks the rules.
    Windows = 16,
    /// A send where the site has its own share of packets and the common
    /// places are taken.
    Crowded = 17,
}

impl Refusal {
    pub fn number(self) -> u8 {
        self as u8
    }
}

/// Passes if `condition` holds, and refuses otherwise.
pub fn require(condition: bool, refusal: Refusal) -> Result<(), Refusal> {
    if condition {
        Ok(())
    } else {
        Err(refusal)
    }
}
