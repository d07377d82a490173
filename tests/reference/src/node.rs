//! One node: Algorithm 1 of the Hydra paper with the specification's rules.
//!
//! A step changes its node in place. It tests its refusals first, so that a
//! refused one has changed nothing.

use crate::allotment::{next_schedule, Requests, NO_REQUEST, NO_REQUESTS};
use crate::refusal::{require, Refusal};
use crate::schedule::{Schedule, FREE_SCHEDULE};
use crate::set;
use crate::settings::{Settings, MAX_NODES, MAX_REQUEST, TOP_VERSION};
use crate::wire::{self, Packet, PACKET_LENGTH, SCHEDULE_LENGTH};

/// Bytes of the ground of a close.
pub const GROUND_LENGTH: usize = 2;

/// What a close comes to: lines 24 to 29.
#[derive(Clone, Copy, PartialEq)]
enum Branch {
    Determines,
    /// Members still use an older version, and this node has the newest one in
    /// use. That is never version 0.
    Repeats,
    Silent,
}

/// Why a node sends what it sends, or nothing, at a close (S-2).
#[derive(Clone, Copy, Debug, PartialEq, Eq)]
pub enum Rule {
    Missing,
    Majority,
    Lower,
    Repeats,
    Top,
    Determined,
    Sent,
}

impl Rule {
    /// In the order of their numbers, the first of which is 1.
    const ALL: [Rule; 7] = [
        Rule::Missing,
        Rule::Majority,
        Rule::Lower,
        Rule::Repeats,
        Rule::Top,
        Rule::Determined,
        Rule::Sent,
    ];

    pub fn number(self) -> u8 {
        let before = Rule::ALL.iter().take_while(|&&rule| rule != self);
        before.count() as u8 + 1
    }

    pub fn word(self) -> &'static str {
        match self {
            Rule::Missing => "missing",
            Rule::Majority => "majority",
            Rule::Lower => "lower",
            Rule::Repeats => "repeats",
            Rule::Top => "top",
            Rule::Determined => "determined",
            Rule::Sent => "sent",
        }
    }
}

/// The ground of a close: its rule, and the lowest node of M' without a
/// request, 0 for none.
#[derive(Clone, Copy, Debug, PartialEq, Eq)]
pub struct Ground {
    pub rule: Rule,
    pub missing: u8,
}

#[derive(Clone, Copy, Debug, PartialEq, Eq)]
pub enum Phase {
    /// Restarted: takes part in nothing until the epoch ends.
    Waiting,
    Negotiation,
    Distribution {
        sends: bool,
    },
}

/// What a node gathers in one negotiation.
#[derive(Clone, Copy, Debug, PartialEq, Eq)]
pub struct Round {
    /// M', the merged flags.
    pub flags: u32,
    /// R', the known requests.
    pub requests: Requests,
    pub lowest: u32,
    pub highest: u32,
    /// C_r, the nodes heard.
    pub heard: u32,
}

impl Round {
    /// Outside negotiation a round has this one form, so that equal nodes
    /// compare equal whatever they went through.
    pub const LAPSED: Round = Round {
        flags: 0,
        requests: NO_REQUESTS,
        lowest: 0,
        highest: 0,
        heard: 0,
    };
}

/// A next schedule that a close determines, and from what.
#[derive(Clone, Copy, Debug, PartialEq, Eq)]
pub struct Determination {
    pub version: u32,
    pub nodes: u32,
    pub requests: Requests,
    pub schedule: Schedule,
}

#[derive(Clone, Copy, Debug, PartialEq, Eq)]
pub struct Node {
    pub settings: Settings,
    pub id: u32,
    pub phase: Phase,
    /// f, the place of the round in its epoch, 0 to F-1.
    pub place: u32,
    pub version: u32,
    pub schedule: Schedule,
    pub demand: u32,
    /// The demand as it was when the version was reached.
    pub request: u32,
    /// M, the membership flags.
    pub flags: u32,
    pub round: Round,
    /// C_e: in how many rounds of this epoch each node was heard.
    pub counters: [u8; MAX_NODES as usize],
    /// I_e, the nodes interacted with in this epoch.
    pub interactions: u32,
    /// The determined schedule; `Some` is the paper's mark `updated`.
    pub determined: Option<Schedule>,
}

/// Beginning and restarting.
impl Node {
    /// A node at the start of an epoch.
    pub fn begin(
        settings: Settings,
        id: u32,
        version: u32,
        flags: u32,
        demand: u32,
    ) -> Result<Node, Refusal> {
        require(version <= 1, Refusal::Value)?;
        require(demand <= MAX_REQUEST, Refusal::Value)?;
        check_flags(&settings, id, flags)?;
        settings.require_node(id)?;
        let mut node = Node::idle(settings, id, flags);
        node.version = version;
        node.demand = demand;
        node.start();
        Ok(node)
    }

    /// A node that comes back in the round at `place` and has lost all. Its
    /// demand is 0 until a want says otherwise.
    pub fn restart(settings: Settings, place: u32, id: u32, flags: u32) -> Result<Node, Refusal> {
        require(place < settings.rounds(), Refusal::Value)?;
        check_flags(&settings, id, flags)?;
        settings.require_node(id)?;
        let mut node = Node::idle(settings, id, flags);
        node.place = place;
        Ok(node)
    }

    /// A waiting node that knows nothing but its flags.
    fn idle(settings: Settings, id: u32, flags: u32) -> Node {
        Node {
            settings,
            id,
            phase: Phase::Waiting,
            place: 0,
            version: 0,
            schedule: FREE_SCHEDULE,
            demand: 0,
            request: 0,
            flags,
            round: Round::LAPSED,
            counters: [0; MAX_NODES as usize],
            interactions: 0,
            determined: None,
        }
    }

    /// Goes into the first negotiation, with the first request.
    fn start(&mut self) {
        self.request = self.demand;
        self.open_round();
    }
}

/// Flags hold no node beyond N, and the own one. The own bit is not tested for
/// a node outside 1 to N, which has none.
fn check_flags(settings: &Settings, id: u32, flags: u32) -> Result<(), Refusal> {
    let within = flags & !set::full(settings.nodes()) == 0;
    let own = !settings.has_node(id) || set::contains(flags, id);
    require(within && own, Refusal::Value)
}

/// The demand, and what the steps share.
impl Node {
    /// Sets the demand. The request stays what it was until the version
    /// changes, so that one version has one request.
    pub fn want(&mut self, demand: u32) -> Result<(), Refusal> {
        require(demand <= MAX_REQUEST, Refusal::Value)?;
        self.demand = demand;
        Ok(())
    }

    pub fn is_live(&self) -> bool {
        self.phase != Phase::Waiting
    }

    /// Whether the node sends its schedule in this distribution.
    pub fn sends(&self) -> bool {
        self.phase == Phase::Distribution { sends: true }
    }

    /// Whether so many nodes may determine a schedule, or keep one: a majority,
    /// or any where the site may split (S-14).
    fn are_enough(&self, nodes: u32) -> bool {
        self.settings.may_split() || set::is_majority(nodes, self.settings.nodes())
    }

    fn require_negotiation(&self) -> Result<(), Refusal> {
        require(self.phase == Phase::Negotiation, Refusal::WrongPhase)
    }

    /// Takes on a version and its schedule. Only another version number lets
    /// the demand become the request.
    fn adopt(&mut self, version: u32, schedule: &Schedule) {
        if version != self.version {
            self.request = self.demand;
        }
        self.version = version;
        self.schedule = *schedule;
    }
}

/// Negotiation, lines 5 to 21.
impl Node {
    fn open_round(&mut self) {
        self.phase = Phase::Negotiation;
        self.round = Round {
            flags: self.flags,
            requests: NO_REQUESTS,
            lowest: self.version,
            highest: self.version,
            heard: 0,
        };
        self.round.requests[self.id as usize - 1] = self.request as u8;
    }

    /// The packet the node sends. Sending changes nothing in the node.
    pub fn send(&self) -> Result<Packet, Refusal> {
        self.require_negotiation()?;
        Ok(Packet {
            sender: self.id,
            lowest: self.round.lowest,
            highest: self.round.highest,
            flags: self.round.flags,
            requests: self.round.requests,
        })
    }

    /// As [`Node::send`], into the first bytes of a lent output.
    pub fn send_into(&self, output: &mut [u8]) -> Result<(), Refusal> {
        let packet = self.send()?;
        let part = output.get_mut(..PACKET_LENGTH).ok_or(Refusal::Capacity)?;
        part.copy_from_slice(&wire::write_packet(&packet));
        Ok(())
    }

    pub fn hear(&mut self, packet: &Packet) -> Result<(), Refusal> {
        self.require_negotiation()?;
        packet.check(&self.settings)?;
        self.hear_checked(packet)
    }

    /// As [`Node::hear`], from bytes off the air.
    pub fn hear_bytes(&mut self, bytes: &[u8]) -> Result<(), Refusal> {
        self.require_negotiation()?;
        let packet = wire::read_packet(bytes, &self.settings)?;
        self.hear_checked(&packet)
    }

    fn hear_checked(&mut self, packet: &Packet) -> Result<(), Refusal> {
        require(packet.sender != self.id, Refusal::OwnPacket)?;
        let requesters = packet.requesters();
        if self.is_mutual(packet) {
            require(!self.conflicts(packet), Refusal::RequestConflict)?;
            self.interactions |= requesters;
            self.merge(packet);
        }
        self.round.heard |= requesters;
        Ok(())
    }

    /// Line 16. It tests M' and not M: a node met in this round counts.
    fn is_mutual(&self, packet: &Packet) -> bool {
        set::contains(self.round.flags, packet.sender) && set::contains(packet.flags, self.id)
    }

    /// Whether some node has one request here and another in the packet.
    fn conflicts(&self, packet: &Packet) -> bool {
        let pairs = self.round.requests.iter().zip(&packet.requests);
        // No early way out: so the 32 pairs are compared at once.
        pairs.fold(false, |found, (&known, &heard)| {
            found | (known != NO_REQUEST && heard != NO_REQUEST && known != heard)
        })
    }

    /// Lines 19 to 21.
    fn merge(&mut self, packet: &Packet) {
        let round = &mut self.round;
        round.lowest = round.lowest.min(packet.lowest);
        round.highest = round.highest.max(packet.highest);
        round.flags |= packet.flags;
        for (known, &heard) in round.requests.iter_mut().zip(&packet.requests) {
            if *known == NO_REQUEST {
                *known = heard;
            }
        }
    }
}

/// The close, lines 24 to 37.
impl Node {
    /// Every member is known by its request, and the members are enough.
    pub fn is_complete(&self) -> bool {
        self.missing() == 0 && self.are_enough(self.round.flags)
    }

    /// Lines 24 to 29. Version 0 is as good as any other (S-6): a site that
    /// went dark comes up again by itself. At the top version there is no next
    /// one, hence nothing to determine.
    fn branch(&self) -> Branch {
        let level = self.round.lowest == self.round.highest;
        let newest = self.version == self.round.highest;
        match (self.is_complete(), level) {
            (true, true) if self.version < TOP_VERSION => Branch::Determines,
            (true, false) if newest => Branch::Repeats,
            _ => Branch::Silent,
        }
    }

    /// What a close now would determine.
    pub fn determination(&self) -> Option<Determination> {
        let determines = self.phase == Phase::Negotiation && self.branch() == Branch::Determines;
        determines.then(|| Determination {
            version: self.version + 1,
            nodes: self.round.flags,
            requests: self.round.requests,
            schedule: self.next_schedule(),
        })
    }

    /// Line 27.
    fn next_schedule(&self) -> Schedule {
        next_schedule(&self.schedule, &self.round.requests, self.settings.slots())
    }

    /// The members of M' whose request is missing.
    fn missing(&self) -> u32 {
        self.round.flags & !wire::requesters(&self.round.requests)
    }

    /// The ground of a close now.
    pub fn ground(&self) -> Ground {
        let lowest = self.missing().trailing_zeros();
        Ground {
            rule: self.rule(),
            missing: if lowest < 32 { lowest as u8 + 1 } else { 0 },
        }
    }

    /// What is sent or determined goes before what this round's tests find.
    fn rule(&self) -> Rule {
        let branch = self.branch();
        let determined = branch == Branch::Determines || self.determined.is_some();
        if determined && self.is_in_last_round() {
            Rule::Sent
        } else if self.determined.is_some() {
            Rule::Determined
        } else if self.missing() != 0 {
            Rule::Missing
        } else if !self.are_enough(self.round.flags) {
            Rule::Majority
        } else {
            match branch {
                Branch::Determines => Rule::Determined,
                Branch::Repeats => Rule::Repeats,
                Branch::Silent if self.round.lowest == self.round.highest => Rule::Top,
                Branch::Silent => Rule::Lower,
            }
        }
    }

    pub fn close(&mut self) -> Result<(), Refusal> {
        self.require_negotiation()?;
        let branch = self.branch();
        self.close_by(branch);
        Ok(())
    }

    fn close_by(&mut self, branch: Branch) {
        if branch == Branch::Determines {
            self.determined = Some(self.next_schedule());
        }
        self.count_heard();
        let advances = self.advance();
        self.round = Round::LAPSED;
        self.phase = Phase::Distribution {
            sends: advances || branch == Branch::Repeats,
        };
    }

    /// As [`Node::close`]; a node that sends writes its schedule into the
    /// first bytes of a lent output, another one needs and writes none. The
    /// ground goes into the first two bytes of another.
    pub fn close_into(&mut self, output: &mut [u8], told: &mut [u8]) -> Result<(), Refusal> {
        self.require_negotiation()?;
        let branch = self.branch();
        let ground = self.ground();
        let told = told.get_mut(..GROUND_LENGTH).ok_or(Refusal::Capacity)?;
        if self.sends_after(branch) {
            let part = output.get_mut(..SCHEDULE_LENGTH).ok_or(Refusal::Capacity)?;
            self.close_by(branch);
            part.copy_from_slice(&wire::write_schedule(self.version, &self.schedule));
        } else {
            self.close_by(branch);
        }
        told.copy_from_slice(&[ground.rule.number(), ground.missing]);
        Ok(())
    }

    /// Whether a close by this branch sends, the old schedule or a new one.
    fn sends_after(&self, branch: Branch) -> bool {
        let determined = branch == Branch::Determines || self.determined.is_some();
        branch == Branch::Repeats || determined && self.is_in_last_round()
    }

    fn is_in_last_round(&self) -> bool {
        self.place + 1 == self.settings.rounds()
    }

    /// Line 31.
    fn count_heard(&mut self) {
        let heard = self.round.heard;
        for (index, counter) in self.counters.iter_mut().enumerate() {
            *counter += (heard >> index & 1) as u8;
        }
    }

    /// Lines 34 and 35: in the epoch's last round a schedule determined in
    /// any of its rounds becomes the current one.
    fn advance(&mut self) -> bool {
        if !self.is_in_last_round() {
            return false;
        }
        match self.determined.take() {
            Some(schedule) => {
                self.adopt(self.version + 1, &schedule);
                true
            }
            None => false,
        }
    }
}

/// Distribution and the end of the round, lines 39 to 55.
impl Node {
    /// Takes a sender's version and schedule.
    pub fn take(&mut self, version: u32, schedule: &Schedule) -> Result<(), Refusal> {
        self.require_taker()?;
        wire::check_schedule(version, schedule, &self.settings)?;
        self.take_checked(version, schedule);
        Ok(())
    }

    /// As [`Node::take`], from bytes off the air.
    pub fn take_bytes(&mut self, bytes: &[u8]) -> Result<(), Refusal> {
        self.require_taker()?;
        let (version, schedule) = wire::read_schedule(bytes, &self.settings)?;
        self.take_checked(version, &schedule);
        Ok(())
    }

    /// Takes what a node of the same site holds, which needs no check.
    pub(crate) fn take_checked(&mut self, version: u32, schedule: &Schedule) {
        // What was determined continues the version that is given up here.
        if version != self.version {
            self.determined = None;
        }
        self.adopt(version, schedule);
        self.interactions = set::full(self.settings.nodes());
    }

    pub(crate) fn require_taker(&self) -> Result<(), Refusal> {
        match self.phase {
            Phase::Distribution { sends } => require(!sends, Refusal::NoTaking),
            Phase::Waiting | Phase::Negotiation => Err(Refusal::WrongPhase),
        }
    }

    /// Ends the round. For a waiting node this counts the rounds until it
    /// may begin.
    pub fn end(&mut self) -> Result<(), Refusal> {
        require(self.phase != Phase::Negotiation, Refusal::WrongPhase)?;
        let epoch_ends = self.is_in_last_round();
        self.place = if epoch_ends { 0 } else { self.place + 1 };
        match (self.is_live(), epoch_ends) {
            (true, true) => {
                self.end_epoch();
                self.open_round();
            }
            (true, false) => self.open_round(),
            (false, true) => self.start(),
            (false, false) => {}
        }
        Ok(())
    }

    /// Lines 45 to 55. Unlike line 47 the count takes in the node itself, heard
    /// or not (S-1); a node that was echoed still counts once. The flags of the
    /// next epoch have the node itself too, however seldom it was heard.
    fn end_epoch(&mut self) {
        self.determined = None;
        let counted = self.interactions | set::single(self.id);
        if !self.are_enough(counted) {
            self.adopt(0, &FREE_SCHEDULE);
        }
        self.flags = self.nodes_counted() | set::single(self.id);
        self.counters = [0; MAX_NODES as usize];
        self.interactions = 0;
    }

    /// The nodes heard in at least `heard` rounds of the epoch (S-9).
    fn nodes_counted(&self) -> u32 {
        let often = self.settings.heard();
        set::of(&self.counters, |counter| u32::from(counter) >= often)
    }
}
