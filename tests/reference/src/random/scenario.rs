//! Random sites with event lists that are mostly plausible.
//!
//! A player runs the site while it chooses the events. It so knows the phase,
//! the packets and the senders, and most of its events are accepted.

use super::{Flavour, Random};
use crate::script::write_script;
use crate::set;
use crate::settings::{Settings, MAX_REQUEST};
use crate::site::{Event, EventKind, PacketArea, Row, Site, SitePhase, State, AREA_LENGTH};

/// A site just loaded, and what happens to it.
#[derive(Clone, Debug, PartialEq, Eq)]
pub struct Scenario {
    pub settings: Settings,
    pub table: Vec<Row>,
    pub events: Vec<Event>,
}

impl Scenario {
    pub fn script(&self) -> Vec<u8> {
        write_script(&self.settings, &self.table, &self.events)
    }
}

pub fn random_scenario(seed: u64, flavour: Flavour) -> Scenario {
    let mut random = Random::new(seed);
    let settings = random_settings(&mut random, flavour);
    let table = random_table(&mut random, &settings);
    // The head of a script needs less than 1,200 of its 40,000 bytes.
    let budget = match flavour {
        Flavour::Plausible => random.pick(&[1_000, 4_000, 12_000, 38_000]),
        Flavour::Chaotic => random.pick(&[500, 2_000, 6_000]),
        Flavour::Damaged => random.pick(&[50, 500, 2_000]),
    };
    let site = Site::load(settings, &table).expect("a random table is in range");
    let mut player = Player::new(random, site, flavour, budget);
    player.play();
    Scenario {
        settings,
        table,
        events: player.events,
    }
}

fn random_settings(random: &mut Random, flavour: Flavour) -> Settings {
    let nodes = match (flavour, random.below(10)) {
        (Flavour::Chaotic, 0..=7) => random.between(1, 4),
        (Flavour::Chaotic, _) => random.between(5, 7),
        (_, 0..=5) => random.pick(&[1, 2, 2, 3, 3, 3, 4, 4, 5]),
        (_, 6..=7) => random.between(6, 8),
        (_, 8) => random.between(9, 31),
        (_, _) => random.pick(&[31, 32]),
    };
    let slots = match random.below(10) {
        0..=6 => random.between(1, 12),
        7..=8 => random.between(13, 79),
        _ => 80,
    };
    let rounds = match random.below(10) {
        0..=8 => random.between(1, 3),
        _ => random.between(4, 32),
    };
    let heard = match random.below(10) {
        0..=5 => 1,
        _ => random.between(1, rounds),
    };
    let split = u32::from(random.chance(25));
    Settings::new(nodes, slots, rounds, heard, split).expect("random settings are in range")
}

/// Most sites start at version 1 with full flags, since the others can not
/// determine a schedule for long or at all.
fn random_table(random: &mut Random, settings: &Settings) -> Vec<Row> {
    let version_one = random.pick(&[100, 100, 100, 100, 100, 100, 70, 50, 0]);
    let full_flags = random.pick(&[100, 100, 100, 90, 50]);
    (1..=settings.nodes())
        .map(|node| Row {
            node,
            version: u32::from(random.chance(version_one)),
            flags: random_flags(random, settings, node, full_flags),
            want: random.between(0, MAX_REQUEST),
        })
        .collect()
}

/// Flags with the own bit; all of them in `full` of a hundred cases.
fn random_flags(random: &mut Random, settings: &Settings, node: u32, full: u32) -> u32 {
    let all = set::full(settings.nodes());
    if random.chance(full) {
        all
    } else {
        random.next_u32() & all | set::single(node)
    }
}

/// How the packets of a round get about.
#[derive(Clone, Copy)]
enum Style {
    /// Every node sends, and the others hear each packet.
    Mesh,
    /// One node hears all the others, and they hear only that one.
    Relay,
    /// Any event at any time.
    Chaos,
}

struct Player {
    random: Random,
    site: Site,
    area: Box<PacketArea>,
    flavour: Flavour,
    /// Whether losses are many and lasting. In a rough site versions move
    /// for a short time only, hence there are calm ones too.
    rough: bool,
    /// For each node the ones it can hear; lasting, so that flags drift.
    links: Vec<u32>,
    events: Vec<Event>,
    /// How many bytes of script may still be written.
    budget: usize,
}

/// Events, and who is there to take part in them.
impl Player {
    fn new(mut random: Random, site: Site, flavour: Flavour, budget: usize) -> Player {
        let rough = flavour == Flavour::Chaotic || random.chance(35);
        let settings = site.settings();
        let links = vec![set::full(settings.nodes()); settings.nodes() as usize];
        Player {
            random,
            site,
            area: Box::new([0; AREA_LENGTH]),
            flavour,
            rough,
            links,
            events: Vec::new(),
            budget,
        }
    }

    /// Runs an event; once the budget is used up, nothing happens any more.
    fn emit(&mut self, kind: EventKind, node: u32, with: u32) {
        let event = Event { kind, node, with };
        let length = event.to_string().len() + 1;
        if length > self.budget {
            self.budget = 0;
            return;
        }
        self.budget -= length;
        // A refusal is as good an outcome as any other.
        let _ = self.site.apply(&mut self.area, event);
        self.events.push(event);
    }

    fn nodes(&self) -> u32 {
        self.site.settings().nodes()
    }

    fn any_node(&mut self) -> u32 {
        let nodes = self.nodes();
        self.random.between(1, nodes)
    }

    fn live(&self) -> Vec<u32> {
        self.site.live_nodes().map(|node| node.id).collect()
    }

    fn down(&self) -> Vec<u32> {
        (1..=self.nodes())
            .filter(|&node| self.site.state(node) == State::Down)
            .collect()
    }

    fn senders(&self) -> Vec<u32> {
        let senders = self.site.live_nodes().filter(|node| node.sends());
        senders.map(|node| node.id).collect()
    }

    fn silent(&self) -> Vec<u32> {
        let silent = self.site.live_nodes().filter(|node| !node.sends());
        silent.map(|node| node.id).collect()
    }
}

/// Whole rounds.
impl Player {
    fn play(&mut self) {
        while self.budget > 0 {
            self.redraw_links();
            match self.style() {
                Style::Mesh => self.mesh(),
                Style::Relay => self.relay(),
                Style::Chaos => self.chaotic_stretch(),
            }
            self.finish_round();
            if self.is_dead() && self.random.chance(30) {
                return;
            }
        }
    }

    /// Without a version above 0 no schedule is ever determined again.
    fn is_dead(&self) -> bool {
        self.site.live_nodes().all(|node| node.version == 0)
    }

    fn style(&mut self) -> Style {
        let (mesh, relay) = match self.flavour {
            Flavour::Chaotic => (40, 15),
            _ if self.nodes() > 8 => (15, 80),
            _ => (62, 33),
        };
        match self.random.between(0, 99) {
            draw if draw < mesh => Style::Mesh,
            draw if draw < mesh + relay => Style::Relay,
            _ => Style::Chaos,
        }
    }

    /// Sometimes changes who can hear whom: all, a random part, or the nodes
    /// of the own one of two groups.
    fn redraw_links(&mut self) {
        if !self.rough || !self.random.chance(30) {
            return;
        }
        let all = set::full(self.nodes());
        let group = self.random.next_u32() & all;
        let kind = self.random.below(5);
        for (node, link) in (1u32..).zip(self.links.iter_mut()) {
            *link = match kind {
                0..=2 => all,
                3 => self.random.next_u32() & all,
                _ if set::contains(group, node) => group,
                _ => all & !group,
            };
        }
    }

    /// One or two passes. In the second one the nodes meet their own echo,
    /// without which small groups lose their version at the epoch's end.
    fn mesh(&mut self) {
        let reception = self.reception();
        let passes = if self.nodes() > 8 {
            1
        } else {
            self.random.between(1, 2)
        };
        for _ in 0..passes {
            let mut senders = self.live();
            self.random.shuffle(&mut senders);
            for sender in senders {
                self.broadcast(sender, reception);
                self.late_hearing();
                self.noise();
            }
        }
    }

    /// A packet, and all who hear it.
    fn broadcast(&mut self, sender: u32, reception: u32) {
        self.emit(EventKind::Send, sender, 0);
        let number = self.site.packets() as u32;
        for hearer in self.live() {
            if hearer != sender && self.hears(hearer, sender, reception) {
                self.emit(EventKind::Hear, hearer, number);
            }
        }
    }

    /// How many of a hundred packets get through in this round.
    fn reception(&mut self) -> u32 {
        if self.rough {
            self.random.pick(&[100, 95, 80, 60, 30])
        } else {
            self.random.pick(&[100, 100, 100, 98, 90])
        }
    }

    fn hears(&mut self, hearer: u32, sender: u32, reception: u32) -> bool {
        set::contains(self.links[hearer as usize - 1], sender) && self.random.chance(reception)
    }

    /// A packet heard again, or long after it was sent.
    fn late_hearing(&mut self) {
        if self.random.chance(10) {
            self.random_hear();
        }
    }

    fn relay(&mut self) {
        let reception = self.reception();
        let Some(hub) = self.random.choose(&self.live()) else {
            return;
        };
        for sender in self.live() {
            self.emit(EventKind::Send, sender, 0);
            let number = self.site.packets() as u32;
            if sender != hub && self.hears(hub, sender, reception) {
                self.emit(EventKind::Hear, hub, number);
            }
        }
        self.noise();
        self.broadcast(hub, reception);
    }

    /// Closes, hands the schedules out, and ends, wherever the round is.
    fn finish_round(&mut self) {
        if self.site.phase() == SitePhase::Negotiation {
            self.emit(EventKind::Close, 0, 0);
        }
        self.noise();
        // Nodes that are heard but get no schedule are the ones to outdate.
        let reception = match self.reception() {
            _ if self.rough && self.random.chance(25) => 0,
            reception => reception,
        };
        for taker in self.silent() {
            if let Some(sender) = self.random.choose(&self.senders()) {
                if self.hears(taker, sender, reception) {
                    self.emit(EventKind::Take, taker, sender);
                }
            }
        }
        self.noise();
        self.emit(EventKind::End, 0, 0);
    }
}

/// Single events.
impl Player {
    /// Events in no order, over any number of rounds or a part of one.
    fn chaotic_stretch(&mut self) {
        for _ in 0..self.random.between(5, 60) {
            self.chaos();
        }
    }

    fn chaos(&mut self) {
        match (self.site.phase(), self.random.below(100)) {
            (_, 0..=9) => self.disturb(),
            (SitePhase::Negotiation, 10..=29) => self.random_send(),
            (SitePhase::Negotiation, 30..=95) => self.random_hear(),
            (SitePhase::Negotiation, _) => self.emit(EventKind::Close, 0, 0),
            (SitePhase::Distribution, 10..=69) => self.random_take(),
            (SitePhase::Distribution, _) => self.emit(EventKind::End, 0, 0),
        }
    }

    fn random_send(&mut self) {
        let node = self.any_node();
        self.emit(EventKind::Send, node, 0);
    }

    fn random_hear(&mut self) {
        let hearer = self.any_node();
        let packets = self.site.packets() as u32;
        // The newest packets carry the most, so they are heard more often.
        let number = if self.random.chance(50) {
            packets.saturating_sub(self.random.between(0, 2))
        } else {
            self.random.between(0, packets)
        };
        self.emit(EventKind::Hear, hearer, number);
    }

    fn random_take(&mut self) {
        let taker = self.any_node();
        let any = self.any_node();
        let sender = match self.random.choose(&self.senders()) {
            Some(sender) if self.random.chance(90) => sender,
            _ => any,
        };
        self.emit(EventKind::Take, taker, sender);
    }

    /// Now and then, something else than the round's own events.
    fn noise(&mut self) {
        let percent = if self.rough { 25 } else { 10 };
        if self.random.chance(percent) {
            self.disturb();
        }
    }

    fn disturb(&mut self) {
        let node = self.any_node();
        let down = self.down();
        match (self.random.below(100), self.random.choose(&down)) {
            (0..=49, Some(down)) => self.restart(down),
            (0..=54, _) => {
                let demand = self.random.between(0, MAX_REQUEST);
                self.emit(EventKind::Want, node, demand);
            }
            (55..=74, _) => self.emit(EventKind::Crash, node, 0),
            (75..=76, _) => self.flood(),
            _ => self.wild(),
        }
    }

    fn restart(&mut self, node: u32) {
        let settings = self.site.settings();
        let flags = random_flags(&mut self.random, &settings, node, 60);
        self.emit(EventKind::Restart, node, flags);
    }

    /// More packets than a node may send, of one node or of all. It is costly,
    /// hence seldom.
    fn flood(&mut self) {
        if self.random.chance(90) || self.site.phase() != SitePhase::Negotiation {
            return;
        }
        let live = self.live();
        let Some(chatty) = self.random.choose(&live) else {
            return;
        };
        let all = self.random.chance(30);
        for _ in 0..9 {
            for &sender in live.iter().filter(|&&node| all || node == chatty) {
                self.emit(EventKind::Send, sender, 0);
            }
        }
        let newest = self.site.packets() as u32;
        self.emit(EventKind::Hear, chatty % self.nodes() + 1, newest);
    }

    /// An event without regard to the phase, the nodes or the ranges.
    fn wild(&mut self) {
        let kind = self.random.pick(&EventKind::ALL);
        let zeros = matches!(kind, EventKind::Close | EventKind::End);
        let (mut node, mut with) = match self.random.below(4) {
            _ if zeros => (0, 0),
            0 => (self.wild_number(), self.wild_number()),
            _ => (self.any_node(), self.any_node()),
        };
        if matches!(kind, EventKind::Send | EventKind::Crash) {
            with = 0;
        }
        if self.random.chance(10) {
            (node, with) = (self.wild_number(), self.wild_number());
        }
        self.emit(kind, node, with);
    }

    fn wild_number(&mut self) -> u32 {
        let nodes = self.nodes();
        let any = self.random.next_u32();
        self.random.pick(&[
            0,
            0,
            1,
            2,
            3,
            8,
            9,
            MAX_REQUEST,
            MAX_REQUEST + 1,
            nodes,
            nodes + 1,
            256,
            257,
            any,
            u32::MAX,
        ])
    }
}
