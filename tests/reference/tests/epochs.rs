//! What is proved of lists of events beside demand 3, checked on random lists:
//! version 0 is never sent; what nodes hold as the epoch after a determination
//! begins; what two nodes know that lack no request; recovery after calm. Lists
//! of sites that may split are among them, of which the second is not said.

#![forbid(unsafe_code)]

use reference::allotment::{next_schedule, targets, Requests, NO_REQUESTS};
use reference::node::{Determination, Node, Rule};
use reference::random::{random_scenario, Flavour, Scenario};
use reference::schedule::Schedule;
use reference::set;
use reference::site::{Event, EventKind, PacketArea, Site, SitePhase, AREA_LENGTH};
use reference::wire::{requesters, PACKET_LENGTH};

/// How much the lists gave the checks to do; all of it may not be nothing.
#[derive(Default, Debug)]
struct Tally {
    senders: usize,
    heirs: usize,
    first_heirs: usize,
    same_requests: usize,
    none_in_common: usize,
    /// Pairs of complete nodes at one close of a site that may split.
    complete_together: usize,
    complete_apart: usize,
    calm_epochs: usize,
    calm_pairs: usize,
    /// Calm epochs with at least `heard` full rounds, where `heard` is above 1.
    heard_often: usize,
    /// Calm epochs of half of the nodes or fewer, at a site that may split.
    calm_parts: usize,
}

/// An epoch that began with the live nodes agreed on who is live and on the
/// version, and, where the site may split, on the schedule; `None` where it
/// began otherwise.
struct Candidate {
    live: u32,
    version: u32,
    schedule: Schedule,
    requests: Requests,
    crashed: bool,
    /// The rounds in which each member heard each other.
    full: u32,
}

struct Monitor<'a> {
    site: Site,
    area: Box<PacketArea>,
    /// What was determined first in this epoch.
    determined: Option<Determination>,
    candidate: Option<Candidate>,
    /// Members and requests of the epoch before, where that one was calm.
    before: Option<(u32, Requests)>,
    /// The senders that each node has heard in this round.
    heard: [u32; 32],
    tally: &'a mut Tally,
}

fn live_set(site: &Site) -> u32 {
    site.live_nodes()
        .fold(0, |nodes, node| nodes | set::single(node.id))
}

fn candidate(site: &Site) -> Option<Candidate> {
    let live = live_set(site);
    let first = site.live_nodes().next()?;
    let agreed = site
        .live_nodes()
        .all(|node| node.flags == live && node.version == first.version);
    let ready = if site.settings().may_split() {
        site.live_nodes()
            .all(|node| node.schedule == first.schedule)
    } else {
        set::is_majority(live, site.settings().nodes())
    };
    let ready = ready && first.version < 1_000_000;
    let mut requests = NO_REQUESTS;
    for node in site.live_nodes() {
        requests[node.id as usize - 1] = node.request as u8;
    }
    (agreed && ready).then_some(Candidate {
        live,
        version: first.version,
        schedule: first.schedule,
        requests,
        crashed: false,
        full: 0,
    })
}

impl<'a> Monitor<'a> {
    fn new(scenario: &Scenario, tally: &'a mut Tally) -> Monitor<'a> {
        let site = Site::load(scenario.settings, &scenario.table).expect("an accepted table");
        Monitor {
            candidate: candidate(&site),
            site,
            area: Box::new([0; AREA_LENGTH]),
            determined: None,
            before: None,
            heard: [0; 32],
            tally,
        }
    }

    fn step(&mut self, event: Event) {
        let nodes: Vec<Node> = self.site.live_nodes().copied().collect();
        let ends_epoch = self.site.place() + 1 == self.site.settings().rounds();
        if self.site.apply(&mut self.area, event).is_err() {
            return;
        }
        match event.kind {
            EventKind::Hear => self.note_hearing(event),
            EventKind::Close => self.check_close(&nodes),
            EventKind::Crash => self.note_crash(event.node),
            EventKind::End => {
                self.heard = [0; 32];
                if ends_epoch {
                    self.check_epoch();
                }
            }
            _ => {}
        }
        if self.site.phase() == SitePhase::Negotiation {
            self.check_informed();
        }
    }

    fn note_hearing(&mut self, event: Event) {
        let sender = self.area[PACKET_LENGTH * (event.with as usize - 1)];
        self.heard[event.node as usize - 1] |= set::single(u32::from(sender));
    }

    fn note_crash(&mut self, node: u32) {
        if let Some(candidate) = &mut self.candidate {
            candidate.crashed |= set::contains(candidate.live, node);
        }
    }

    fn check_close(&mut self, nodes: &[Node]) {
        if self.site.settings().may_split() {
            self.check_parts(nodes);
        }
        if let Some(candidate) = &mut self.candidate {
            let members = (1..=32).filter(|&node| set::contains(candidate.live, node));
            let full = members
                .map(|node| self.heard[node as usize - 1] | set::single(node))
                .all(|heard| candidate.live & !heard == 0);
            candidate.full += u32::from(full);
        }
        for node in nodes.iter().filter_map(Node::determination) {
            self.determined.get_or_insert(node);
        }
        for sender in self.site.live_nodes().filter(|node| node.sends()) {
            self.tally.senders += 1;
            assert!(sender.version > 0, "version 0 is sent");
        }
    }

    /// At a close of a site that may split no majority is asked for, and two
    /// complete nodes know the same, or of nodes with none in common.
    fn check_parts(&mut self, nodes: &[Node]) {
        let told = nodes.iter().map(|node| node.ground().rule);
        assert!(!told.into_iter().any(|rule| rule == Rule::Majority));
        let complete: Vec<&Node> = nodes.iter().filter(|node| node.is_complete()).collect();
        for (at, one) in complete.iter().enumerate() {
            for other in &complete[at + 1..] {
                let apart = one.round.flags & other.round.flags == 0;
                self.tally.complete_apart += usize::from(apart);
                self.tally.complete_together += usize::from(!apart);
                check_two(one, other);
            }
        }
    }

    /// An epoch has just begun.
    fn check_epoch(&mut self) {
        let determined = self.determined.take();
        if let Some(determined) = determined.filter(|_| !self.site.settings().may_split()) {
            self.check_heirs(&determined);
        }
        let calm = self.candidate.take().filter(|c| !c.crashed && c.full > 0);
        if let Some(calm) = &calm {
            self.check_calm(calm);
        }
        self.before = calm.map(|calm| (calm.live, calm.requests));
        self.candidate = candidate(&self.site);
    }

    fn check_heirs(&mut self, determined: &Determination) {
        for node in self.site.live_nodes() {
            self.tally.heirs += 1;
            self.tally.first_heirs += usize::from(determined.version == 1);
            let inherits =
                node.version == determined.version && node.schedule == determined.schedule;
            let below = node.version + 1 == determined.version;
            assert!(
                node.version == 0 || below || inherits,
                "a stranger's schedule"
            );
        }
    }

    fn check_calm(&mut self, calm: &Candidate) {
        let slots = self.site.settings().slots();
        let schedule = next_schedule(&calm.schedule, &calm.requests, slots);
        self.tally.calm_epochs += 1;
        let part = !set::is_majority(calm.live, self.site.settings().nodes());
        self.tally.calm_parts += usize::from(part);
        let twice = self.before == Some((calm.live, calm.requests));
        self.tally.calm_pairs += usize::from(twice);
        let targets = targets(&calm.requests, slots);
        let heard = self.site.settings().heard();
        let often = calm.full >= heard;
        self.tally.heard_often += usize::from(often && heard > 1);
        for id in (1..=32).filter(|&node| set::contains(calm.live, node)) {
            let node = self.site.live(id).expect("a member of a calm epoch");
            assert_eq!(node.version, calm.version + 1, "no next version");
            assert_eq!(node.schedule, schedule, "another schedule");
            assert!(!often || node.flags == calm.live, "other flags");
            if twice {
                let index = id as usize - 1;
                assert_eq!(schedule.counts()[index], targets[index]);
            }
        }
    }

    fn check_informed(&mut self) {
        let informed: Vec<&Node> = self
            .site
            .live_nodes()
            .filter(|node| node.round.flags & !requesters(&node.round.requests) == 0)
            .collect();
        for (at, one) in informed.iter().enumerate() {
            for other in &informed[at + 1..] {
                if one.round.flags & other.round.flags == 0 {
                    self.tally.none_in_common += 1;
                } else {
                    self.tally.same_requests += 1;
                }
                check_two(one, other);
            }
        }
    }
}

/// Of two nodes that lack no request.
fn check_two(one: &Node, other: &Node) {
    if one.round.flags & other.round.flags != 0 {
        assert_eq!(one.round.flags, other.round.flags, "other nodes");
        assert_eq!(one.round.requests, other.round.requests, "other requests");
    }
}

fn check_lists(flavour: Flavour, seeds: std::ops::Range<u64>) -> Tally {
    let mut tally = Tally::default();
    for seed in seeds {
        let scenario = random_scenario(seed, flavour);
        let mut monitor = Monitor::new(&scenario, &mut tally);
        for &event in &scenario.events {
            monitor.step(event);
        }
    }
    tally
}

#[test]
fn plausible_lists_keep_what_is_proved_of_epochs() {
    let tally = check_lists(Flavour::Plausible, 0..1_500);
    assert!(tally.senders > 10_000 && tally.heirs > 10_000, "{tally:?}");
    assert!(tally.first_heirs > 1_000, "{tally:?}");
    assert!(tally.same_requests > 100_000, "{tally:?}");
    assert!(
        tally.calm_epochs > 1_000 && tally.calm_pairs > 100,
        "{tally:?}"
    );
    assert!(tally.heard_often > 100, "{tally:?}");
    assert!(tally.complete_together > 10_000, "{tally:?}");
}

#[test]
fn chaotic_lists_keep_what_is_proved_of_epochs() {
    let tally = check_lists(Flavour::Chaotic, 0..10_000);
    assert!(tally.none_in_common > 1_000, "{tally:?}");
    assert!(tally.heirs > 1_000, "{tally:?}");
    assert!(
        tally.complete_apart > 1_000 && tally.complete_together > 1_000,
        "{tally:?}"
    );
    assert!(tally.calm_parts > 100, "{tally:?}");
}
