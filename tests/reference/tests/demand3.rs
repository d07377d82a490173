//! Demand 3, checked on random event lists of sites with `split` 0: agreement
//! in negotiation, a majority behind each determined version, and one
//! determination an epoch.

#![forbid(unsafe_code)]

use reference::allotment::NO_REQUEST;
use reference::node::{Determination, Node};
use reference::random::{random_scenario, Flavour, Random, Scenario};
use reference::set;
use reference::site::{Event, EventKind, PacketArea, Site, SitePhase, AREA_LENGTH};

/// How much the lists gave the checks to do; all of it may not be nothing.
#[derive(Default, Debug)]
struct Tally {
    determinations: usize,
    /// Determinations after another one of the same epoch, at another close.
    later_determinations: usize,
    /// Pairs of nodes met in negotiation with equal versions above 0.
    equal_pairs: usize,
    /// Pairs of nodes met in negotiation with versions above 0, one apart.
    adjacent_pairs: usize,
    top_version: u32,
}

/// A site under observation.
struct Monitor<'a> {
    site: Site,
    area: Box<PacketArea>,
    /// Version and request of each live node at the round's start.
    held: Vec<Option<(u32, u32)>>,
    /// The first determination of this epoch.
    determined: Option<Determination>,
    tally: &'a mut Tally,
}

impl<'a> Monitor<'a> {
    fn new(scenario: &Scenario, tally: &'a mut Tally) -> Monitor<'a> {
        let site = Site::load(scenario.settings, &scenario.table).expect("an accepted table");
        let mut area = Box::new([0; AREA_LENGTH]);
        // At the start the area may hold anything.
        let mut random = Random::new(scenario.events.len() as u64);
        area.fill_with(|| random.next_u32() as u8);
        let held = held(&site);
        Monitor {
            site,
            area,
            held,
            determined: None,
            tally,
        }
    }

    fn step(&mut self, event: Event) {
        let before: Vec<Node> = self.site.live_nodes().copied().collect();
        if self.site.apply(&mut self.area, event).is_ok() {
            match event.kind {
                EventKind::Close => self.check_close(&before),
                EventKind::End => self.start_round(),
                _ => {}
            }
        }
        if self.site.phase() == SitePhase::Negotiation {
            self.check_agreement();
        }
    }

    fn start_round(&mut self) {
        self.held = held(&self.site);
        if self.site.place() == 0 {
            self.determined = None;
        }
    }

    fn check_close(&mut self, before: &[Node]) {
        let earlier = self.determined.is_some();
        for determination in before.iter().filter_map(Node::determination) {
            self.tally.determinations += 1;
            self.tally.later_determinations += usize::from(earlier);
            self.check_requests(&determination);
            let first = *self.determined.get_or_insert(determination);
            assert_eq!(first, determination, "two determinations in an epoch");
        }
    }

    /// More than half of all nodes, each with the request it held at the
    /// round's start at the version just below.
    fn check_requests(&self, determination: &Determination) {
        let nodes = self.site.settings().nodes();
        assert!(set::is_majority(determination.nodes, nodes), "no majority");
        for node in 1..=nodes {
            let index = node as usize - 1;
            let request = determination.requests[index];
            let used = request != NO_REQUEST;
            assert_eq!(used, set::contains(determination.nodes, node));
            if used {
                let expected = Some((determination.version - 1, u32::from(request)));
                assert_eq!(self.held[index], expected, "a request not held");
            }
        }
    }

    fn check_agreement(&mut self) {
        let scheduled: Vec<&Node> = self
            .site
            .live_nodes()
            .filter(|node| node.version > 0)
            .collect();
        for (at, one) in scheduled.iter().enumerate() {
            self.tally.top_version = self.tally.top_version.max(one.version);
            for other in &scheduled[at + 1..] {
                match one.version.abs_diff(other.version) {
                    0 => self.tally.equal_pairs += 1,
                    1 => self.tally.adjacent_pairs += 1,
                    _ => panic!("versions {} and {}", one.version, other.version),
                }
                check_pair(one, other);
            }
        }
    }
}

fn check_pair(one: &Node, other: &Node) {
    if one.version == other.version {
        assert_eq!(one.schedule, other.schedule, "two schedules of a version");
    }
    let shared = |(&a, &b): (&u8, &u8)| a != b && a != 0 && b != 0;
    let (ours, theirs) = (one.schedule.owners(), other.schedule.owners());
    assert!(!ours.iter().zip(&theirs).any(shared), "a slot given to different nodes");
}

fn held(site: &Site) -> Vec<Option<(u32, u32)>> {
    (1..=site.settings().nodes())
        .map(|node| site.live(node).map(|live| (live.version, live.request)))
        .collect()
}

fn check_lists(flavour: Flavour, seeds: std::ops::Range<u64>) -> Tally {
    let mut tally = Tally::default();
    for seed in seeds {
        let scenario = random_scenario(seed, flavour);
        if scenario.settings.may_split() {
            continue;
        }
        let mut monitor = Monitor::new(&scenario, &mut tally);
        for &event in &scenario.events {
            monitor.step(event);
        }
    }
    tally
}

/// The checks say nothing about sites in which nothing happens.
fn assert_eventful(tally: &Tally, top_version: u32) {
    assert!(tally.determinations > 10_000, "{tally:?}");
    assert!(tally.later_determinations > 3_000, "{tally:?}");
    assert!(tally.equal_pairs > 1_000_000, "{tally:?}");
    assert!(tally.adjacent_pairs > 20_000, "{tally:?}");
    assert!(tally.top_version >= top_version, "{tally:?}");
}

#[test]
fn plausible_lists_keep_demand_3() {
    let tally = check_lists(Flavour::Plausible, 0..2_000);
    assert_eventful(&tally, 30);
}

#[test]
fn chaotic_lists_keep_demand_3() {
    let tally = check_lists(Flavour::Chaotic, 0..27_000);
    assert_eventful(&tally, 5);
}

/// Finds rarer faults, in some minutes: `cargo test --release -- --ignored`.
#[test]
#[ignore = "takes minutes"]
fn many_more_lists_keep_demand_3() {
    check_lists(Flavour::Chaotic, 27_000..1_300_000);
    check_lists(Flavour::Plausible, 2_000..52_000);
}
