//! A site in lent memory, through its C calls, in lockstep with the site of the
//! second implementation: after each event the answers, the packet areas, the
//! tallies of slots held, the reports of a close and what a listing shows of
//! each node are the same, with windows and without.

#![forbid(unsafe_code)]

use compare::desk::{
    answer_of, figures, numbers, report_output, rows, shown, table_of, LentWords, SHOWN,
    TALLY_GUARD,
};
use compare::lent::Lent;
use compare::{calls, inputs, windows};
use reference::random::{random_scenario, Flavour, Random};
use reference::refusal::Refusal;
use reference::settings::Settings;
use reference::site::{Event, EventKind, PacketArea, Site, SitePhase, AREA_LENGTH, REPORTS_LENGTH};
use reference::tally::{Tally, MAX_EPOCHS};
use reference::windows::Window;

const WORDS: usize = 264;
const BYTES: usize = 24769;

/// A site in lent memory, of any length.
#[derive(Clone)]
struct Memory {
    words: LentWords,
    bytes: Lent,
    area: Lent,
    /// The tally, and one behind it, so that a write beyond it shows.
    tallies: [Tally; 2],
}

impl Memory {
    fn new(random: &mut Random, words: usize, bytes: usize, area: usize) -> Memory {
        Memory {
            words: LentWords::any(random, words),
            bytes: Lent::new(&inputs::bytes(random, bytes)),
            area: Lent::new(&inputs::bytes(random, area)),
            tallies: [any_tally(random), TALLY_GUARD],
        }
    }

    fn load(&mut self, figures: [u32; 5], rows: &[u32], day: u32, list: &[Window]) -> u32 {
        let words = self.words.contents_mut();
        let bytes = self.bytes.contents_mut();
        let tally = &mut self.tallies[0];
        calls::site_load(words, bytes, figures, rows, day, list, tally)
    }

    fn event(&mut self, event: [u32; 3], list: &[Window], reports: &mut [u8]) -> u32 {
        let words = self.words.contents_mut();
        let (bytes, area) = (self.bytes.contents_mut(), self.area.contents_mut());
        let tally = &mut self.tallies[0];
        calls::site_event(words, bytes, area, event, list, tally, reports)
    }

    fn node(&mut self, node: u32, output: &mut [u8]) -> u32 {
        let words = self.words.contents();
        calls::site_node(words, self.bytes.contents(), node, output)
    }

    fn is(&self, other: &Memory) -> bool {
        self.words == other.words
            && self.bytes.is(other.bytes.contents())
            && self.area.is(other.area.contents())
            && self.tallies == other.tallies
    }

    fn keeps_guards(&self) -> bool {
        self.words.keeps_guard()
            && self.bytes.is(self.bytes.contents())
            && self.tallies[1] == TALLY_GUARD
    }
}

/// A tally that breaks no rule, some of them full or nearly so.
fn valid_tally(random: &mut Random) -> Tally {
    let epochs = match random.below(4) {
        0 => MAX_EPOCHS,
        1 => MAX_EPOCHS - 1,
        _ => random.below(MAX_EPOCHS as usize + 1) as u32,
    };
    let mut tally = Tally {
        epochs,
        ..Tally::EMPTY
    };
    for index in 0..32 {
        let top = |random: &mut Random, most: u32| match random.below(4) {
            0 => most,
            1 => 0,
            _ => random.below(most as usize + 1) as u32,
        };
        tally.held[index] = top(random, epochs);
        tally.slots[index] = top(random, 80 * tally.held[index]);
    }
    tally.total = tally.slots.iter().sum();
    tally
}

/// A tally with one rule broken by as little as can be, or by any number.
fn broken_tally(random: &mut Random) -> Tally {
    let mut tally = valid_tally(random);
    let index = random.below(32);
    match random.below(6) {
        0 => tally.epochs = MAX_EPOCHS + 1,
        1 => tally.held[index] = tally.epochs + 1,
        2 => {
            tally.total -= tally.slots[index];
            tally.slots[index] = 80 * tally.held[index] + 1;
            tally.total += tally.slots[index];
        }
        3 => tally.total += 1,
        4 => tally.total = tally.total.wrapping_sub(1),
        _ => tally.slots[index] = u32::MAX - random.below(80) as u32,
    }
    tally
}

/// Any numbers, or a tally.
fn any_tally(random: &mut Random) -> Tally {
    match random.below(4) {
        0 => valid_tally(random),
        1 => broken_tally(random),
        _ => Tally {
            epochs: inputs::odd_number(random),
            total: inputs::odd_number(random),
            slots: std::array::from_fn(|_| inputs::odd_number(random)),
            held: std::array::from_fn(|_| inputs::odd_number(random)),
        },
    }
}

fn compare_nodes(random: &mut Random, memory: &mut Memory, site: &Site) {
    let nodes = site.settings().nodes();
    for node in 0..=nodes + 1 {
        let length = if random.chance(10) {
            random.below(SHOWN)
        } else {
            SHOWN + random.below(3)
        };
        let output = inputs::bytes(random, length);
        let mut lent = Lent::new(&output);
        let answer = memory.node(node, lent.contents_mut());
        let mut after = output;
        let expected = if length < SHOWN {
            15
        } else if node == 0 || node > nodes {
            3
        } else {
            after[..SHOWN].copy_from_slice(&shown(site, node));
            0
        };
        assert_eq!(answer, expected, "node {node}");
        assert!(lent.is(&after), "node {node}");
    }
}

/// Numbers that are no event, or hardly one.
fn odd(random: &mut Random) -> [u32; 3] {
    [
        random.pick(&[0, 1, 2, 3, 4, 5, 6, 7, 8, 9, 256, u32::MAX]),
        random.pick(&[0, 1, 2, 3, 33, 256, u32::MAX]),
        random.pick(&[0, 1, 2, 16, 257, u32::MAX]),
    ]
}

/// The answer of the second implementation to three numbers.
fn apply(
    site: &mut Site,
    area: &mut PacketArea,
    event: [u32; 3],
    list: &[Window],
    tally: &mut Tally,
    reports: &mut [u8],
) -> u32 {
    let [number_of, node, with] = event;
    let place = (number_of as usize).wrapping_sub(1);
    match EventKind::ALL.get(place) {
        Some(&kind) => {
            let event = Event { kind, node, with };
            answer_of(site.apply_kept(area, event, list, tally, reports))
        }
        None if reports.is_empty() || reports.len() >= REPORTS_LENGTH => 2,
        None => 15,
    }
}

const CLOSE: [u32; 3] = [3, 0, 0];
const END: [u32; 3] = [5, 0, 0];

/// An end that is lent a broken tally: in distribution it is refused for it, at
/// any place of the epoch, and nothing changes.
fn refused_end(
    random: &mut Random,
    memory: &mut Memory,
    site: &mut Site,
    area: &mut PacketArea,
    list: &[Window],
) {
    let kept = memory.tallies[0];
    memory.tallies[0] = broken_tally(random);
    let before = memory.clone();
    let expected = match site.phase() {
        SitePhase::Negotiation => 4,
        SitePhase::Distribution => 14,
    };
    let mut lent = memory.tallies[0];
    let answer = apply(site, area, END, list, &mut lent, &mut []);
    assert_eq!(answer, expected, "{lent:?}");
    assert_eq!(memory.event(END, list, &mut []), expected, "{lent:?}");
    assert!(memory.is(&before) && lent == before.tallies[0]);
    memory.tallies[0] = kept;
}

/// The list that an event is lent: that of the day, another one, or one that
/// breaks a rule.
fn lent_list(random: &mut Random, nodes: u32, day: u32, list: &[Window]) -> Vec<Window> {
    match random.below(12) {
        0 => windows::broken(random, nodes).1,
        1 => windows::good(random, nodes, day),
        2 => Vec::new(),
        _ => list.to_vec(),
    }
}

/// How often ends, reports and refusals of windows were met.
#[derive(Default)]
struct Met {
    ends: u32,
    reports: u32,
    windows: u32,
    short: u32,
}

fn lockstep(seed: u64, flavour: Flavour, met: &mut Met) {
    let mut random = Random::new(seed);
    let scenario = random_scenario(seed, flavour);
    let nodes = scenario.settings.nodes();
    let (day, list) = match random.below(3) {
        0 => (1, Vec::new()),
        _ => {
            let day = windows::day(&mut random);
            (day, windows::good(&mut random, nodes, day))
        }
    };
    let mut memory = Memory::new(&mut random, WORDS, BYTES, AREA_LENGTH);
    let mut site =
        Site::load_day(scenario.settings, &scenario.table, day, &list).expect("in range");
    let mut area: PacketArea = memory.area.contents().try_into().expect("its length");
    let table = rows(&scenario.table);
    let answer = memory.load(figures(&scenario.settings), &table, day, &list);
    assert_eq!(answer, 0);
    let mut tally = Tally::loaded(&site);
    assert_eq!(memory.tallies[0], tally);
    for event in scenario.events {
        refused_end(&mut random, &mut memory, &mut site, &mut area, &list);
        for event in [odd(&mut random), numbers(event)] {
            if random.chance(2) {
                tally = valid_tally(&mut random);
                memory.tallies[0] = tally;
            }
            let list = lent_list(&mut random, nodes, day, &list);
            let mut told = report_output(&mut random);
            let mut lent = Lent::new(&told);
            let before = memory.clone();
            let expected = apply(&mut site, &mut area, event, &list, &mut tally, &mut told);
            let answer = memory.event(event, &list, lent.contents_mut());
            assert_eq!(answer, expected, "{event:?} of seed {seed}");
            assert!(memory.area.is(&area), "{event:?} of seed {seed}");
            assert_eq!(memory.tallies[0], tally, "{event:?} of seed {seed}");
            assert!(lent.is(&told), "{event:?} of seed {seed}");
            assert!(expected == 0 || memory.is(&before), "{event:?}");
            met.ends += u32::from(event == END && expected == 0);
            met.reports += u32::from(event == CLOSE && expected == 0 && !told.is_empty());
            met.windows += u32::from(expected == 16);
            met.short += u32::from(expected == 15);
        }
        if random.chance(20) {
            compare_nodes(&mut random, &mut memory, &site);
        }
    }
    compare_nodes(&mut random, &mut memory, &site);
    assert!(memory.keeps_guards());
}

#[test]
fn random_events() {
    let mut met = Met::default();
    for flavour in [Flavour::Plausible, Flavour::Chaotic] {
        for seed in 0..400 {
            lockstep(seed, flavour, &mut met);
        }
    }
    assert!(met.ends > 5_000, "{}", met.ends);
    assert!(met.reports > 2_000, "{}", met.reports);
    assert!(met.windows > 1_000, "{}", met.windows);
    assert!(met.short > 1_000, "{}", met.short);
}

/// Loads of odd numbers, rows, lengths and windows: 15, 2, 16, and nothing is
/// written.
#[test]
fn loads() {
    let mut refused = [0u32; 17];
    for seed in 0..6_000 {
        let mut random = Random::new(seed);
        let scenario = random_scenario(seed, Flavour::Damaged);
        let mut given = figures(&scenario.settings);
        let mut list = rows(&scenario.table);
        if random.chance(30) {
            given[random.below(5)] = inputs::odd_number(&mut random);
        }
        if random.chance(30) {
            let at = random.below(list.len());
            list[at] = inputs::odd_number(&mut random);
        }
        if random.chance(20) {
            let length = random.below(list.len() + 4);
            list.resize(length, 1);
        }
        let few = |random: &mut Random, enough: usize| match random.below(6) {
            0 => enough - 1,
            1 => random.below(enough),
            2 => enough + random.below(9),
            _ => enough,
        };
        let words = few(&mut random, WORDS);
        let bytes = few(&mut random, BYTES);
        let nodes = scenario.settings.nodes();
        let (day, lent) = match random.below(3) {
            0 => (1, Vec::new()),
            1 => windows::broken(&mut random, nodes),
            _ => {
                let day = windows::day(&mut random);
                (day, windows::good(&mut random, nodes, day))
            }
        };
        let mut memory = Memory::new(&mut random, words, bytes, 0);
        let before = memory.clone();
        let answer = memory.load(given, &list, day, &lent);
        let site = second(given, &list, day, &lent);
        let expected = match &site {
            _ if words < WORDS || bytes < BYTES => 15,
            Err(refusal) => u32::from(refusal.number()),
            Ok(_) => 0,
        };
        assert_eq!(answer, expected, "{given:?} {list:?} {words} {bytes}");
        refused[answer as usize] += 1;
        if let (Ok(site), 0) = (site, answer) {
            compare_nodes(&mut random, &mut memory, &site);
            assert!(memory.keeps_guards());
        } else {
            assert!(memory.is(&before), "{given:?} {list:?}");
        }
    }
    for answer in [0, 2, 15, 16] {
        assert!(refused[answer] > 300, "{answer}: {refused:?}");
    }
}

/// The site of the second implementation, where it loads one.
fn second(given: [u32; 5], list: &[u32], day: u32, windows: &[Window]) -> Result<Site, Refusal> {
    let [nodes, slots, rounds, heard, split] = given;
    let settings = Settings::new(nodes, slots, rounds, heard, split)?;
    if list.len() != 3 * nodes as usize {
        return Err(Refusal::Value);
    }
    Site::load_day(settings, &table_of(list), day, windows)
}

/// Storage that is too short answers 15 to every event and every node.
#[test]
fn too_short() {
    let mut random = Random::new(7);
    for (words, bytes, area) in [
        (WORDS - 1, BYTES, AREA_LENGTH),
        (WORDS, BYTES - 1, AREA_LENGTH),
        (WORDS, BYTES, AREA_LENGTH - 1),
        (0, 0, 0),
    ] {
        let mut memory = Memory::new(&mut random, words, bytes, area);
        let before = memory.clone();
        for event in [[1, 1, 0], [2, 1, 1], [3, 0, 0], [5, 0, 0], [7, 1, 0]] {
            assert_eq!(memory.event(event, &[], &mut []), 15);
        }
        assert_eq!(memory.event([1, 1, 1], &[], &mut []), 15);
        if words < WORDS || bytes < BYTES {
            let mut lent = Lent::new(&[9; SHOWN]);
            assert_eq!(memory.node(1, lent.contents_mut()), 15);
            assert!(lent.is(&[9; SHOWN]));
        }
        assert!(memory.is(&before));
    }
}
