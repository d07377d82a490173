//! A group of sites in lent memory, through its C calls, in lockstep with the
//! group of the second implementation: after each call the answers, the packet
//! areas, the tallies and the reports are the same, a refused call has changed
//! nothing, and a listing shows the same of each node of each site.

#![forbid(unsafe_code)]

use compare::calls::{self, Lending};
use compare::desk::{
    answer_of, figures, numbers, report_output, rows, shown, table_of, LentWords, SHOWN,
    TALLY_GUARD,
};
use compare::lent::Lent;
use compare::{inputs, windows};
use reference::group::{Group, COMMON_SHARE, OWN_SHARE, PLACES, SITES};
use reference::random::{random_scenario, Flavour, Random, Scenario};
use reference::refusal::Refusal;
use reference::settings::Settings;
use reference::site::{Event, EventKind, Site, AREA_LENGTH};
use reference::tally::Tally;
use reference::windows::Window;

const WORDS: usize = SITES * 262;
const BYTES: usize = SITES * 24769;
const TABLE: usize = PLACES + 3 * SITES;

#[derive(Clone)]
struct Memory {
    words: LentWords,
    bytes: Lent,
    table: LentWords,
    area: Lent,
    /// A tally for each number, 0 and 9 among them, and one behind them.
    tallies: [Tally; SITES + 3],
}

impl Memory {
    fn new(random: &mut Random, [words, bytes, table, area]: [usize; 4]) -> Memory {
        Memory {
            words: LentWords::any(random, words),
            bytes: Lent::new(&inputs::bytes(random, bytes)),
            table: LentWords::any(random, table),
            area: Lent::new(&inputs::bytes(random, area)),
            tallies: [TALLY_GUARD; SITES + 3],
        }
    }

    fn whole(random: &mut Random) -> Memory {
        Memory::new(random, [WORDS, BYTES, TABLE, AREA_LENGTH])
    }

    fn lending(&mut self, number: u32) -> Lending<'_> {
        Lending {
            words: self.words.contents_mut(),
            bytes: self.bytes.contents_mut(),
            table: self.table.contents_mut(),
            tally: &mut self.tallies[number as usize],
        }
    }

    fn begin(&mut self) -> u32 {
        let lent = self.lending(0);
        calls::group_begin(lent.words, lent.bytes, lent.table)
    }

    fn load(
        &mut self,
        number: u32,
        figures: [u32; 5],
        rows: &[u32],
        day: u32,
        windows: &[Window],
    ) -> u32 {
        calls::group_load(self.lending(number), number, figures, rows, day, windows)
    }

    fn event(
        &mut self,
        number: u32,
        event: [u32; 3],
        windows: &[Window],
        reports: &mut [u8],
    ) -> u32 {
        let mut area = self.area.contents().to_vec();
        let lent = self.lending(number);
        let answer = calls::group_event(lent, &mut area, number, event, windows, reports);
        self.area.contents_mut().copy_from_slice(&area);
        answer
    }

    fn node(&mut self, number: u32, node: u32, output: &mut [u8]) -> u32 {
        calls::group_node(self.lending(number), number, node, output)
    }

    fn is(&self, other: &Memory) -> bool {
        self.words == other.words
            && self.bytes.is(other.bytes.contents())
            && self.table == other.table
            && self.area.is(other.area.contents())
            && self.tallies == other.tallies
    }

    fn keeps_guards(&self) -> bool {
        self.words.keeps_guard()
            && self.table.keeps_guard()
            && self.bytes.is(self.bytes.contents())
            && self.tallies[SITES + 2] == TALLY_GUARD
    }
}

fn compare_nodes(memory: &mut Memory, group: &Group) {
    for number in 0..=SITES as u32 + 1 {
        let nodes = group.site(number).map_or(1, |site| site.settings().nodes());
        for node in 0..=nodes + 1 {
            let mut output = [7; SHOWN];
            let answer = memory.node(number, node, &mut output);
            match group.site(number) {
                Some(site) if (1..=nodes).contains(&node) => {
                    assert_eq!((answer, output), (0, shown(site, node)), "{number} {node}");
                }
                _ => assert_eq!((answer, output), (3, [7; SHOWN]), "{number} {node}"),
            }
        }
    }
}

/// What is going on at each number: the events still to come, and its windows.
struct Story {
    scenario: Scenario,
    next: usize,
    windows: Vec<Window>,
}

struct Both {
    memory: Memory,
    group: Group,
    area: Vec<u8>,
    tallies: [Tally; SITES + 3],
    stories: Vec<Option<Story>>,
    answers: [u32; 19],
    reports: u32,
}

impl Both {
    fn new(random: &mut Random) -> Both {
        let mut memory = Memory::whole(random);
        assert_eq!(memory.begin(), 0);
        let area = memory.area.contents().to_vec();
        Both {
            memory,
            group: Group::default(),
            area,
            tallies: [TALLY_GUARD; SITES + 3],
            stories: (0..SITES).map(|_| None).collect(),
            answers: [0; 19],
            reports: 0,
        }
    }

    fn told(&mut self, answer: u32, expected: u32, before: &Memory, what: &str) {
        assert_eq!(answer, expected, "{what}");
        assert!(answer == 0 || self.memory.is(before), "{what}");
        assert!(self.memory.area.is(&self.area), "{what}");
        assert_eq!(self.memory.tallies, self.tallies, "{what}");
        self.answers[answer as usize] += 1;
    }

    fn load(&mut self, random: &mut Random, number: u32, flavour: Flavour) {
        let scenario = random_scenario(random.next_u64(), flavour);
        let nodes = scenario.settings.nodes();
        let (day, list) = match random.below(6) {
            0 => windows::broken(random, nodes),
            1 | 2 => (1, Vec::new()),
            _ => {
                let day = windows::day(random);
                (day, windows::good(random, nodes, day))
            }
        };
        let mut given = figures(&scenario.settings);
        let mut table = rows(&scenario.table);
        if random.chance(10) {
            given[random.below(5)] = inputs::odd_number(random);
        }
        if random.chance(10) {
            let length = random.below(table.len() + 4);
            table.resize(length, 1);
        }
        let [n, k, f, heard, split] = given;
        let settings = Settings::new(n, k, f, heard, split);
        let fits = table.len() == 3 * n as usize;
        let list_of = if fits { table_of(&table) } else { Vec::new() };
        let before = self.memory.clone();
        let answer = self.memory.load(number, given, &table, day, &list);
        let expected = match self.group.load(number, settings, &list_of, day, &list) {
            // Rows that are too many or too few are a line that is missing to a script.
            Err(Refusal::NamesLine) => 2,
            other => answer_of(other),
        };
        if let (0, Some(site)) = (expected, self.group.site(number)) {
            self.tallies[number as usize] = Tally::loaded(site);
        }
        self.told(answer, expected, &before, "load");
        if answer == 0 {
            let windows = list;
            self.stories[number as usize - 1] = Some(Story {
                scenario,
                next: 0,
                windows,
            });
        }
    }

    /// An event, with an output for reports: empty, long enough or too short.
    /// Now and then the tally breaks a rule.
    fn event(&mut self, random: &mut Random, number: u32, event: Event, list: &[Window]) {
        let output = report_output(random);
        let at = number as usize;
        let kept = self.tallies[at];
        if random.chance(5) {
            self.tallies[at].total ^= 1;
            self.memory.tallies[at].total ^= 1;
        }
        let before = self.memory.clone();
        let (mut lent, mut reports) = (Lent::new(&output), output.clone());
        let answer = self
            .memory
            .event(number, numbers(event), list, lent.contents_mut());
        let tally = &mut self.tallies[at];
        let applied = self
            .group
            .apply(&mut self.area, number, event, list, tally, &mut reports);
        let what = format!("{number}: {event}");
        self.told(answer, answer_of(applied), &before, &what);
        assert!(lent.is(&reports), "{what}");
        self.reports += u32::from(reports != output);
        if answer != 0 {
            self.tallies[at] = kept;
            self.memory.tallies[at] = kept;
        }
    }

    /// The next event of a number's scenario.
    fn go_on(&mut self, random: &mut Random, number: u32) {
        let at = (number as usize).wrapping_sub(1);
        let Some(Some(story)) = self.stories.get_mut(at) else {
            let send = Event {
                kind: EventKind::Send,
                node: 1,
                with: 0,
            };
            return self.event(random, number, send, &[]);
        };
        let Some(&event) = story.scenario.events.get(story.next) else {
            story.next = 0;
            return;
        };
        story.next += 1;
        let nodes = story.scenario.settings.nodes();
        let list = match random.below(20) {
            0 => windows::broken(random, nodes).1,
            1 => Vec::new(),
            _ => story.windows.clone(),
        };
        self.event(random, number, event, &list);
    }
}

fn lockstep(seed: u64, flavour: Flavour) -> ([u32; 19], u32) {
    let mut random = Random::new(seed);
    let mut both = Both::new(&mut random);
    for step in 0..1_500 {
        let number = random.below(10) as u32;
        if step < 12 || random.chance(2) {
            both.load(&mut random, number, flavour);
        } else {
            both.go_on(&mut random, number);
        }
        if random.chance(1) {
            compare_nodes(&mut both.memory, &both.group);
        }
    }
    compare_nodes(&mut both.memory, &both.group);
    assert!(both.memory.keeps_guards());
    (both.answers, both.reports)
}

#[test]
fn random_calls() {
    let mut answers = [0; 19];
    let mut reports = 0;
    for flavour in [Flavour::Plausible, Flavour::Chaotic] {
        for seed in 0..40 {
            let (told, more) = lockstep(seed, flavour);
            reports += more;
            for (sum, n) in answers.iter_mut().zip(told) {
                *sum += n;
            }
        }
    }
    for answer in [0, 2, 3, 14, 15, 16] {
        assert!(answers[answer] > 50, "{answer}: {answers:?}");
    }
    assert!(reports > 50, "{reports}");
}

fn crowd(random: &mut Random) -> Scenario {
    loop {
        let scenario = random_scenario(random.next_u64(), Flavour::Plausible);
        if scenario.settings.nodes() >= 20 {
            return scenario;
        }
    }
}

/// Sites with many nodes that all send: the common places run out, and closes
/// and loads free them.
#[test]
fn crowded_groups() {
    let mut answers = [0u32; 19];
    let (mut full, mut last) = (0, 0);
    for seed in 0..30 {
        let mut random = Random::new(seed);
        let mut both = Both::new(&mut random);
        for number in 1..=SITES as u32 {
            let scenario = crowd(&mut random);
            let (given, table) = (figures(&scenario.settings), rows(&scenario.table));
            assert_eq!(both.memory.load(number, given, &table, 1, &[]), 0);
            let loaded = both
                .group
                .load(number, Ok(scenario.settings), &scenario.table, 1, &[]);
            assert_eq!(loaded, Ok(()));
            both.tallies[number as usize] = both.memory.tallies[number as usize];
        }
        for _ in 0..4_000 {
            let number = 1 + random.below(SITES) as u32;
            let node = 1 + random.below(33) as u32;
            let kind = random.pick(&[EventKind::Send; 12]);
            let event = match random.below(120) {
                0 => Event {
                    kind: EventKind::Close,
                    node: 0,
                    with: 0,
                },
                1..=3 => Event {
                    kind: EventKind::End,
                    node: 0,
                    with: 0,
                },
                4 => Event {
                    kind: EventKind::Crash,
                    node,
                    with: 0,
                },
                5..=40 => Event {
                    kind: EventKind::Hear,
                    node,
                    with: random.below(150) as u32,
                },
                _ => Event {
                    kind,
                    node,
                    with: 0,
                },
            };
            both.event(&mut random, number, event, &[]);
            full += u32::from(both.group.used() == PLACES);
            last += u32::from(both.group.common() == COMMON_SHARE);
            assert!(both.group.common() <= COMMON_SHARE);
            let least = both.group.site(number).map_or(0, Site::packets);
            assert!(least <= OWN_SHARE + COMMON_SHARE);
        }
        compare_nodes(&mut both.memory, &both.group);
        for (sum, n) in answers.iter_mut().zip(both.answers) {
            *sum += n;
        }
    }
    assert!(
        answers[17] > 1_000 && full > 100 && last > 1_000,
        "{answers:?} {full} {last}"
    );
}

/// Memory that is too short is refused as 15 by a number from 1 to 8, and as 3 by
/// another. An area or an output for reports that is too short is refused as 15 by
/// a number that is loaded, before 2 for numbers that make no event.
#[test]
fn too_short() {
    let mut random = Random::new(7);
    let rows = [1, 1, 1];
    for lengths in [
        [WORDS - 1, BYTES, TABLE, AREA_LENGTH],
        [WORDS, BYTES - 1, TABLE, AREA_LENGTH],
        [WORDS, BYTES, TABLE - 1, AREA_LENGTH],
        [0, 0, 0, 0],
    ] {
        let mut memory = Memory::new(&mut random, lengths);
        memory.table.contents_mut().fill(1);
        let before = memory.clone();
        assert_eq!(memory.begin(), 15);
        assert_eq!(memory.load(1, [1, 1, 1, 1, 0], &rows, 1, &[]), 15);
        assert_eq!(memory.load(1, [1, 1, 1, 1, 0], &rows[1..], 1, &[]), 15);
        assert_eq!(memory.load(9, [1, 1, 1, 1, 0], &rows, 1, &[]), 3);
        assert_eq!(memory.load(0, [0; 5], &[], 0, &[]), 3);
        assert_eq!(memory.event(1, [1, 1, 0], &[], &mut []), 15);
        assert_eq!(memory.event(1, [9, 1, 0], &[], &mut []), 15);
        assert_eq!(memory.event(9, [1, 1, 0], &[], &mut []), 3);
        assert_eq!(memory.node(1, 1, &mut [0; SHOWN]), 15);
        assert_eq!(memory.node(9, 1, &mut [0; SHOWN]), 3);
        assert!(memory.is(&before));
    }
    for (area, output) in [(AREA_LENGTH - 1, 0), (AREA_LENGTH, 1), (AREA_LENGTH, 63)] {
        let mut memory = Memory::new(&mut random, [WORDS, BYTES, TABLE, area]);
        assert_eq!(memory.begin(), 0);
        assert_eq!(memory.load(1, [1, 1, 1, 1, 0], &rows, 1, &[]), 0);
        let before = memory.clone();
        let mut reports = vec![7; output];
        assert_eq!(memory.event(1, [1, 1, 0], &[], &mut reports), 15);
        assert_eq!(memory.event(1, [1, 1, 1], &[], &mut reports), 15);
        assert_eq!(memory.event(2, [1, 1, 0], &[], &mut reports), 3);
        assert!(memory.is(&before) && reports == vec![7; output]);
    }
}

/// A list of more than 64 windows is refused as 16.
#[test]
fn too_many_windows() {
    let mut random = Random::new(11);
    let mut memory = Memory::whole(&mut random);
    assert_eq!(memory.begin(), 0);
    let many: Vec<Window> = (0..66)
        .map(|first| Window {
            node: 1,
            first,
            end: first + 1,
            demand: 3,
        })
        .collect();
    for length in 0..=many.len() {
        let expected = if length <= 64 { 0 } else { 16 };
        let answer = memory.load(1, [1, 1, 1, 1, 0], &[1, 1, 1], 100, &many[..length]);
        assert_eq!(answer, expected, "{length}");
        let answer = memory.event(1, [1, 1, 0], &many[..length], &mut []);
        let sent = if length <= 64 { 0 } else { 16 };
        assert_eq!(answer, sent, "{length}");
    }
}
