//! `hydra_replay` beside the replays of the second implementation and in plain C.

#![forbid(unsafe_code)]

use std::collections::BTreeMap;

use compare::lent::Lent;
use compare::scripts::{self, reasons_room, room};
use compare::{inputs, windows};
use reference::random::{random_script, Flavour, Random};
use reference::script::{replay_day, replay_in, why, why_day, MAX_SCRIPT};
use reference::site::AREA_LENGTH;
use reference::windows::Window;

/// How often each refusal number was printed.
type Refusals = BTreeMap<u32, u64>;

/// A script, and the lengths of the packet area and the output lent with it.
struct Run<'a> {
    script: &'a [u8],
    area: usize,
    output: usize,
}

impl Run<'_> {
    /// With the least lengths that are accepted.
    fn tight(script: &[u8]) -> Run<'_> {
        Run {
            script,
            area: AREA_LENGTH,
            output: room(script.len()),
        }
    }

    /// The answer of the second implementation, which has no output to lend:
    /// the refusal, the written bytes, and the packet area.
    fn expected(&self, area: &[u8]) -> (u32, Vec<u8>, Vec<u8>) {
        let mut area = area.to_vec();
        if self.output < room(self.script.len()) {
            return (15, Vec::new(), area);
        }
        let printed = replay_in(self.script, &mut area);
        (0, printed, area)
    }

    /// Runs the script in all implementations, in a packet area and an output
    /// that hold anything, and returns what was printed.
    fn compare(&self, random: &mut Random) -> Vec<u8> {
        let area = inputs::bytes(random, self.area);
        let output = inputs::bytes(random, self.output);
        let before = random.next_u32();
        let (refusal, printed, area_after) = self.expected(&area);
        let mut output_after = output.clone();
        output_after[..printed.len()].copy_from_slice(&printed);
        let length_after = match refusal {
            0 => printed.len() as u32,
            _ => before,
        };

        let script = Lent::new(self.script);
        let mut lent_area = Lent::new(&area);
        let mut lent_output = Lent::new(&output);
        let mut length = before;
        let answer = compare::calls::replay(
            script.contents(),
            lent_area.contents_mut(),
            lent_output.contents_mut(),
            &mut length,
        );

        let text = String::from_utf8_lossy(self.script);
        assert_eq!((answer, length), (refusal, length_after), "{text}");
        let written = &lent_output.contents()[..printed.len()];
        assert!(
            written == printed,
            "{}\nprinted for\n{text}",
            shown(written)
        );
        assert!(
            lent_output.is(&output_after),
            "bytes behind the output of\n{text}"
        );
        assert!(lent_area.is(&area_after), "the packet area after\n{text}");
        assert!(script.is(self.script), "a changed script:\n{text}");
        let mut plain_area = Lent::new(&area);
        let mut plain_output = Lent::new(&output);
        let mut length = before;
        let answer = compare::plain::replay(
            self.script,
            plain_area.contents_mut(),
            plain_output.contents_mut(),
            &mut length,
        );
        assert_eq!((answer, length), (refusal, length_after), "{text}");
        assert!(plain_output.is(&output_after), "plain C on\n{text}");
        assert!(
            plain_area.is(&area_after),
            "plain C's packet area after\n{text}"
        );
        printed
    }
}

fn shown(bytes: &[u8]) -> String {
    String::from_utf8_lossy(bytes).into_owned()
}

/// Adds the refusals under the first head of a listing.
fn count(refusals: &mut Refusals, printed: &[u8]) {
    let text = std::str::from_utf8(printed).expect("a listing is text");
    let rows = text.lines().skip(1);
    for row in rows.take_while(|row| !row.starts_with("node")) {
        let (_, number) = row.split_once(' ').expect("two fields");
        let number = number.parse().expect("a refusal number");
        *refusals.entry(number).or_default() += 1;
    }
}

fn compare_flavour(flavour: Flavour, seeds: u64) -> Refusals {
    let mut refusals = Refusals::new();
    for seed in 0..seeds {
        let script = random_script(seed, flavour);
        let printed = Run::tight(&script).compare(&mut Random::new(seed));
        count(&mut refusals, &printed);
    }
    println!("{flavour:?}: {refusals:?}");
    refusals
}

fn numbers(refusals: &Refusals) -> Vec<u32> {
    refusals.keys().copied().collect()
}

#[test]
fn plausible_scripts() {
    let refusals = compare_flavour(Flavour::Plausible, 3_000);
    assert_eq!(numbers(&refusals), [2, 3, 4, 5, 6, 7, 8, 9, 10]);
}

#[test]
fn chaotic_scripts() {
    let refusals = compare_flavour(Flavour::Chaotic, 4_000);
    assert_eq!(numbers(&refusals), [2, 3, 4, 5, 6, 7, 8, 9, 10]);
}

/// Every refusal that a script can reach. A site's own packets are never
/// refused as 11 to 13, and there is no node area for 14.
#[test]
fn damaged_scripts() {
    let refusals = compare_flavour(Flavour::Damaged, 12_000);
    assert_eq!(numbers(&refusals), [1, 2, 3, 4, 5, 6, 7, 8, 9, 10, 15]);
}

#[test]
fn careless_lines() {
    let mut random = Random::new(1);
    for _ in 0..8_000 {
        let script = scripts::careless(&mut random);
        Run::tight(&script).compare(&mut random);
    }
}

#[test]
fn sites_of_known_kinds() {
    let mut random = Random::new(2);
    for nodes in 1..=32 {
        for length in [1_500, MAX_SCRIPT - 1, MAX_SCRIPT] {
            let scripts = [
                scripts::mesh(nodes, 1, length),
                scripts::mesh(nodes, 3, length),
                scripts::distribution(nodes, 2, length),
                scripts::silence(nodes, length),
                scripts::refusals(nodes, length),
            ];
            for script in scripts {
                Run::tight(&script).compare(&mut random);
            }
        }
    }
}

/// The whole case (specification, 8 Listing), up to its events.
const HEAD: &[u8] = b"nodes slots rounds heard split\n3 4 1 1 0\nnode version flags want\n\
    1 1 7 2\n2 1 7 2\n3 1 7 2\nevent node with\n";

/// The same of a site that may split.
const SPLIT_HEAD: &[u8] = b"nodes slots rounds heard split\n3 4 1 1 1\nnode version flags want\n\
    1 1 7 2\n2 1 7 2\n3 1 7 2\nevent node with\n";

const EVENTS: &[u8] = b"send 2 0\nsend 3 0\nhear 1 1\nhear 1 2\nclose 0 0\n\
    take 3 2\ntake 2 1\nend 0 0\nwant 1 15\ncrash 3 0\nrestart 3 4\n";

/// Bytes that mean something in a script, and their neighbours.
const BYTES: &[u8] = b"\n\x0b\t\r \x00/0123456789:+-,aehklnoprstvwx\x80\xff";

/// Each byte of a small script replaced, removed, and put before another one.
#[test]
fn every_byte_of_a_script() {
    let mut random = Random::new(3);
    for head in [HEAD, SPLIT_HEAD] {
        let script = [head, EVENTS].concat();
        for at in 0..=script.len() {
            Run::tight(&script[..at]).compare(&mut random);
            let (front, rest) = script.split_at(at);
            let behind = rest.get(1..).unwrap_or(&[]);
            Run::tight(&[front, behind].concat()).compare(&mut random);
            for &byte in BYTES {
                Run::tight(&[front, &[byte], behind].concat()).compare(&mut random);
                Run::tight(&[front, &[byte], rest].concat()).compare(&mut random);
            }
        }
    }
}

#[test]
fn random_bytes() {
    let mut random = Random::new(4);
    for round in 0..4_000 {
        let length = random.below(300);
        let noise = if round % 2 == 0 {
            inputs::bytes(&mut random, length)
        } else {
            (0..length).map(|_| random.pick(BYTES)).collect()
        };
        Run::tight(&noise).compare(&mut random);
        Run::tight(&[HEAD, &noise].concat()).compare(&mut random);
    }
}

/// Scripts at the greatest length and beyond; the shortest lines print most.
#[test]
fn longest_scripts() {
    let mut random = Random::new(5);
    for length in [MAX_SCRIPT - 1, MAX_SCRIPT, MAX_SCRIPT + 1, 100_000] {
        for line in ["\n", "x\n", "end 0 0\n", "want 1 16\n"] {
            for head in [HEAD, SPLIT_HEAD] {
                let lines = line.bytes().cycle().take(length - head.len());
                let script: Vec<u8> = head.iter().copied().chain(lines).collect();
                let printed = Run::tight(&script).compare(&mut random);
                assert_eq!(printed == b"line refusal\n0 15\n", length > MAX_SCRIPT);
            }
        }
        let blank = vec![b'\n'; length];
        Run::tight(&blank).compare(&mut random);
    }
}

/// An output one byte below the room that is asked for changes nothing; with
/// more room, and a longer packet area, the bytes beyond stay.
#[test]
fn room_of_the_output() {
    let mut random = Random::new(6);
    for seed in 0..400 {
        let script = random_script(seed, Flavour::Damaged);
        let needed = room(script.len());
        let any = random.below(needed);
        for output in [0, any, needed - 1, needed, needed + 1, needed + 777] {
            for area in [AREA_LENGTH, AREA_LENGTH + 45] {
                let script = &script[..];
                let run = Run {
                    script,
                    area,
                    output,
                };
                let printed = run.compare(&mut random);
                assert_eq!(printed.is_empty(), output < needed);
            }
        }
    }
}

/// A packet area that is too short is reported at line 0, whatever the script.
#[test]
fn short_packet_areas() {
    let mut random = Random::new(7);
    for seed in 0..100 {
        let script = random_script(seed, Flavour::ALL[seed as usize % 3]);
        for area in [0, 1, AREA_LENGTH - 45, AREA_LENGTH - 1] {
            let needed = room(script.len());
            for output in [needed - 1, needed] {
                let script = &script[..];
                let run = Run {
                    script,
                    area,
                    output,
                };
                let printed = run.compare(&mut random);
                assert!(printed.is_empty() || printed == b"line refusal\n0 15\n");
            }
        }
    }
}

/// A part of the reasons, in a packet area and an output that hold anything;
/// the area is left as by a replay, and bytes behind the part as they were.
fn reasons_part(
    script: &[u8],
    part: u32,
    (day, list): (u32, &[Window]),
    random: &mut Random,
) -> Vec<u8> {
    let area = inputs::bytes(random, AREA_LENGTH);
    let output = inputs::bytes(random, reasons_room(script.len()));
    let mut area_after = area.clone();
    replay_day(script, &mut area_after, day, list);
    let mut lent_area = Lent::new(&area);
    let mut lent_output = Lent::new(&output);
    let mut length = 0;
    let answer = compare::calls::why_day(
        script,
        part,
        lent_area.contents_mut(),
        lent_output.contents_mut(),
        &mut length,
        day,
        list,
    );
    let text = String::from_utf8_lossy(script);
    assert_eq!(answer, 0, "{text}");
    let printed = lent_output.contents()[..length as usize].to_vec();
    let mut output_after = output.clone();
    output_after[..printed.len()].copy_from_slice(&printed);
    assert!(
        lent_output.is(&output_after),
        "bytes behind part {part} of\n{text}"
    );
    assert!(lent_area.is(&area_after), "the packet area after\n{text}");
    printed
}

/// The parts, one behind another, are what the second implementation prints;
/// an output a byte too short is refused, and nothing changes.
fn compare_reasons(script: &[u8], (day, list): (u32, &[Window]), random: &mut Random) -> Vec<u8> {
    let parts = (0..=33).map(|part| reasons_part(script, part, (day, list), random));
    let printed = parts.collect::<Vec<_>>().concat();
    let text = String::from_utf8_lossy(script);
    assert!(
        printed == why_day(script, day, list),
        "{}\ntold for\n{text}\n{day} {list:?}",
        shown(&printed)
    );
    let area = inputs::bytes(random, AREA_LENGTH);
    let output = inputs::bytes(random, reasons_room(script.len()) - 1);
    let mut lent_area = Lent::new(&area);
    let mut lent_output = Lent::new(&output);
    let mut length = 7;
    let answer = compare::calls::why_day(
        script,
        1,
        lent_area.contents_mut(),
        lent_output.contents_mut(),
        &mut length,
        day,
        list,
    );
    assert_eq!((answer, length), (15, 7));
    assert!(lent_area.is(&area) && lent_output.is(&output));
    printed
}

#[test]
fn reasons() {
    let mut random = Random::new(2);
    for (flavour, seeds) in [
        (Flavour::Plausible, 300),
        (Flavour::Chaotic, 300),
        (Flavour::Damaged, 400),
    ] {
        for seed in 0..seeds {
            compare_reasons(&random_script(seed, flavour), (1, &[]), &mut random);
        }
    }
    for _ in 0..200 {
        compare_reasons(&scripts::careless(&mut random), (1, &[]), &mut random);
    }
}

/// With windows that are accepted a script's reasons are those without them;
/// windows that break the rules are refused as 16 in part 0.
#[test]
fn reasons_with_windows() {
    let mut random = Random::new(8);
    let (mut told, mut refused) = (0, 0);
    for seed in 0..300 {
        let script = random_script(seed, Flavour::ALL[seed as usize % 3]);
        let nodes = windows::nodes(&script);
        let day = windows::day(&mut random);
        let list = windows::good(&mut random, nodes, day);
        let printed = compare_reasons(&script, (day, &list), &mut random);
        assert!(printed == why(&script), "{}", shown(&printed));
        told += usize::from(printed.len() > 23);
        let (day, list) = windows::broken(&mut random, nodes);
        let printed = compare_reasons(&script, (day, &list), &mut random);
        refused += usize::from(printed.ends_with(b"\n0 16\n"));
    }
    assert!(told > 100 && refused > 100, "{told} {refused}");
}
