//! Demands by the hour: `hydra_replay` with windows and `hydra_demand`, beside
//! the second implementation, and the replay beside that in plain C too.

#![forbid(unsafe_code)]

use compare::lent::Lent;
use compare::scripts::{self, room};
use compare::{calls, inputs, plain, windows};
use reference::random::{random_script, Flavour, Random};
use reference::script::replay_day;
use reference::settings::Settings;
use reference::site::AREA_LENGTH;
use reference::windows::{due, require_windows, Window};

/// Runs a script in both implementations and in plain C, and returns what was
/// printed.
fn compare(random: &mut Random, script: &[u8], day: u32, list: &[Window]) -> Vec<u8> {
    let before = inputs::bytes(random, AREA_LENGTH);
    let output = inputs::bytes(random, room(script.len()));
    let mut lent_area = Lent::new(&before);
    let mut lent_output = Lent::new(&output);
    let mut length = 0;
    let answer = calls::replay_day(
        script,
        lent_area.contents_mut(),
        lent_output.contents_mut(),
        &mut length,
        day,
        list,
    );
    let mut area = before.clone();
    let printed = replay_day(script, &mut area, day, list);
    let mut output_after = output.clone();
    output_after[..printed.len()].copy_from_slice(&printed);
    let text = String::from_utf8_lossy(script);
    let expect = |by: &str, answer: u32, length: u32, written: &Lent, packets: &Lent| {
        assert_eq!(
            (answer, length as usize),
            (0, printed.len()),
            "{by} on\n{text}\n{day} {list:?}"
        );
        assert!(
            written.is(&output_after),
            "{by} wrote\n{}\nexpected\n{}\nfor\n{text}\n{day} {list:?}",
            String::from_utf8_lossy(&written.contents()[..printed.len()]),
            String::from_utf8_lossy(&printed)
        );
        assert!(packets.is(&area), "the packet area of {by} after\n{text}");
    };
    expect("the call", answer, length, &lent_output, &lent_area);
    let mut plain_area = Lent::new(&before);
    let mut plain_output = Lent::new(&output);
    length = 0;
    let answer = plain::replay_day(
        script,
        plain_area.contents_mut(),
        plain_output.contents_mut(),
        &mut length,
        day,
        list,
    );
    expect("plain C", answer, length, &plain_output, &plain_area);
    printed
}

const REFUSED: &[u8] = b"line refusal\n0 16\n";

/// Refused as 16, under either head.
fn is_refused(printed: &[u8]) -> bool {
    printed == REFUSED || printed == b"line refusal split\n0 16\n"
}

#[test]
fn random_scripts_with_good_windows() {
    for flavour in Flavour::ALL {
        for seed in 0..2_000 {
            let mut random = Random::new(seed);
            let script = random_script(seed, flavour);
            let day = windows::day(&mut random);
            let list = windows::good(&mut random, windows::nodes(&script), day);
            let printed = compare(&mut random, &script, day, &list);
            assert!(!is_refused(&printed), "{day} {list:?}");
        }
    }
}

#[test]
fn random_scripts_with_broken_windows() {
    let mut refused = 0;
    for flavour in Flavour::ALL {
        for seed in 0..2_000 {
            let mut random = Random::new(seed);
            let script = random_script(seed, flavour);
            let (day, list) = windows::broken(&mut random, windows::nodes(&script));
            let printed = compare(&mut random, &script, day, &list);
            refused += u32::from(is_refused(&printed));
        }
    }
    assert!(refused > 4_000, "{refused}");
}

/// Sites whose epochs pass, so that demands come and go and wrap round the day.
#[test]
fn sites_of_known_kinds() {
    let mut random = Random::new(1);
    for count in 1..=32 {
        for rounds in [1, 3] {
            let kinds = [
                scripts::mesh(count, rounds, 12_000),
                scripts::distribution(count, 1, 6_000),
                scripts::silence(count, 4_000),
            ];
            for script in kinds {
                let day = windows::day(&mut random);
                let list = windows::good(&mut random, count, day);
                compare(&mut random, &script, day, &list);
            }
        }
    }
}

#[test]
fn sixty_four_windows_and_one_more() {
    let mut random = Random::new(2);
    let script = scripts::mesh(3, 1, 9_000);
    for day in [64, 65, 1440] {
        let mut list = windows::full(&mut random);
        assert_ne!(compare(&mut random, &script, day, &list), REFUSED);
        let more = Window {
            node: 2,
            first: 0,
            end: 1,
            demand: 1,
        };
        list.push(more);
        assert_eq!(compare(&mut random, &script, day, &list), REFUSED);
        list.resize(1_000, more);
        assert_eq!(compare(&mut random, &script, day, &list), REFUSED);
    }
    let list = windows::full(&mut random);
    assert_eq!(compare(&mut random, &script, 63, &list), REFUSED);
}

/// An empty list with a day of one epoch: the program's case.
#[test]
fn without_windows() {
    for seed in 0..500 {
        let mut random = Random::new(seed);
        let script = random_script(seed, Flavour::ALL[seed as usize % 3]);
        let plain = reference::script::replay(&script);
        assert_eq!(compare(&mut random, &script, 1, &[]), plain);
        assert_eq!(compare(&mut random, &script, 1440, &[]), plain);
    }
}

/// What `hydra_demand` answers and leaves, by the second implementation.
fn expected(
    nodes: u32,
    node: u32,
    day: u32,
    list: &[Window],
    epoch: u32,
    demand: u32,
) -> (u32, u32) {
    let Ok(settings) = Settings::new(nodes, 1, 1, 1, 0) else {
        return (2, demand);
    };
    if !settings.has_node(node) {
        return (3, demand);
    }
    if require_windows(&settings, day, list).is_err() {
        return (16, demand);
    }
    if epoch >= day {
        return (2, demand);
    }
    (0, due(list, node, epoch).unwrap_or(demand))
}

#[test]
fn the_lookup() {
    let mut seen = [0u32; 17];
    for seed in 0..60_000 {
        let mut random = Random::new(seed);
        let nodes = match random.below(20) {
            0 => random.pick(&[0, 33, u32::MAX]),
            _ => random.between(1, 32),
        };
        let site = nodes.clamp(1, 32);
        let (day, list) = if random.chance(20) {
            windows::broken(&mut random, site)
        } else {
            let day = windows::day(&mut random);
            (day, windows::good(&mut random, site, day))
        };
        let node = match random.below(20) {
            0 => random.pick(&[0, site + 1, u32::MAX]),
            _ => random.between(1, site),
        };
        let epoch = match (random.below(10), random.below(4)) {
            (0, _) => day,
            (1, _) => random.next_u32(),
            (_, 0) if !list.is_empty() => list[random.below(list.len())].end,
            (_, 1) if !list.is_empty() => list[random.below(list.len())].first,
            _ => random.between(0, day.clamp(1, 1440) - 1),
        };
        let before = random.next_u32();
        let mut demand = before;
        let answer = calls::demand(nodes, node, day, &list, epoch, &mut demand);
        let wanted = expected(nodes, node, day, &list, epoch, before);
        assert_eq!(
            (answer, demand),
            wanted,
            "{nodes} {node} {day} {list:?} {epoch}"
        );
        seen[answer as usize] += 1;
    }
    assert!(
        [0, 2, 3, 16].iter().all(|&number| seen[number] > 500),
        "{seen:?}"
    );
}
