//! Random days and lists of windows: lists that keep the rules, and lists that
//! break one of them.

use reference::random::Random;
use reference::windows::{Window, MAX_DAY, MAX_WINDOWS};

/// A length that a day may have, often the least or the greatest.
pub fn day(random: &mut Random) -> u32 {
    match random.below(5) {
        0 => 1,
        1 => MAX_DAY,
        2 => random.between(1, MAX_DAY),
        _ => random.between(2, 6),
    }
}

/// Windows that keep the rules for `nodes` nodes: of each node some that lie
/// apart, from 0 and up to the day's end too, in any order.
pub fn good(random: &mut Random, nodes: u32, day: u32) -> Vec<Window> {
    let mut list = Vec::new();
    for node in 1..=nodes {
        if random.chance(40) {
            continue;
        }
        let mut first = if random.chance(50) {
            0
        } else {
            random.between(0, day)
        };
        while first < day && random.chance(80) {
            let end = if random.chance(30) {
                day
            } else {
                random.between(first + 1, day)
            };
            let demand = random.between(0, 15);
            list.push(Window {
                node,
                first,
                end,
                demand,
            });
            // The next one may begin where this one ends.
            first = end
                + if random.chance(50) {
                    0
                } else {
                    random.between(0, day)
                };
        }
    }
    shuffle(random, &mut list);
    list.truncate(MAX_WINDOWS);
    list
}

/// 64 windows in order, for a day of 64 epochs: the nodes have as many each as
/// can be, one in each of the first epochs.
pub fn in_order(nodes: u32) -> Vec<Window> {
    let all = MAX_WINDOWS as u32;
    let mut list = Vec::new();
    for node in 1..=nodes {
        let count = all * node / nodes - all * (node - 1) / nodes;
        list.extend((0..count).map(|first| Window {
            node,
            first,
            end: first + 1,
            demand: (node + first) % 16,
        }));
    }
    list
}

/// 64 windows, one of node 1 in each epoch of a day of 64 or more.
pub fn full(random: &mut Random) -> Vec<Window> {
    (0..MAX_WINDOWS as u32)
        .map(|first| Window {
            node: 1,
            first,
            end: first + 1,
            demand: random.between(0, 15),
        })
        .collect()
}

/// A list and a day of which one rule is broken.
pub fn broken(random: &mut Random, nodes: u32) -> (u32, Vec<Window>) {
    let day = day(random);
    let mut list = good(random, nodes, day);
    list.truncate(MAX_WINDOWS - 2);
    let first = random.between(0, day - 1);
    let end = random.between(first + 1, day);
    let mut odd = Window {
        node: random.between(1, nodes),
        first,
        end,
        demand: random.between(0, 15),
    };
    match random.below(8) {
        0 => odd.node = 0,
        1 => odd.node = nodes + random.between(1, 40),
        2 => odd.end = odd.first,
        3 => (odd.first, odd.end) = (odd.end, odd.first),
        4 => odd.end = day + random.between(1, 3),
        5 => odd.demand = random.between(16, 300),
        6 => list.push(odd),
        _ => {
            let days = [0, MAX_DAY + 1, u32::MAX];
            return (random.pick(&days), list);
        }
    }
    list.insert(random.below(list.len() + 1), odd);
    (day, list)
}

fn shuffle(random: &mut Random, list: &mut [Window]) {
    for at in (1..list.len()).rev() {
        list.swap(at, random.below(at + 1));
    }
}

/// N of a script whose settings line is right; 1 otherwise.
pub fn nodes(script: &[u8]) -> u32 {
    let line = script.split(|&byte| byte == b'\n').nth(1).unwrap_or(&[]);
    let field = line.split(|&byte| byte == b' ').next().unwrap_or(&[]);
    let number = std::str::from_utf8(field)
        .ok()
        .and_then(|text| text.parse().ok());
    number
        .filter(|number| (1..=32).contains(number))
        .unwrap_or(1)
}
