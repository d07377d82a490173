//! The node's C calls beside the second implementation.

#![forbid(unsafe_code)]

use compare::area;
use compare::call::{Beginning, Call, Restarting};
use compare::group::{self, Progress};
use compare::inputs;
use compare::tally::Tally;
use compare::trial::{Trial, LIBRARY};
use reference::node::{Node, Phase};
use reference::random::Random;
use reference::settings::{MAX_NODES, MAX_REQUEST, MAX_ROUNDS, MAX_SLOTS};

fn run(trial: &Trial, tally: &mut Tally) {
    tally.add(trial.call, trial.run(LIBRARY));
}

#[test]
fn groups_in_lockstep() {
    let mut progress = Progress::default();
    for seed in 0..1_000 {
        group::play(seed, 25, LIBRARY, &mut progress);
    }
    let Progress {
        tally,
        advanced,
        repeated,
        determined,
        moved,
        expired,
    } = &progress;
    // Each node goes on in the area that its own calls wrote: never 14.
    tally.assert_reached(&[0, 2, 3, 4, 9, 10, 11, 12, 13, 15]);
    println!("{tally}new versions by rounds in an epoch: {advanced:?}");
    println!(
        "repeated {repeated}, determined early {determined}, moved {moved}, expired {expired}"
    );
    assert!(advanced[1..].iter().all(|&count| count > 1_000));
    assert!([repeated, determined, moved, expired]
        .iter()
        .all(|&&count| count > 1_000));
}

#[test]
fn nodes_in_range_meet_inputs_in_range() {
    let (mut random, mut tally) = (Random::new(1), Tally::default());
    for _ in 0..400_000 {
        run(&Trial::good(&mut random), &mut tally);
    }
    // Areas are a node's, and inputs keep to the layout.
    tally.assert_reached(&[0, 2, 3, 4, 9, 10, 13, 15]);
    println!("{tally}");
}

#[test]
fn spoilt_areas_and_inputs() {
    let (mut random, mut tally) = (Random::new(2), Tally::default());
    for _ in 0..800_000 {
        run(&Trial::spoilt(&mut random), &mut tally);
    }
    tally.assert_complete();
    println!("{tally}");
}

/// Visits the bytes with each one of them at each value, the others unchanged.
fn every_byte(bytes: &[u8], mut visit: impl FnMut(&[u8])) {
    let mut edited = bytes.to_vec();
    for (at, &byte) in bytes.iter().enumerate() {
        for value in 0..=255 {
            edited[at] = value;
            visit(&edited);
        }
        edited[at] = byte;
    }
}

#[test]
fn every_byte_of_an_area() {
    let (mut random, mut tally) = (Random::new(3), Tally::default());
    for _ in 0..40 {
        let mut trial = Trial {
            call: Call::Read,
            area: area::encode(&inputs::node(&mut random)).to_vec(),
            input: Vec::new(),
            output: vec![0; 96],
        };
        every_byte(&trial.area.clone(), |area| {
            trial.area.copy_from_slice(area);
            run(&trial, &mut tally);
        });
    }
    tally.assert_reached(&[0, 14]);
    println!("{tally}");
}

/// A call with each byte of its input at each value, on nodes in `phase`.
fn every_byte_of_input(call: Call, phase: Phase, nodes: usize) -> Tally {
    let (mut random, mut tally) = (Random::new(4), Tally::default());
    for _ in 0..nodes {
        let node = node_in(&mut random, phase);
        let mut trial = Trial {
            call,
            area: area::encode(&node).to_vec(),
            input: inputs::input(&mut random, call, &node),
            output: Vec::new(),
        };
        every_byte(&trial.input.clone(), |input| {
            trial.input.copy_from_slice(input);
            run(&trial, &mut tally);
        });
    }
    println!("{tally}");
    tally
}

/// A random node in the phase that is wanted.
fn node_in(random: &mut Random, phase: Phase) -> Node {
    loop {
        let node = inputs::node(random);
        if node.phase == phase {
            return node;
        }
    }
}

#[test]
fn every_byte_of_a_packet() {
    let tally = every_byte_of_input(Call::Hear, Phase::Negotiation, 60);
    tally.assert_reached(&[0, 9, 12, 13]);
}

#[test]
fn every_byte_of_a_schedule() {
    let silent = Phase::Distribution { sends: false };
    let tally = every_byte_of_input(Call::Take, silent, 30);
    tally.assert_reached(&[0, 12]);
}

/// The bytes cut off or filled up with random ones.
fn resized(random: &mut Random, bytes: &[u8], length: usize) -> Vec<u8> {
    let mut resized = inputs::bytes(random, length);
    let common = length.min(bytes.len());
    resized[..common].copy_from_slice(&bytes[..common]);
    resized
}

#[test]
fn every_length() {
    let (mut random, mut tally) = (Random::new(6), Tally::default());
    for _ in 0..250 {
        let good = Trial::good(&mut random);
        for length in (0..=20).chain(area::LENGTH - 25..=area::LENGTH + 25) {
            let mut trial = good.clone();
            trial.area = resized(&mut random, &good.area, length);
            run(&trial, &mut tally);
        }
        for length in 0..=100 {
            let mut trial = good.clone();
            trial.input = resized(&mut random, &good.input, length);
            run(&trial, &mut tally);
            let mut trial = good.clone();
            trial.output = inputs::bytes(&mut random, length);
            run(&trial, &mut tally);
        }
    }
    let of_lengths = [11, 14, 15];
    assert!(of_lengths
        .iter()
        .all(|&refusal| tally.count(refusal) > 1_000));
    println!("{tally}");
}

/// A beginning or restart, in an area that holds anything.
fn numbers_trial(random: &mut Random, call: Call, length: usize) -> Trial {
    Trial {
        call,
        area: inputs::bytes(random, length),
        input: Vec::new(),
        output: Vec::new(),
    }
}

const NODE_NUMBERS: [u32; 7] = [0, 1, 2, 31, 32, 33, u32::MAX];
const NODES: [u32; 6] = [0, 1, 2, MAX_NODES - 1, MAX_NODES, MAX_NODES + 1];
const SLOTS: [u32; 5] = [0, 1, MAX_SLOTS, MAX_SLOTS + 1, u32::MAX];
const ROUNDS: [u32; 5] = [0, 1, MAX_ROUNDS, MAX_ROUNDS + 1, u32::MAX];
const HEARD: [u32; 5] = [0, 1, 2, MAX_ROUNDS, MAX_ROUNDS + 1];
const SPLIT: [u32; 3] = [0, 1, 2];
const FLAGS: [u32; 7] = [0, 1, 2, 3, 1 << 31, u32::MAX >> 1, u32::MAX];

/// Calls `visit` with all settings and nodes at the limits of their ranges.
fn every_figure(mut visit: impl FnMut([u32; 6])) {
    for node in NODE_NUMBERS {
        for nodes in NODES {
            for slots in SLOTS {
                for rounds in ROUNDS {
                    for heard in HEARD {
                        for split in SPLIT {
                            visit([node, nodes, slots, rounds, heard, split]);
                        }
                    }
                }
            }
        }
    }
}

#[test]
fn beginnings_at_the_limits() {
    let (mut random, mut tally) = (Random::new(7), Tally::default());
    every_figure(|[node, nodes, slots, rounds, heard, split]| {
        for version in [0, 1, 2, u32::MAX] {
            for flags in FLAGS {
                for demand in [0, MAX_REQUEST, MAX_REQUEST + 1, 256, u32::MAX] {
                    let call = Call::Begin(Beginning {
                        node,
                        nodes,
                        slots,
                        rounds,
                        heard,
                        split,
                        version,
                        flags,
                        demand,
                    });
                    let length = area::LENGTH - usize::from(random.chance(9));
                    run(&numbers_trial(&mut random, call, length), &mut tally);
                }
            }
        }
    });
    tally.assert_reached(&[0, 2, 3, 14]);
    println!("{tally}");
}

#[test]
fn restarts_at_the_limits() {
    let (mut random, mut tally) = (Random::new(8), Tally::default());
    every_figure(|[node, nodes, slots, rounds, heard, split]| {
        for flags in FLAGS {
            for place in [0, 1, 31, 32, u32::MAX] {
                let call = Call::Restart(Restarting {
                    node,
                    nodes,
                    slots,
                    rounds,
                    heard,
                    split,
                    flags,
                    place,
                });
                let length = area::LENGTH - usize::from(random.chance(9));
                run(&numbers_trial(&mut random, call, length), &mut tally);
            }
        }
    });
    tally.assert_reached(&[0, 2, 3, 14]);
    println!("{tally}");
}

#[test]
fn random_nodes_are_in_range() {
    let mut random = Random::new(9);
    for _ in 0..20_000 {
        let node = inputs::node(&mut random);
        assert_eq!(area::decode(&area::encode(&node)), Some(node));
    }
}
