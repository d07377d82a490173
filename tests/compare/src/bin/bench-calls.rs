//! Time per call of the node's C calls, beside two others on the same bytes:
//! the second implementation, which reads the area, makes the step and writes
//! the area, and the box in plain C, which works in place (plain/box.c). All go
//! over the same inputs, in turns, in one process.
//!
//!     cargo run --release --bin bench-calls
//!
//! Before each call the area is copied into a work buffer. The column `copy`
//! has what that costs, and it is in the three times. Ratios are of the times
//! without it. The work buffers are not cleared otherwise.
//!
//! Instructions per call, here for one case (a part of its name is enough)
//! with 10,000 calls in each implementation; divide `Collected` by them:
//!
//!     cargo build --release
//!     valgrind --tool=callgrind --toggle-collect='hydra_*' \
//!         target/release/bench-calls 'hear, merged, 32 nodes' 10000
//!     valgrind --tool=callgrind --toggle-collect='compare::oracle::run' \
//!         target/release/bench-calls 'hear, merged, 32 nodes' 10000
//!     valgrind --tool=callgrind --toggle-collect='plain_*' \
//!         target/release/bench-calls 'hear, merged, 32 nodes' 10000

#![forbid(unsafe_code)]

use std::env;
use std::hint::black_box;

use compare::area;
use compare::call::{Call, Run};
use compare::inputs;
use compare::measure::measure;
use compare::trial::Trial;
use compare::{calls, oracle, plain};
use reference::node::Node;
use reference::random::Random;
use reference::settings::Settings;

/// How many inputs a case has.
const INPUTS: usize = 128;

/// What is wrong with the inputs of a case.
#[derive(Clone, Copy, PartialEq)]
enum Damage {
    None,
    Input,
    Area,
}

/// What became of a call: its number, and the node before and after.
struct Outcome {
    answer: u32,
    before: Node,
    after: Node,
}

impl Outcome {
    fn is_done(&self) -> bool {
        self.answer == 0
    }

    fn has_new_version(&self) -> bool {
        self.is_done() && self.before.version != self.after.version
    }

    /// Whether more than the nodes heard has changed.
    fn is_merged(&self) -> bool {
        let mut unmerged = self.before;
        unmerged.round.heard = self.after.round.heard;
        self.is_done() && self.after != unmerged
    }
}

/// A kind of call, and which outcomes belong to it.
struct Kind {
    name: &'static str,
    call: Call,
    damage: Damage,
    belongs: fn(&Outcome) -> bool,
}

const KINDS: [Kind; 17] = [
    kind("hear, merged", Call::Hear, Outcome::is_merged),
    kind("hear, not merged", Call::Hear, |outcome| {
        outcome.is_done() && !outcome.is_merged()
    }),
    kind("hear, refused as 4", Call::Hear, |outcome| {
        outcome.answer == 4
    }),
    kind("hear, refused as 13", Call::Hear, |outcome| {
        outcome.answer == 13
    }),
    damaged(
        "hear, refused as 12",
        Call::Hear,
        Damage::Input,
        |outcome| outcome.answer == 12,
    ),
    damaged("hear, refused as 14", Call::Hear, Damage::Area, |outcome| {
        outcome.answer == 14
    }),
    kind("close, new version", Call::Close, Outcome::has_new_version),
    kind("close, determined", Call::Close, |outcome| {
        outcome.after.determined != outcome.before.determined && !outcome.has_new_version()
    }),
    kind("close, silent", Call::Close, |outcome| {
        outcome.is_done() && !outcome.after.sends() && outcome.after.determined.is_none()
    }),
    kind(
        "take, another version",
        Call::Take,
        Outcome::has_new_version,
    ),
    kind("take, same version", Call::Take, |outcome| {
        outcome.is_done() && !outcome.has_new_version()
    }),
    kind("send", Call::Send, Outcome::is_done),
    kind("end, next round", Call::End, |outcome| {
        outcome.is_done() && outcome.after.place > 0
    }),
    kind("end, next epoch", Call::End, |outcome| {
        outcome.is_done() && outcome.after.place == 0
    }),
    kind("want", Call::Want(3), Outcome::is_done),
    kind("read", Call::Read, Outcome::is_done),
    kind("slots", Call::Slots, Outcome::is_done),
];

const fn kind(name: &'static str, call: Call, belongs: fn(&Outcome) -> bool) -> Kind {
    damaged(name, call, Damage::None, belongs)
}

const fn damaged(
    name: &'static str,
    call: Call,
    damage: Damage,
    belongs: fn(&Outcome) -> bool,
) -> Kind {
    Kind {
        name,
        call,
        damage,
        belongs,
    }
}

/// Inputs of a kind, for nodes of a site with these settings.
fn trials(kind: &Kind, settings: Settings) -> Vec<Trial> {
    let mut random = Random::new(1);
    let mut trials = Vec::new();
    while trials.len() < INPUTS {
        let before = inputs::node_of(&mut random, settings);
        let mut trial = Trial {
            call: kind.call,
            area: area::encode(&before).to_vec(),
            input: inputs::input(&mut random, kind.call, &before),
            output: vec![0; room(kind.call)],
        };
        match kind.damage {
            Damage::None => {}
            Damage::Input => trial.input = inputs::damaged(&mut random, &trial.input),
            Damage::Area => trial.area = inputs::damaged(&mut random, &trial.area),
        }
        if (kind.belongs)(&outcome(&trial, before)) && trial.area.len() == area::LENGTH {
            trials.push(trial);
        }
    }
    trials
}

/// The bytes of output that a call may need.
fn room(call: Call) -> usize {
    match call {
        Call::Slots => 8 * oracle::SLOTS_LENGTH,
        _ => oracle::REPORT_LENGTH,
    }
}

fn outcome(trial: &Trial, before: Node) -> Outcome {
    let mut area = trial.area.clone();
    let mut output = trial.output.clone();
    let answer = oracle::run(trial.call, &mut area, &trial.input, &mut output);
    let after = area::decode(&area).unwrap_or(before);
    Outcome {
        answer,
        before,
        after,
    }
}

/// Makes the call of each trial once.
fn pass(trials: &[Trial], run: Run) -> impl FnMut() + '_ {
    let mut area = [0; area::LENGTH];
    let mut output = vec![0; room(trials[0].call)];
    move || {
        for trial in trials {
            area.copy_from_slice(&trial.area);
            let area = black_box(&mut area[..]);
            let answer = run(trial.call, area, &trial.input, &mut output);
            black_box(answer);
        }
    }
}

/// What every implementation has in its time: the numbers of a `hydra_slots`
/// lent as such, and no call.
fn nothing(call: Call, _: &mut [u8], _: &[u8], output: &mut [u8]) -> u32 {
    match call {
        Call::Slots => calls::lend_numbers(output, |numbers| {
            black_box(numbers);
            0
        }),
        _ => 0,
    }
}

fn print_case(name: &str, trials: &[Trial]) {
    let [copy, first, second, plain] = measure(
        INPUTS,
        [
            &mut pass(trials, nothing),
            &mut pass(trials, calls::run),
            &mut pass(trials, oracle::run),
            &mut pass(trials, plain::run),
        ],
    );
    let ratio = |other: f64| (first - copy) / (other - copy);
    println!(
        "{name:<32} {copy:>8.1} {first:>8.1} {second:>8.1} {plain:>8.1} {:>8.2} {:>8.2}",
        ratio(second),
        ratio(plain)
    );
}

/// A known number of calls in each implementation, for a profile.
fn repeat(trials: &[Trial], calls_made: usize) {
    for trial in trials.iter().cycle().take(calls_made) {
        for run in [calls::run as Run, oracle::run, plain::run] {
            let mut area = trial.area.clone();
            let mut output = trial.output.clone();
            black_box(run(trial.call, &mut area, &trial.input, &mut output));
        }
    }
}

fn main() {
    let arguments: Vec<String> = env::args().skip(1).collect();
    let wanted = arguments.first().map_or("", String::as_str);
    let repeats: Option<usize> = arguments
        .get(1)
        .map(|count| count.parse().expect("a number of calls"));
    println!("nanoseconds per call; ratios = first / second and first / plain, without the copy");
    println!(
        "{:<32} {:>8} {:>8} {:>8} {:>8} {:>8} {:>8}",
        "case", "copy", "first", "second", "plain", "f/second", "f/plain"
    );
    for kind in &KINDS {
        for (nodes, slots) in [(3, 8), (32, 80)] {
            let name = format!("{}, {nodes} nodes", kind.name);
            if !name.contains(wanted) {
                continue;
            }
            let settings = Settings::new(nodes, slots, 2, 1, 0).expect("settings in range");
            let trials = trials(kind, settings);
            match repeats {
                Some(count) => repeat(&trials, count),
                None => print_case(&name, &trials),
            }
        }
    }
}
