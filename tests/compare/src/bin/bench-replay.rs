//! Time of `hydra_replay`, beside the replays of the second implementation and
//! in plain C on the same scripts, in turns, in one process.
//!
//!     cargo run --release --bin bench-replay
//!
//! The lent packet area and outputs are not cleared between two runs. The
//! second implementation allocates its output in each run.
//!
//! Instructions of one run of each case whose name has the given part:
//!
//!     cargo build --release
//!     valgrind --tool=callgrind --toggle-collect='hydra_*' \
//!         target/release/bench-replay 'all hear all, 32 nodes' once
//!     valgrind --tool=callgrind --toggle-collect='reference::script::replay_day' \
//!         target/release/bench-replay 'all hear all, 32 nodes' once
//!     valgrind --tool=callgrind --toggle-collect='plain_replay' \
//!         target/release/bench-replay 'all hear all, 32 nodes' once

#![forbid(unsafe_code)]

use std::env;
use std::hint::black_box;

use compare::calls;
use compare::measure::measure;
use compare::plain;
use compare::{scripts, windows};
use reference::script::{replay_day, MAX_SCRIPT};
use reference::site::AREA_LENGTH;
use reference::windows::Window;

struct Case {
    name: String,
    script: Vec<u8>,
    day: u32,
    windows: Vec<Window>,
}

fn case(name: &str, script: Vec<u8>) -> Case {
    Case {
        name: name.to_string(),
        script,
        day: 1,
        windows: Vec::new(),
    }
}

/// The same in a day of 64 epochs with 64 windows.
fn timed(name: &str, nodes: u32, script: Vec<u8>) -> Case {
    Case {
        name: format!("64 windows: {name}"),
        script,
        day: 64,
        windows: windows::in_order(nodes),
    }
}

fn cases() -> Vec<Case> {
    let mut cases = vec![
        case(
            "all hear all, 32 nodes, F=1",
            scripts::mesh(32, 1, MAX_SCRIPT),
        ),
        case(
            "all hear all, 32 nodes, F=3",
            scripts::mesh(32, 3, MAX_SCRIPT),
        ),
        case(
            "one round of takes, 3 nodes",
            scripts::distribution(3, 1, MAX_SCRIPT),
        ),
        case(
            "one round of takes, 32 nodes",
            scripts::distribution(32, 1, MAX_SCRIPT),
        ),
        case(
            "many takes, 3 nodes",
            scripts::distribution(3, 16, MAX_SCRIPT),
        ),
        case(
            "many takes, 32 nodes",
            scripts::distribution(32, 16, MAX_SCRIPT),
        ),
        case("closes and ends, 1 node", scripts::silence(1, MAX_SCRIPT)),
        case(
            "closes and ends, 32 nodes",
            scripts::silence(32, MAX_SCRIPT),
        ),
        case("refusals, 3 nodes", scripts::refusals(3, MAX_SCRIPT)),
        case("refusals, 32 nodes", scripts::refusals(32, MAX_SCRIPT)),
        case("no events, 1 node", scripts::mesh(1, 1, 0)),
        case("no events, 32 nodes", scripts::mesh(32, 1, 0)),
    ];
    for length in [2_500, 5_000, 10_000, 20_000, 40_000] {
        let name = format!("growth with events, 32 nodes, {length} bytes");
        cases.push(case(&name, scripts::mesh(32, 1, length)));
    }
    cases.extend([
        timed(
            "closes and ends, 32 nodes",
            32,
            scripts::silence(32, MAX_SCRIPT),
        ),
        timed(
            "closes and ends, 1 node",
            1,
            scripts::silence(1, MAX_SCRIPT),
        ),
        timed(
            "one round of takes, 3 nodes",
            3,
            scripts::distribution(3, 1, MAX_SCRIPT),
        ),
        timed(
            "all hear all, 32 nodes, F=1",
            32,
            scripts::mesh(32, 1, MAX_SCRIPT),
        ),
    ]);
    for nodes in [1, 2, 4, 8, 16, 32] {
        let name = format!("growth with nodes, {nodes} nodes");
        cases.push(case(&name, scripts::mesh(nodes, 1, MAX_SCRIPT)));
    }
    cases
}

type Replay = fn(&[u8], &mut [u8], &mut [u8], &mut u32, u32, &[Window]) -> u32;

/// Runs the script once by a call that is lent area and output: the proved one or that in plain C.
fn lent(case: &Case, replay: Replay) -> impl FnMut() + '_ {
    let mut area = vec![0; AREA_LENGTH];
    let mut output = vec![0; scripts::room(case.script.len())];
    move || {
        let mut length = 0;
        let script = black_box(case.script.as_slice());
        let answer = replay(
            script,
            &mut area,
            &mut output,
            &mut length,
            case.day,
            &case.windows,
        );
        assert_eq!(answer, 0);
        black_box(&output);
    }
}

fn second(case: &Case) -> impl FnMut() + '_ {
    let mut area = vec![0; AREA_LENGTH];
    move || {
        let script = black_box(case.script.as_slice());
        black_box(replay_day(script, &mut area, case.day, &case.windows));
    }
}

fn print_case(case: &Case) {
    let events = scripts::events(&case.script);
    let [first, second, plain] = measure(
        1,
        [
            &mut lent(case, calls::replay_day),
            &mut second(case),
            &mut lent(case, plain::replay_day),
        ],
    );
    println!(
        "{:<40} {events:>6} {:>9.1} {:>9.1} {:>9.1} {:>8.2} {:>8.2}",
        case.name,
        first / 1e3,
        second / 1e3,
        plain / 1e3,
        first / second,
        first / plain
    );
}

fn main() {
    let arguments: Vec<String> = env::args().skip(1).collect();
    let wanted = arguments.first().map_or("", String::as_str);
    let once = arguments.get(1).is_some_and(|word| word == "once");
    println!("microseconds per run of the proved core, the second implementation and plain C");
    println!(
        "{:<40} {:>6} {:>9} {:>9} {:>9} {:>8} {:>8}",
        "script", "events", "core", "second", "plain C", "/second", "/plain C"
    );
    for case in cases().iter().filter(|case| case.name.contains(wanted)) {
        if once {
            lent(case, calls::replay_day)();
            second(case)();
            lent(case, plain::replay_day)();
        } else {
            print_case(case);
        }
    }
}
