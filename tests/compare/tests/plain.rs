//! The box in plain C, the library and the second implementation in lockstep:
//! every answer and every lent byte is the same in all three.

#![forbid(unsafe_code)]

use compare::group::{self, Progress};
use compare::inputs;
use compare::tally::Tally;
use compare::trial::{Trial, LIBRARY_AND_PLAIN};
use reference::random::Random;

/// Random calls, each in all three.
fn run(seed: u64, calls: usize, trial: impl Fn(&mut Random) -> Trial) -> Tally {
    let (mut random, mut tally) = (Random::new(seed), Tally::default());
    for _ in 0..calls {
        let trial = trial(&mut random);
        tally.add(trial.call, trial.run(LIBRARY_AND_PLAIN));
    }
    println!("{tally}");
    tally
}

#[test]
fn groups_in_lockstep() {
    let mut progress = Progress::default();
    for seed in 0..100 {
        group::play(seed, 25, LIBRARY_AND_PLAIN, &mut progress);
    }
    // Each node goes on in the area that its own calls wrote: never 14.
    let tally = &progress.tally;
    tally.assert_reached(&[0, 2, 3, 4, 9, 10, 11, 12, 13, 15]);
    println!("{} calls", tally.calls());
}

#[test]
fn nodes_in_range_meet_inputs_in_range() {
    let tally = run(1, 200_000, Trial::good);
    tally.assert_reached(&[0, 2, 3, 4, 9, 10, 13, 15]);
}

#[test]
fn spoilt_areas_and_inputs() {
    run(2, 400_000, Trial::spoilt).assert_complete();
}

/// Areas that differ from a node's in one slot, with a count that fits.
#[test]
fn slots_moved_in_the_masks() {
    let tally = run(3, 200_000, |random| {
        let mut trial = Trial::good(random);
        trial.area = inputs::with_slot_moved(random, trial.area);
        trial
    });
    assert!(tally.count(14) > 50_000 && tally.count(0) > 20_000);
}
