//! `hydra_reduce` beside the definition in the second implementation: an
//! answer need not be the second implementation's own, so it is tested for
//! being reduced.

#![forbid(unsafe_code)]

use std::collections::BTreeMap;

use compare::inputs;
use compare::lent::Lent;
use compare::scripts;
use reference::random::{random_script, Flavour, Random};
use reference::reduce::{answer, is_reduced};

/// Reduces a script for a number into an output that holds anything, and
/// returns the answer.
fn compare(random: &mut Random, script: &[u8], number: u32, room: usize) -> u32 {
    let output = inputs::bytes(random, room);
    let before = random.next_u32();
    let lent_script = Lent::new(script);
    let mut lent_output = Lent::new(&output);
    let mut length = before;
    let got = compare::calls::reduce(
        lent_script.contents(),
        lent_output.contents_mut(),
        &mut length,
        number,
    );
    let text = String::from_utf8_lossy(script);
    assert_eq!(got, answer(script, number, room), "{number} of\n{text}");
    assert!(lent_script.is(script), "a changed script:\n{text}");
    let mut after = output;
    if got == 0 {
        let written = lent_output.contents()[..length as usize].to_vec();
        assert!(
            is_reduced(script, number, &written),
            "{}\nis not reduced for {number} of\n{text}",
            String::from_utf8_lossy(&written)
        );
        after[..written.len()].copy_from_slice(&written);
    } else {
        assert_eq!(length, before, "{number} of\n{text}");
    }
    assert!(lent_output.is(&after), "bytes behind the output of\n{text}");
    got
}

/// Every number of each script; how often each number was given.
fn compare_all(scripts: impl Iterator<Item = Vec<u8>>) -> BTreeMap<u32, u64> {
    let mut given = BTreeMap::new();
    let mut random = Random::new(13);
    for script in scripts {
        for number in 0..=18 {
            let spare = random.below(4);
            if compare(&mut random, &script, number, script.len() + spare) == 0 {
                *given.entry(number).or_default() += 1;
            }
        }
        if !script.is_empty() {
            let short = random.below(script.len());
            compare(&mut random, &script, 2, short);
        }
    }
    println!("{given:?}");
    given
}

#[test]
fn random_scripts() {
    for flavour in Flavour::ALL {
        let given = compare_all((0..400).map(|seed| random_script(seed, flavour)));
        assert!(given.len() > 5, "{given:?}");
    }
}

#[test]
fn careless_scripts() {
    let mut random = Random::new(3);
    let scripts = std::iter::repeat_with(move || scripts::careless(&mut random));
    let given = compare_all(scripts.take(300));
    assert!(given.contains_key(&2), "{given:?}");
}

#[test]
fn long_scripts() {
    let mut random = Random::new(5);
    for length in [39_999, 40_000, 40_001] {
        let script = vec![b'\n'; length];
        for number in [0, 1, 2, 15] {
            compare(&mut random, &script, number, length);
        }
    }
    let refused = scripts::refusals(5, 40_000);
    for number in 1..=10 {
        compare(&mut random, &refused, number, 40_000);
    }
    let epochs = scripts::epochs();
    assert_eq!(epochs.len(), 39_825);
    for number in 1..=10 {
        let got = compare(&mut random, &epochs, number, epochs.len());
        assert_eq!(got == 0, number == 10, "{number}");
    }
}
