//! Reductions of the second implementation's own, by their definition.

use reference::random::{random_script, Flavour};
use reference::reduce::{answer, gives, is_reduced, reduce};

const CASE: &[u8] = include_bytes!("../../../samples/whole-case.script");

#[test]
fn whole_case() {
    let events = CASE.len()
        - "send 2 0\nsend 3 0\nhear 1 1\nhear 1 2\nclose 0 0\ntake 3 2\ntake 2 1\nend 0 0\n".len();
    // Before a send neither take has a sender, so either of them will do.
    for take in [b"take 3 2\n", b"take 2 1\n"] {
        let reduced = [&CASE[..events], b"close 0 0\n", take].concat();
        assert!(is_reduced(CASE, 10, &reduced));
    }
    assert!(is_reduced(CASE, 10, &reduce(CASE, 10)));
    assert!(!is_reduced(CASE, 10, CASE));
    let idle = [&CASE[..events], b"send 2 0\nclose 0 0\ntake 3 2\n"].concat();
    assert!(!is_reduced(CASE, 10, &idle));
    assert_eq!(answer(CASE, 9, CASE.len()), 18);
    assert_eq!(answer(CASE, 9, CASE.len() - 1), 15);
}

#[test]
fn random_scripts() {
    let mut reduced = 0;
    for flavour in Flavour::ALL {
        for seed in 0..8 {
            let script = random_script(seed, flavour);
            for number in (1..=10).filter(|number| gives(&script, *number)) {
                assert!(is_reduced(&script, number, &reduce(&script, number)));
                reduced += 1;
            }
        }
    }
    assert!(reduced > 20, "{reduced}");
}
