//! Rows for the slots held, by box and month (specification, 3.8), and what is
//! proved of them over lists of events, checked on random lists.

#![forbid(unsafe_code)]

use reference::random::{random_scenario, Flavour};
use reference::refusal::Refusal;
use reference::settings::Settings;
use reference::site::{Event, EventKind, Row, Site, SitePhase, AREA_LENGTH};
use reference::tally::{claimants, Tally, MAX_EPOCHS};

fn site(nodes: u32, rounds: u32) -> Site {
    let settings = Settings::new(nodes, 4, rounds, 1, 0).expect("settings in range");
    let table: Vec<Row> = (1..=nodes)
        .map(|node| Row {
            node,
            version: 1,
            flags: (1 << nodes) - 1,
            want: 2,
        })
        .collect();
    Site::load(settings, &table).expect("a good table")
}

fn run(site: &mut Site, tally: &mut Tally, events: &[(EventKind, u32, u32)]) {
    let mut area = [0; AREA_LENGTH];
    for &(kind, node, with) in events {
        let event = Event { kind, node, with };
        site.apply_kept(&mut area, event, &[], tally, &mut [])
            .expect("an accepted event");
    }
}

/// All of three nodes hear each other.
fn talk(site: &mut Site, tally: &mut Tally) {
    use EventKind::{Close, Hear, Send};
    let events = [
        (Send, 1, 0),
        (Send, 2, 0),
        (Send, 3, 0),
        (Hear, 1, 2),
        (Hear, 1, 3),
        (Hear, 2, 1),
        (Hear, 2, 3),
        (Hear, 3, 1),
        (Hear, 3, 2),
        (Close, 0, 0),
    ];
    run(site, tally, &events);
}

const END: (EventKind, u32, u32) = (EventKind::End, 0, 0);

#[test]
fn a_load_counts_its_epoch() {
    let tally = Tally::loaded(&site(3, 1));
    assert_eq!(
        tally,
        Tally {
            epochs: 1,
            ..Tally::EMPTY
        }
    );
}

/// In the whole case node 3 loses its schedule at the end, and then holds
/// nothing.
#[test]
fn the_site_behind_the_end_is_counted() {
    use EventKind::{Close, Hear, Send, Take};
    let mut site = site(3, 1);
    let mut tally = Tally::loaded(&site);
    let events = [
        (Send, 2, 0),
        (Send, 3, 0),
        (Hear, 1, 1),
        (Hear, 1, 2),
        (Close, 0, 0),
        (Take, 2, 1),
        END,
    ];
    run(&mut site, &mut tally, &events);
    assert_eq!((tally.epochs, tally.total), (2, 3));
    assert_eq!(tally.slots[..4], [2, 1, 0, 0]);
    assert_eq!(tally.held[..4], [1, 1, 0, 0]);
}

#[test]
fn only_the_last_end_counts_and_a_waiting_node_holds_nothing() {
    use EventKind::{Crash, Restart};
    let mut site = site(3, 2);
    let mut tally = Tally::loaded(&site);
    talk(&mut site, &mut tally);
    run(&mut site, &mut tally, &[END]);
    assert_eq!(tally.epochs, 1);
    talk(&mut site, &mut tally);
    run(&mut site, &mut tally, &[END]);
    assert_eq!((tally.epochs, tally.total), (2, 4));
    talk(&mut site, &mut tally);
    run(&mut site, &mut tally, &[END]);
    talk(&mut site, &mut tally);
    run(
        &mut site,
        &mut tally,
        &[(Crash, 3, 0), (Restart, 3, 4), END],
    );
    assert_eq!((tally.epochs, tally.total), (3, 7));
    assert_eq!(tally.slots[..3], [4, 2, 1]);
    assert_eq!(tally.held[..3], [2, 2, 1]);
}

#[test]
fn each_broken_rule_is_14() {
    let mut good = Tally {
        epochs: 3,
        total: 241,
        ..Tally::EMPTY
    };
    (good.slots[31], good.held[31]) = (240, 3);
    (good.slots[0], good.held[0]) = (1, 1);
    assert_eq!(good.require_valid(), Ok(()));
    let mut broken = [good; 5];
    broken[0].epochs = MAX_EPOCHS + 1;
    broken[1].held[0] = 4;
    (broken[2].slots[31], broken[2].total) = (241, 242);
    broken[3].total = 240;
    broken[4].total = 242;
    for mut tally in broken {
        let before = tally;
        assert_eq!(tally.require_valid(), Err(Refusal::Tally), "{tally:?}");
        let mut site = site(3, 2);
        let mut area = [0; AREA_LENGTH];
        let mut end = |site: &mut Site| {
            let event = Event {
                kind: EventKind::End,
                node: 0,
                with: 0,
            };
            site.apply_kept(&mut area, event, &[], &mut tally, &mut [])
        };
        assert_eq!(end(&mut site), Err(Refusal::WrongPhase));
        let mut unread = Tally::EMPTY;
        run(&mut site, &mut unread, &[(EventKind::Close, 0, 0)]);
        let same = site.clone();
        assert_eq!(end(&mut site), Err(Refusal::Tally));
        assert!(site == same && tally == before);
    }
}

#[test]
fn a_full_tally_stays() {
    let mut site = site(3, 1);
    let mut tally = Tally {
        epochs: MAX_EPOCHS - 1,
        ..Tally::EMPTY
    };
    for _ in 0..3 {
        talk(&mut site, &mut tally);
        run(&mut site, &mut tally, &[END]);
        assert!(tally.is_full());
        assert_eq!(tally.total, 4);
    }
}

/// Over lists of events: no end is refused for its tally, each epoch that
/// begins is counted, and in negotiation no slot has two claimants, unless the
/// site may split.
#[test]
fn lists_of_events() {
    let mut claimed = 0;
    let mut twice = 0;
    let mut epochs = 0;
    for flavour in [Flavour::Plausible, Flavour::Chaotic] {
        for seed in 0..1_500 {
            let scenario = random_scenario(seed, flavour);
            let mut site = Site::load(scenario.settings, &scenario.table).expect("in range");
            let mut plain = site.clone();
            let mut area = [0; AREA_LENGTH];
            let mut plain_area = area;
            let mut tally = Tally::loaded(&site);
            let mut begun = 1;
            for event in scenario.events {
                let answer = site.apply_kept(&mut area, event, &[], &mut tally, &mut []);
                assert_eq!(answer, plain.apply(&mut plain_area, event));
                if event.kind == EventKind::End && answer.is_ok() && site.place() == 0 {
                    begun += 1;
                }
                assert_eq!((tally.epochs, tally.require_valid()), (begun, Ok(())));
                if site.phase() == SitePhase::Negotiation {
                    for slot in 0..80 {
                        let claims = claimants(&site, slot);
                        let split = scenario.settings.may_split();
                        assert!(claims <= 1 || split, "slot {slot} of seed {seed}");
                        claimed += claims;
                        twice += u32::from(claims > 1);
                    }
                }
            }
            assert!(site == plain && area == plain_area);
            epochs += begun;
        }
    }
    assert!(claimed > 10_000 && epochs > 3_000, "{claimed} {epochs}");
    assert!(twice > 1_000, "{twice}");
}
