//! Rows for demands by the hour (specification, 3.7).

use reference::refusal::Refusal;
use reference::settings::Settings;
use reference::site::{Event, EventKind, Row, Site, AREA_LENGTH};
use reference::windows::{due, require_windows, Window};

fn window(node: u32, first: u32, end: u32, demand: u32) -> Window {
    Window {
        node,
        first,
        end,
        demand,
    }
}

fn settings(nodes: u32, rounds: u32) -> Settings {
    Settings::new(nodes, 4, rounds, 1, 0).expect("settings in range")
}

fn site(nodes: u32, rounds: u32, day: u32, windows: &[Window]) -> Site {
    let table: Vec<Row> = (1..=nodes)
        .map(|node| Row {
            node,
            version: 1,
            flags: (1 << nodes) - 1,
            want: 2,
        })
        .collect();
    Site::load_day(settings(nodes, rounds), &table, day, windows).expect("a good table")
}

/// A round without packets.
fn round(site: &mut Site, windows: &[Window]) -> Result<(), Refusal> {
    let mut area = [0; AREA_LENGTH];
    let zero = |kind| Event {
        kind,
        node: 0,
        with: 0,
    };
    site.apply(&mut area, zero(EventKind::Close))?;
    site.apply_lent(&mut area, zero(EventKind::End), windows)
}

fn apply(site: &mut Site, kind: EventKind, node: u32, with: u32) {
    let mut area = [0; AREA_LENGTH];
    let event = Event { kind, node, with };
    site.apply(&mut area, event).expect("an accepted event");
}

fn demand(site: &Site, node: u32) -> u32 {
    site.node(node).expect("a node that is up").demand
}

#[test]
fn each_broken_rule_is_16() {
    let good = [
        window(1, 0, 4, 15),
        window(1, 4, 1440, 0),
        window(3, 0, 1440, 1),
    ];
    let s = settings(3, 1);
    assert_eq!(require_windows(&s, 1440, &good), Ok(()));
    let broken = [
        window(0, 0, 1, 0),
        window(4, 0, 1, 0),
        window(2, 5, 5, 0),
        window(2, 6, 5, 0),
        window(2, 0, 1441, 0),
        window(2, 0, 1, 16),
        window(1, 3, 4, 0),
        window(3, 1439, 1440, 1),
    ];
    for window in broken {
        let list = [&good[..], &[window]].concat();
        assert_eq!(
            require_windows(&s, 1440, &list),
            Err(Refusal::Windows),
            "{window:?}"
        );
    }
    for day in [0, 1441, u32::MAX] {
        assert_eq!(require_windows(&s, day, &[]), Err(Refusal::Windows));
    }
    let many: Vec<Window> = (0..65).map(|i| window(1, i, i + 1, 0)).collect();
    assert_eq!(require_windows(&s, 65, &many[..64]), Ok(()));
    assert_eq!(require_windows(&s, 65, &many), Err(Refusal::Windows));
    assert_eq!(Refusal::Windows.number(), 16);
}

#[test]
fn a_window_holds_at_its_first_epoch_and_not_at_its_end() {
    let list = [window(2, 3, 5, 7)];
    let seen: Vec<Option<u32>> = (2..=5).map(|epoch| due(&list, 2, epoch)).collect();
    assert_eq!(seen, [Some(0), Some(7), Some(7), Some(0)]);
    assert_eq!(due(&list, 1, 3), None);
}

#[test]
fn demands_follow_the_day_and_the_request_waits() {
    let list = [window(1, 0, 1, 5), window(1, 2, 3, 6)];
    let mut site = site(2, 2, 3, &list);
    let first = site.node(1).expect("node 1");
    assert_eq!((first.demand, first.request), (5, 5));
    assert_eq!(demand(&site, 2), 2);
    // A round that is not the epoch's last gives nothing, and a want holds until the next epoch.
    apply(&mut site, EventKind::Want, 1, 9);
    apply(&mut site, EventKind::Want, 2, 8);
    round(&mut site, &list).expect("accepted");
    assert_eq!((demand(&site, 1), site.epoch()), (9, 0));
    for (epoch, expected) in [(1, 0), (2, 6), (0, 5), (1, 0)] {
        round(&mut site, &list).expect("accepted");
        assert_eq!(
            (site.epoch(), demand(&site, 1), demand(&site, 2)),
            (epoch, expected, 8)
        );
        round(&mut site, &list).expect("accepted");
    }
}

/// An expiry at the end takes the demand of the epoch that begins.
#[test]
fn the_expiry_takes_the_new_demand() {
    let list = [window(1, 1, 2, 6)];
    let mut site = site(2, 1, 2, &list);
    assert_eq!(site.node(1).expect("node 1").request, 0);
    round(&mut site, &list).expect("accepted");
    let node = site.node(1).expect("node 1");
    assert_eq!((node.version, node.request), (0, 6));
}

#[test]
fn waiting_nodes_get_their_demand_and_down_ones_do_not() {
    let list = [window(1, 0, 2, 3), window(2, 0, 2, 4)];
    let mut site = site(2, 1, 2, &list);
    apply(&mut site, EventKind::Crash, 1, 0);
    apply(&mut site, EventKind::Crash, 2, 0);
    apply(&mut site, EventKind::Restart, 2, 2);
    assert_eq!(demand(&site, 2), 0);
    round(&mut site, &list).expect("accepted");
    assert!(site.node(1).is_none());
    let node = site.live(2).expect("it began");
    assert_eq!((node.demand, node.request), (4, 4));
    // A node that restarts later has lost what it was given.
    apply(&mut site, EventKind::Restart, 1, 1);
    assert_eq!(demand(&site, 1), 0);
}

#[test]
fn a_refused_list_changes_nothing_and_comes_after_the_phase() {
    let mut site = site(1, 1, 2, &[]);
    let bad = [window(2, 0, 1, 0)];
    let mut area = [0; AREA_LENGTH];
    let end = Event {
        kind: EventKind::End,
        node: 0,
        with: 0,
    };
    assert_eq!(
        site.apply_lent(&mut area, end, &bad),
        Err(Refusal::WrongPhase)
    );
    apply(&mut site, EventKind::Close, 0, 0);
    let before = site.clone();
    assert_eq!(site.apply_lent(&mut area, end, &bad), Err(Refusal::Windows));
    assert_eq!(site, before);
}
