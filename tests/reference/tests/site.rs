//! The events of a site: what a refused one leaves alone, what a send writes,
//! and what a hearing makes of bytes that nobody sent.

#![forbid(unsafe_code)]

mod common;

use common::{packet, settings};
use reference::random::{random_scenario, Flavour, Random};
use reference::refusal::Refusal;
use reference::site::{Event, EventKind, PacketArea, Row, Site, AREA_LENGTH};
use reference::wire::write_packet;

/// Three nodes at version 1 that know each other.
fn trio() -> Site {
    let row = |node| Row {
        node,
        version: 1,
        flags: 7,
        want: 1,
    };
    Site::load(settings(3, 2, 1), &[row(1), row(2), row(3)]).unwrap()
}

fn event(kind: EventKind, node: u32, with: u32) -> Event {
    Event { kind, node, with }
}

/// The area as it must be: the site's packets are written and no other byte
/// changes, so only the part behind the packets counted before may.
fn check_area(before: &PacketArea, after: &PacketArea, packets: usize, sent: bool) {
    let start = 45 * packets;
    let end = if sent { start + 45 } else { start };
    assert_eq!(before[..start], after[..start]);
    assert_eq!(before[end..], after[end..]);
}

#[test]
fn refused_events_change_nothing_and_sends_only_their_part() {
    for seed in 0..300 {
        let scenario = random_scenario(seed, Flavour::Chaotic);
        let mut site = Site::load(scenario.settings, &scenario.table).unwrap();
        let mut random = Random::new(seed);
        let mut area = [0; AREA_LENGTH];
        area.fill_with(|| random.next_u32() as u8);
        for event in scenario.events {
            let (site_before, area_before) = (site.clone(), area);
            let accepted = site.apply(&mut area, event).is_ok();
            if !accepted {
                assert_eq!(site, site_before);
            }
            let sent = accepted && event.kind == EventKind::Send;
            check_area(&area_before, &area, site_before.packets(), sent);
        }
    }
}

/// The packets of each node are counted here again, from the accepted events.
#[test]
fn seven_says_that_this_node_has_sent_eight() {
    let mut refused = 0;
    for seed in 0..300 {
        let scenario = random_scenario(seed, Flavour::Chaotic);
        let mut site = Site::load(scenario.settings, &scenario.table).unwrap();
        let mut area = [0; AREA_LENGTH];
        let mut sent = [0; 33];
        for event in scenario.events {
            let result = site.apply(&mut area, event);
            match (event.kind, result) {
                (EventKind::Close, Ok(())) => sent = [0; 33],
                (EventKind::Send, Ok(())) => {
                    sent[event.node as usize] += 1;
                    assert!(sent[event.node as usize] <= 8);
                }
                (_, Err(Refusal::AllSent)) => {
                    assert_eq!(
                        (event.kind, sent[event.node as usize]),
                        (EventKind::Send, 8)
                    );
                    refused += 1;
                }
                _ => (),
            }
            assert_eq!(site.packets(), sent.iter().sum::<usize>());
        }
    }
    assert!(refused > 0);
}

#[test]
fn hearing_reads_what_the_area_holds() {
    let mut site = trio();
    let mut area = [0; AREA_LENGTH];
    let hear = event(EventKind::Hear, 1, 1);
    assert_eq!(site.apply(&mut area, hear), Err(Refusal::NoSuchPacket));
    let send = event(EventKind::Send, 2, 0);
    assert_eq!(site.apply(&mut area, send), Ok(()));
    area[0] = 9;
    assert_eq!(site.apply(&mut area, hear), Err(Refusal::Layout));
    area[..45].copy_from_slice(&write_packet(&packet(1, 1, 7, &[(1, 1)])));
    assert_eq!(site.apply(&mut area, hear), Err(Refusal::OwnPacket));
    area[..45].copy_from_slice(&write_packet(&packet(3, 1, 7, &[(1, 5), (3, 1)])));
    assert_eq!(site.apply(&mut area, hear), Err(Refusal::RequestConflict));
    area[..45].copy_from_slice(&write_packet(&packet(3, 1, 7, &[(3, 4)])));
    assert_eq!(site.apply(&mut area, hear), Ok(()));
    assert_eq!(site.live(1).unwrap().round.requests[2], 4);
}

#[test]
fn nodes_share_the_place_and_phase_of_their_site() {
    for seed in 0..300 {
        let scenario = random_scenario(seed, Flavour::Chaotic);
        let mut site = Site::load(scenario.settings, &scenario.table).unwrap();
        let mut area = [0; AREA_LENGTH];
        for event in scenario.events {
            let _ = site.apply(&mut area, event);
            for node in 1..=scenario.settings.nodes() {
                if let Some(up) = site.node(node) {
                    assert_eq!((up.id, up.place), (node, site.place()));
                }
            }
        }
    }
}

#[test]
fn table_needs_a_row_for_each_node() {
    let row = Row {
        node: 1,
        version: 0,
        flags: 1,
        want: 0,
    };
    assert_eq!(
        Site::load(settings(2, 1, 1), &[row]),
        Err(Refusal::NamesLine)
    );
    assert_eq!(
        Site::load(settings(2, 1, 1), &[row, row]),
        Err(Refusal::Value)
    );
    assert!(Site::load(settings(1, 1, 1), &[row]).is_ok());
}
