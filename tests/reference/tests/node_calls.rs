//! The calls on a lone node: the order of their refusals, the top version,
//! the waiting node, and the outputs.

#![forbid(unsafe_code)]

mod common;

use common::{moved_to, node, packet, schedule, settings, Next};
use reference::node::{Node, Phase, Round};
use reference::refusal::Refusal;
use reference::schedule::FREE_SCHEDULE;
use reference::settings::{Settings, TOP_VERSION};
use reference::wire::{write_packet, write_schedule};

#[test]
fn settings_have_ranges() {
    assert!(Settings::new(1, 1, 1, 1, 0).is_ok());
    assert!(Settings::new(32, 80, 32, 32, 1).is_ok());
    for (nodes, slots, rounds, heard, split) in [
        (0, 1, 1, 1, 0),
        (33, 1, 1, 1, 0),
        (1, 0, 1, 1, 0),
        (1, 81, 1, 1, 0),
        (1, 1, 0, 1, 0),
        (1, 1, 33, 1, 0),
        (1, 1, 3, 0, 0),
        (1, 1, 3, 4, 0),
        (1, 1, 1, 1, 2),
        (1, 1, 1, 1, u32::MAX),
    ] {
        let made = Settings::new(nodes, slots, rounds, heard, split);
        assert_eq!(made, Err(Refusal::Value));
    }
}

#[test]
fn beginning_tests_values_before_the_node() {
    let begin = |id, version, flags, demand| {
        Node::begin(settings(3, 2, 1), id, version, flags, demand).map(|node| node.id)
    };
    assert_eq!(begin(3, 1, 0b100, 15), Ok(3));
    assert_eq!(begin(3, 2, 0b100, 15), Err(Refusal::Value));
    assert_eq!(begin(3, 1, 0b100, 16), Err(Refusal::Value));
    assert_eq!(begin(3, 1, 0b011, 15), Err(Refusal::Value));
    assert_eq!(begin(3, 1, 0b1100, 15), Err(Refusal::Value));
    assert_eq!(begin(0, 1, 0b1000, 15), Err(Refusal::Value));
    // A node outside 1 to N has no own bit to test.
    assert_eq!(begin(0, 1, 0, 15), Err(Refusal::NodeNumber));
    assert_eq!(begin(4, 1, 0, 15), Err(Refusal::NodeNumber));
    assert_eq!(begin(u32::MAX, 1, 0, 15), Err(Refusal::NodeNumber));
}

#[test]
fn restarting_tests_the_place_too() {
    let restart = |place, id, flags| {
        Node::restart(settings(3, 2, 2), place, id, flags).map(|node| node.place)
    };
    assert_eq!(restart(1, 2, 0b010), Ok(1));
    assert_eq!(restart(2, 2, 0b010), Err(Refusal::Value));
    assert_eq!(restart(2, 9, 0b010), Err(Refusal::Value));
    assert_eq!(restart(1, 2, 0b101), Err(Refusal::Value));
    assert_eq!(restart(1, 9, 0b1000), Err(Refusal::Value));
    assert_eq!(restart(1, 9, 0), Err(Refusal::NodeNumber));
}

#[test]
fn waiting_node_takes_part_in_nothing() {
    let waiting = Node::restart(settings(2, 2, 2), 0, 1, 3).unwrap();
    assert_eq!(waiting.send(), Err(Refusal::WrongPhase));
    assert_eq!(waiting.heard_bytes(&[]), Err(Refusal::WrongPhase));
    assert_eq!(waiting.closed(), Err(Refusal::WrongPhase));
    assert_eq!(waiting.taken_bytes(&[]), Err(Refusal::WrongPhase));
    let wanting = waiting.wanting(5).unwrap();
    assert_eq!((wanting.demand, wanting.request), (5, 0));
    let first = wanting.ended().unwrap();
    assert_eq!((first.phase, first.place), (Phase::Waiting, 1));
    let second = first.ended().unwrap();
    assert_eq!(second, Node::begin(settings(2, 2, 2), 1, 0, 3, 5).unwrap());
}

#[test]
fn hearing_tests_in_order() {
    let begun = node(settings(2, 2, 1), 1, 1);
    let own = write_packet(&begun.send().unwrap());
    let mut broken = own;
    broken[0] = 3;
    let closed = begun.closed().unwrap();
    assert_eq!(closed.heard_bytes(&own[..44]), Err(Refusal::WrongPhase));
    assert_eq!(begun.heard_bytes(&broken[..44]), Err(Refusal::WrongLength));
    assert_eq!(begun.heard_bytes(&broken), Err(Refusal::Layout));
    assert_eq!(begun.heard_bytes(&own), Err(Refusal::OwnPacket));
    let heard = begun.heard(&packet(2, 1, 3, &[(2, 1)])).unwrap();
    let other = packet(2, 1, 3, &[(2, 2)]);
    assert_eq!(heard.heard(&other), Err(Refusal::RequestConflict));
}

#[test]
fn conflict_counts_only_where_a_merge_would_happen() {
    let begun = node(settings(3, 2, 1), 1, 1);
    let heard = begun.heard(&packet(2, 1, 7, &[(2, 1)])).unwrap();
    // The packet's flags leave node 1 out, so nothing would be merged.
    let one_sided = heard.heard(&packet(2, 1, 6, &[(2, 2), (3, 0)])).unwrap();
    let mut expected = heard;
    expected.round.heard = 0b110;
    assert_eq!(one_sided, expected);
}

#[test]
fn taking_tests_in_order() {
    let begun = node(settings(2, 2, 1), 1, 1);
    assert_eq!(begun.taken_bytes(&[]), Err(Refusal::WrongPhase));
    let silent = begun.closed().unwrap();
    let good = write_schedule(3, &schedule(&[2, 1]));
    let broken = write_schedule(3, &schedule(&[2, 3]));
    assert_eq!(silent.taken_bytes(&good[..83]), Err(Refusal::WrongLength));
    assert_eq!(silent.taken_bytes(&broken), Err(Refusal::Layout));
    assert!(silent.taken_bytes(&good).is_ok());
    let heard = begun.heard(&packet(2, 1, 3, &[(2, 1)])).unwrap();
    let sending = heard.closed().unwrap();
    assert_eq!(sending.taken_bytes(&[]), Err(Refusal::NoTaking));
}

#[test]
fn ending_belongs_to_distribution() {
    let begun = node(settings(2, 2, 1), 1, 1);
    assert_eq!(begun.ended(), Err(Refusal::WrongPhase));
    assert_eq!(begun.wanting(16), Err(Refusal::Value));
    let closed = begun.closed().unwrap();
    assert_eq!(closed.closed(), Err(Refusal::WrongPhase));
    assert_eq!(closed.send(), Err(Refusal::WrongPhase));
}

#[test]
fn outputs_hold_what_was_sent_and_nothing_else() {
    let lone = node(settings(1, 1, 1), 1, 1);
    let mut output = [9; 90];
    lone.send_into(&mut output).unwrap();
    assert_eq!(output[..45], write_packet(&lone.send().unwrap()));
    assert_eq!(output[45..], [9; 45]);
    assert_eq!(lone.send_into(&mut [0; 44]), Err(Refusal::Capacity));
    assert_eq!(lone.closed_into(&mut [0; 83]), Err(Refusal::Capacity));
    let closed = lone.closed_into(&mut output).unwrap();
    assert_eq!(output[..84], write_schedule(2, &schedule(&[1])));
    assert_eq!(output[84..], [9; 6]);
    assert_eq!(closed.send_into(&mut []), Err(Refusal::WrongPhase));
    // Node 1 of two heard nobody: it does not send and needs no output.
    assert!(node(settings(2, 1, 1), 1, 1).closed_into(&mut []).is_ok());
}

#[test]
fn round_lapses_at_the_close() {
    let begun = node(settings(2, 2, 1), 1, 1);
    let heard = begun.heard(&packet(2, 1, 3, &[(2, 1)])).unwrap();
    assert_eq!(heard.closed().unwrap().round, Round::LAPSED);
    assert_eq!(begun.closed().unwrap().round, Round::LAPSED);
}

#[test]
fn taking_another_version_drops_what_was_determined() {
    let begun = node(settings(3, 2, 2), 1, 1);
    let heard = begun
        .heard(&packet(2, 1, 7, &[(2, 1), (3, 1)]))
        .unwrap()
        .closed()
        .unwrap();
    assert_eq!(heard.determined, Some(schedule(&[1, 2])));
    let same = heard.wanting(4).unwrap().taken(1, &schedule(&[2])).unwrap();
    assert_eq!((same.determined, same.request), (heard.determined, 1));
    assert_eq!((same.schedule, same.interactions), (schedule(&[2]), 7));
    let other = same.taken(5, &schedule(&[3])).unwrap();
    assert_eq!((other.determined, other.request), (None, 4));
}

#[test]
fn determined_schedule_waits_for_the_last_round() {
    let begun = node(settings(2, 2, 2), 1, 1);
    let heard = begun.heard(&packet(2, 1, 3, &[(2, 1)])).unwrap();
    let first = heard.closed().unwrap();
    assert_eq!((first.version, first.sends()), (1, false));
    // In the last round the node is not complete, and yet advances.
    let last = first.ended().unwrap().closed().unwrap();
    assert_eq!((last.version, last.sends()), (2, true));
    assert_eq!((last.schedule, last.determined), (schedule(&[1, 2]), None));
}

#[test]
fn top_version_has_no_next() {
    let top = moved_to(node(settings(2, 2, 2), 1, 1), TOP_VERSION);
    let same = packet(2, TOP_VERSION, 3, &[(2, 1)]);
    let closed = top.heard(&same).unwrap().closed().unwrap();
    assert_eq!((closed.version, closed.sends()), (TOP_VERSION, false));
    // A member with an older version can still be helped.
    let older = packet(2, TOP_VERSION - 1, 3, &[(2, 1)]);
    let closed = top.heard(&older).unwrap().closed().unwrap();
    assert_eq!((closed.version, closed.sends()), (TOP_VERSION, true));
    let below = moved_to(node(settings(2, 2, 2), 1, 1), TOP_VERSION - 1);
    let closed = below.heard(&older).unwrap().closed().unwrap();
    assert_eq!((closed.version, closed.sends()), (TOP_VERSION, true));
}

#[test]
fn expiry_at_version_0_takes_no_new_request() {
    // One of two that hears nobody: it is at version 0 before and after.
    let dark = Node::begin(settings(2, 1, 1), 1, 0, 3, 2).unwrap();
    let ended = dark.wanting(5).unwrap().closed().unwrap().ended().unwrap();
    assert_eq!((ended.version, ended.request, ended.demand), (0, 2, 5));
    let expired = node(settings(2, 1, 1), 1, 2).wanting(5).unwrap();
    let ended = expired.closed().unwrap().ended().unwrap();
    assert_eq!((ended.version, ended.request), (0, 5));
    assert_eq!(ended.schedule, FREE_SCHEDULE);
}

#[test]
fn own_echo_counts_as_heard_and_as_interaction() {
    let begun = node(settings(2, 2, 2), 1, 1);
    let heard = begun.heard(&packet(2, 1, 3, &[(1, 1), (2, 1)])).unwrap();
    assert_eq!((heard.round.heard, heard.interactions), (3, 3));
    let closed = heard.closed().unwrap();
    assert_eq!(closed.counters[..3], [1, 1, 0]);
}

#[test]
fn epoch_starts_with_empty_counters() {
    let begun = node(settings(3, 2, 1), 1, 1);
    let heard = begun.heard(&packet(2, 1, 7, &[(1, 1), (2, 1)])).unwrap();
    let second = heard.closed().unwrap().ended().unwrap();
    assert_eq!((second.version, second.flags), (1, 0b011));
    assert_eq!((second.counters, second.interactions), ([0; 32], 0));
    let third = second.closed().unwrap().ended().unwrap();
    assert_eq!((third.version, third.flags), (0, 0b001));
}
