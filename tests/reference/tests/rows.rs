//! The worked cases (specification, 11), and what it calls plausible and
//! wrong (13); then a count of what the random scripts reach.

#![forbid(unsafe_code)]

mod common;

use std::collections::BTreeMap;

use common::{
    moved_to, node, packet, refusals, replay_text, requests, schedule, settings, split_settings,
    Next,
};
use reference::allotment::{next_schedule, targets};
use reference::node::{Node, Rule};
use reference::random::{random_scenario, random_script, Flavour};
use reference::refusal::Refusal;
use reference::script::replay;
use reference::set;
use reference::settings::Settings;
use reference::site::{Site, AREA_LENGTH};
use reference::wire::{read_packet, write_packet};

#[test]
fn lone_node_reaches_2_and_keeps_it() {
    let closed = node(settings(1, 1, 1), 1, 1).closed().unwrap();
    assert_eq!((closed.version, closed.sends()), (2, true));
    assert_eq!(closed.schedule, schedule(&[1]));
    let ended = closed.ended().unwrap();
    assert_eq!((ended.version, ended.flags), (2, 1));
    assert_eq!(ended.schedule, schedule(&[1]));
}

/// Node 4 of five, in whose epoch the given nodes were interacted with.
fn expiring(interactions: u32) -> Node {
    let mut closed = node(settings(5, 4, 1), 4, 1).closed().unwrap();
    closed.interactions = interactions;
    closed.ended().unwrap()
}

#[test]
fn expiry_counts_the_node_itself_once() {
    // Nodes 1 and 2, and node 4 itself: three of five.
    assert_eq!(expiring(0b00011).version, 1);
    // Nodes 4 and 5: its own echo is no further node.
    assert_eq!(expiring(0b11000).version, 0);
    assert_eq!(expiring(0b10000).version, 0);
}

/// A node of `nodes` whose flags are 1 to `members`, having heard them all.
fn met(nodes: u32, members: u32) -> Node {
    met_at(settings(nodes, 4, 1), members)
}

fn met_at(settings: Settings, members: u32) -> Node {
    let flags = set::full(members);
    let first = Node::begin(settings, 1, 1, flags, 2).unwrap();
    (2..=members).fold(first, |node, other| {
        node.heard(&packet(other, 1, flags, &[(other, 2)])).unwrap()
    })
}

#[test]
fn two_of_four_are_not_complete() {
    assert!(!met(4, 2).is_complete());
    assert!(met(4, 3).is_complete());
}

#[test]
fn three_of_five_are_complete() {
    assert!(met(5, 3).is_complete());
    assert!(!met(5, 2).is_complete());
}

#[test]
fn two_of_four_are_complete_where_the_site_may_split() {
    let half = met_at(split_settings(4, 4, 1), 2);
    assert!(half.is_complete());
    assert_eq!(half.ground().rule, Rule::Sent);
    let closed = half.closed().unwrap();
    assert_eq!((closed.version, closed.sends()), (2, true));
    assert_eq!(closed.schedule, schedule(&[1, 2, 1, 2]));
    assert_eq!(met(4, 2).ground().rule, Rule::Majority);
    // A lone node too, and one that lacks a request as little as ever.
    assert!(met_at(split_settings(4, 4, 1), 1).is_complete());
    let lacking = node(split_settings(4, 4, 1), 1, 2);
    assert!(!lacking.is_complete());
    assert_eq!(
        (lacking.ground().rule, lacking.ground().missing),
        (Rule::Missing, 2)
    );
}

#[test]
fn no_schedule_expires_where_the_site_may_split() {
    let mut closed = node(split_settings(5, 4, 1), 4, 1).closed().unwrap();
    closed.version = 3;
    closed.schedule = schedule(&[4, 4, 5, 0]);
    let ended = closed.wanting(2).unwrap().ended().unwrap();
    assert_eq!((ended.version, ended.schedule), (3, closed.schedule));
    assert_eq!((ended.request, ended.flags), (1, 0b01000));
}

/// Two halves of four that hear only themselves, for three epochs. In the first
/// one each still counts on the other half; from the second on each determines.
fn ship(split: u32) -> String {
    let head =
        format!("nodes slots rounds heard split\n4 4 1 1 {split}\nnode version flags want\n");
    let rows = "1 1 15 2\n2 1 15 2\n3 1 15 2\n4 1 15 2\nevent node with\n";
    let epoch = "send 1 0\nsend 2 0\nsend 3 0\nsend 4 0\nhear 1 2\nhear 2 1\nhear 3 4\nhear 4 3\n\
        close 0 0\nend 0 0\n";
    replay_text(&format!("{head}{rows}{}", epoch.repeat(3)))
}

#[test]
fn both_halves_of_a_ship_go_on() {
    let both = "line refusal split\nnode state version flags request slots\n\
        1 live 3 3 2 1,2,1,2\n2 live 3 3 2 1,2,1,2\n\
        3 live 3 12 2 3,4,3,4\n4 live 3 12 2 3,4,3,4\n";
    assert_eq!(ship(1), both);
    let none = "line refusal\nnode state version flags request slots\n\
        1 live 0 3 2 0,0,0,0\n2 live 0 3 2 0,0,0,0\n\
        3 live 0 12 2 0,0,0,0\n4 live 0 12 2 0,0,0,0\n";
    assert_eq!(ship(0), none);
}

#[test]
fn released_slot_is_dealt_one_version_later() {
    let requests = requests(&[(1, 1), (2, 3)]);
    let first = next_schedule(&schedule(&[1, 1, 0, 0]), &requests, 4);
    assert_eq!(first, schedule(&[1, 0, 2, 2]));
    let second = next_schedule(&first, &requests, 4);
    assert_eq!(second, schedule(&[1, 2, 2, 2]));
}

#[test]
fn targets_of_three_requests_for_two_slots() {
    let targets = targets(&requests(&[(1, 7), (2, 7), (3, 7)]), 2);
    assert_eq!(targets[..4], [1, 1, 0, 0]);
}

#[test]
fn targets_of_requests_above_seven() {
    let requests = requests(&[(1, 15), (2, 9), (3, 12)]);
    assert_eq!(targets(&requests, 40)[..4], [15, 9, 12, 0]);
    assert_eq!(targets(&requests, 30)[..4], [11, 9, 10, 0]);
}

/// Node 1 of two at version `own`, after it heard node 2 at version `other`.
fn meeting(own: u32, other: u32) -> Node {
    let begun = moved_to(node(settings(2, 2, 2), 1, 1), own);
    begun.heard(&packet(2, other, 3, &[(2, 1)])).unwrap()
}

#[test]
fn node_with_the_newest_version_repeats() {
    let closed = meeting(5, 4).closed().unwrap();
    assert!(closed.sends());
    assert_eq!((closed.version, closed.determined), (5, None));
}

#[test]
fn node_with_an_older_version_is_silent() {
    let closed = meeting(4, 5).closed().unwrap();
    assert!(!closed.sends());
    assert_eq!((closed.version, closed.determined), (4, None));
}

/// It is the epoch's last round, so what the close determines is due.
#[test]
fn version_1_is_determined_when_all_are_at_0() {
    let closed = meeting(0, 0).closed().unwrap();
    assert!(closed.sends());
    assert_eq!((closed.version, closed.schedule), (1, schedule(&[1, 2])));
}

/// In a round before the last it waits, at version 0.
#[test]
fn version_1_waits_for_the_last_round() {
    let begun = Node::begin(settings(2, 2, 2), 1, 0, 3, 1).unwrap();
    let heard = begun.heard(&packet(2, 0, 3, &[(2, 1)])).unwrap();
    let closed = heard.closed().unwrap();
    assert!(!closed.sends());
    assert_eq!(closed.version, 0);
    assert_eq!(closed.determined, Some(schedule(&[1, 2])));
    let last = closed.ended().unwrap().closed().unwrap();
    assert!(last.sends());
    assert_eq!((last.version, last.schedule), (1, schedule(&[1, 2])));
}

#[test]
fn node_at_0_beside_a_higher_version_is_silent() {
    let closed = meeting(0, 2).closed().unwrap();
    assert!(!closed.sends());
    assert_eq!((closed.version, closed.determined), (0, None));
}

#[test]
fn sender_outside_the_flags_changes_the_nodes_heard_only() {
    let before = Node::begin(settings(3, 2, 1), 1, 1, 0b011, 1).unwrap();
    let heard = packet(3, 1, 0b111, &[(2, 4), (3, 5)]);
    let mut expected = before;
    expected.round.heard = 0b110;
    assert_eq!(before.heard(&heard), Ok(expected));
}

#[test]
fn hearer_outside_the_packets_flags_changes_the_nodes_heard_only() {
    let before = node(settings(3, 2, 1), 1, 1);
    let mut expected = before;
    expected.round.heard = 0b100;
    let heard = packet(3, 1, 0b110, &[(3, 5)]);
    assert_eq!(before.heard(&heard), Ok(expected));
}

const PAIR: &str = "nodes slots rounds heard split\n2 2 1 1 0\nnode version flags want\n\
    1 1 3 1\n2 1 3 1\nevent node with\n";

#[test]
fn eighth_packet_of_a_node_is_accepted_and_its_ninth_refused() {
    let sends = "send 1 0\n".repeat(9);
    let output = replay_text(&format!("{PAIR}{sends}hear 2 8\nhear 2 9\nsend 2 0\n"));
    // The head has 6 lines, so the ninth send is line 15.
    assert_eq!(refusals(output.as_bytes()), [(15, 7), (17, 8)]);
}

/// 32 nodes.
fn full_site() -> String {
    let rows: String = (1..=32).map(|j| format!("{j} 1 4294967295 1\n")).collect();
    format!("nodes slots rounds heard split\n32 2 1 1 0\nnode version flags want\n{rows}event node with\n")
}

/// Each node once, eight times over: every node's sends are spread over the phase.
fn all_sends() -> String {
    let round: String = (1..=32).map(|j| format!("send {j} 0\n")).collect();
    round.repeat(8)
}

#[test]
fn packets_256_of_32_nodes_are_accepted_and_257_refused() {
    let output = replay_text(&format!(
        "{}{}send 32 0\nhear 2 256\nhear 2 257\n",
        full_site(),
        all_sends()
    ));
    // The head has 36 lines, so the 257th send is line 293.
    assert_eq!(refusals(output.as_bytes()), [(293, 7), (295, 8)]);
}

#[test]
fn a_crash_and_a_restart_keep_the_count() {
    // One round in an epoch: the count lasts until the close, the waiting until the end.
    let eight = "send 1 0\n".repeat(8);
    let back = "crash 1 0\nrestart 1 3\n";
    let round = "close 0 0\nend 0 0\n";
    let output = replay_text(&format!("{PAIR}{eight}{back}send 1 0\n{round}send 1 0\n"));
    // Waiting is tested before the count, and with the epoch both are over.
    assert_eq!(refusals(output.as_bytes()), [(17, 5)]);
}

#[test]
fn a_close_makes_room_for_packets() {
    let sends = "send 1 0\n".repeat(8);
    let output = replay_text(&format!("{PAIR}{sends}close 0 0\nend 0 0\nsend 1 0\n"));
    assert_eq!(refusals(output.as_bytes()), []);
}

#[test]
fn packet_of_44_bytes_is_refused() {
    let node = node(settings(2, 2, 1), 1, 1);
    let bytes = write_packet(&packet(2, 1, 3, &[(2, 1)]));
    assert_eq!(node.heard_bytes(&bytes[..44]), Err(Refusal::WrongLength));
    assert!(node.heard_bytes(&bytes).is_ok());
    let long = [&bytes[..], &[255]].concat();
    assert_eq!(
        read_packet(&long, &node.settings),
        Err(Refusal::WrongLength)
    );
}

#[test]
fn restart_in_round_0_waits_for_the_second_end() {
    let head = PAIR.replace("2 2 1 1 0", "2 2 2 1 0") + "crash 2 0\nrestart 2 3\nwant 2 6\n";
    let round = "close 0 0\nend 0 0\n";
    let row = |output: String| output.lines().last().unwrap().to_string();
    let first = replay_text(&format!("{head}{round}"));
    assert_eq!(row(first), "2 waiting 0 0 0 0,0");
    let second = replay_text(&format!("{head}{round}{round}"));
    assert_eq!(row(second), "2 live 0 3 6 0,0");
}

#[test]
fn whole_case() {
    let script = "nodes slots rounds heard split\n3 4 1 1 0\nnode version flags want\n\
        1 1 7 2\n2 1 7 2\n3 1 7 2\nevent node with\n\
        send 2 0\nsend 3 0\nhear 1 1\nhear 1 2\nclose 0 0\n\
        take 3 2\ntake 2 1\nend 0 0\n";
    let printed = "line refusal\n13 10\nnode state version flags request slots\n\
        1 live 2 7 2 1,2,3,1\n2 live 2 2 2 1,2,3,1\n3 live 0 4 2 0,0,0,0\n";
    assert_eq!(replay_text(script), printed);
}

#[test]
fn hearing_tests_the_merged_flags() {
    let begun = Node::begin(settings(3, 2, 1), 1, 1, 0b011, 1).unwrap();
    let second = begun.heard(&packet(2, 1, 0b111, &[(2, 1)])).unwrap();
    // Node 3 is in the merged flags only, by way of node 2.
    let third = second.heard(&packet(3, 1, 0b111, &[(3, 1)])).unwrap();
    assert!(third.is_complete());
    assert_eq!(third.interactions, 0b110);
}

#[test]
fn demand_becomes_the_request_with_the_next_version_only() {
    let wanted = node(settings(1, 3, 2), 1, 1).wanting(3).unwrap();
    assert_eq!(wanted.request, 1);
    let later = wanted.closed().unwrap().ended().unwrap();
    assert_eq!((later.version, later.request), (1, 1));
    let closed = later.closed().unwrap();
    assert_eq!((closed.version, closed.request), (2, 3));
    assert_eq!(closed.schedule, schedule(&[1, 0, 0]));
}

#[test]
fn expiry_counts_interactions_and_not_hearings() {
    let begun = Node::begin(settings(3, 2, 1), 1, 1, 0b001, 1).unwrap();
    let heard = begun
        .heard(&packet(2, 1, 0b111, &[(2, 1), (3, 1)]))
        .unwrap();
    let ended = heard.closed().unwrap().ended().unwrap();
    assert_eq!((ended.version, ended.flags), (0, 0b111));
    // A taking counts for all nodes, heard or not.
    let taken = moved_to(node(settings(3, 2, 1), 1, 1), 1);
    assert_eq!((taken.version, taken.flags), (1, 0b001));
}

/// Of nodes 2, 3 and 4 node 1 hears one once, one twice and one in all three
/// rounds. The own flag needs no hearing.
fn flags_after_three_rounds(heard: u32) -> u32 {
    let settings = Settings::new(4, 2, 3, heard, 0).unwrap();
    let round = |node: Node, senders: &[u32]| {
        let hear = |node: Node, &sender: &u32| {
            node.heard(&packet(sender, 1, 0b1111, &[(sender, 1)]))
                .unwrap()
        };
        let heard = senders.iter().fold(node, hear);
        heard.closed().unwrap().ended().unwrap()
    };
    let first = round(node(settings, 1, 1), &[2, 3, 4]);
    let second = round(first, &[3, 4]);
    assert_eq!((first.flags, second.flags), (0b1111, 0b1111));
    round(second, &[4]).flags
}

#[test]
fn flags_have_who_was_heard_often_enough() {
    assert_eq!(flags_after_three_rounds(1), 0b1111);
    assert_eq!(flags_after_three_rounds(2), 0b1101);
    assert_eq!(flags_after_three_rounds(3), 0b1001);
}

/// The highest version that any node reaches in the scenario.
fn top_version(seed: u64) -> u32 {
    let scenario = random_scenario(seed, Flavour::Plausible);
    let mut site = Site::load(scenario.settings, &scenario.table).unwrap();
    let mut area = [0; AREA_LENGTH];
    let versions = scenario.events.into_iter().filter_map(|event| {
        let _ = site.apply(&mut area, event);
        site.live_nodes().map(|node| node.version).max()
    });
    versions.max().unwrap_or(0)
}

#[test]
fn random_sites_move_their_versions() {
    let seeds = 0..600;
    let mut moving = BTreeMap::new();
    for seed in seeds.clone() {
        let rounds = random_scenario(seed, Flavour::Plausible).settings.rounds();
        if top_version(seed) >= 3 {
            *moving.entry(rounds).or_insert(0) += 1;
        }
    }
    let total: u64 = moving.values().sum();
    assert!(total * 4 > seeds.end, "only {total} sites move");
    assert!((1..=3).all(|rounds| moving[&rounds] >= 20), "{moving:?}");
}

/// How many random scripts meet each refusal number.
fn refusal_counts(flavour: Flavour, seeds: u64) -> BTreeMap<u8, u64> {
    let mut counts = BTreeMap::new();
    for seed in 0..seeds {
        let output = replay(&random_script(seed, flavour));
        let mut numbers: Vec<u8> = refusals(&output).into_iter().map(|row| row.1).collect();
        numbers.sort_unstable();
        numbers.dedup();
        for number in numbers {
            *counts.entry(number).or_insert(0) += 1;
        }
    }
    counts
}

/// A script can not reach 11 to 14: the site hears 45 bytes that a node wrote,
/// and a node has one request in a round.
#[test]
fn random_scripts_reach_every_refusal() {
    let damaged = refusal_counts(Flavour::Damaged, 1_500);
    let reached: Vec<u8> = damaged.keys().copied().collect();
    assert_eq!(reached, [1, 2, 3, 4, 5, 6, 7, 8, 9, 10, 15]);
    assert!(damaged.values().all(|&scripts| scripts >= 5), "{damaged:?}");
    let plausible = refusal_counts(Flavour::Plausible, 600);
    let reached: Vec<u8> = plausible.keys().copied().collect();
    assert_eq!(reached, [2, 3, 4, 5, 6, 7, 8, 9, 10]);
}

#[test]
fn random_scripts_are_the_same_for_the_same_seed() {
    for flavour in Flavour::ALL {
        assert_eq!(random_script(7, flavour), random_script(7, flavour));
        assert_ne!(random_script(7, flavour), random_script(8, flavour));
    }
}
