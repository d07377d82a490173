//! Properties of the allotment (specification, 4), on random schedules.

#![forbid(unsafe_code)]

mod common;

use common::{requests, schedule};
use reference::allotment::{next_schedule, targets, Requests, NO_REQUEST, NO_REQUESTS};
use reference::random::Random;
use reference::schedule::{Schedule, FREE};
use reference::settings::MAX_REQUEST;

fn random_requests(random: &mut Random) -> Requests {
    let nodes = random.between(1, 32) as usize;
    let mut requests = NO_REQUESTS;
    for request in &mut requests[..nodes] {
        let asks = random.chance(70);
        let slots = random.between(0, MAX_REQUEST) as u8;
        *request = if asks { slots } else { NO_REQUEST };
    }
    requests
}

fn random_schedule(random: &mut Random, slots: u32) -> Schedule {
    let nodes = random.between(0, 32);
    let owners: Vec<u8> = (0..slots).map(|_| random.between(0, nodes) as u8).collect();
    Schedule::of(&owners)
}

/// How many slots a node owns, slot by slot.
fn count(schedule: &Schedule, owner: u8) -> u8 {
    let owners = schedule.owners();
    owners.iter().filter(|&&other| other == owner).count() as u8
}

/// The masks against the owners that they were made of.
#[test]
fn masks_hold_what_their_owners_say() {
    let mut random = Random::new(9);
    for _ in 0..5_000 {
        let slots = random.between(1, 80);
        let owners: Vec<u8> = (0..slots).map(|_| random.between(0, 32) as u8).collect();
        let schedule = Schedule::of(&owners);
        assert_eq!(schedule.owners()[..slots as usize], owners);
        assert!(schedule.owners()[slots as usize..].iter().all(|&owner| owner == FREE));
        for node in 1..=32u8 {
            assert_eq!(schedule.counts()[usize::from(node) - 1], count(&schedule, node));
        }
        assert_eq!(schedule.is_free(), owners.iter().all(|&owner| owner == FREE));
    }
}

#[test]
fn targets_add_to_the_smaller_of_slots_and_requests() {
    let mut random = Random::new(5);
    for _ in 0..5_000 {
        let requests = random_requests(&mut random);
        let slots = random.between(1, 80);
        let targets = targets(&requests, slots);
        let asked = requests.map(|request| if request == NO_REQUEST { 0 } else { request });
        let wanted: u32 = asked.iter().map(|&request| u32::from(request)).sum();
        let dealt: u32 = targets.iter().map(|&target| u32::from(target)).sum();
        assert_eq!(dealt, wanted.min(slots));
        for (target, request) in targets.iter().zip(asked) {
            assert!(*target <= request);
        }
    }
}

#[test]
fn schedules_are_compatible_and_within_their_targets() {
    let mut random = Random::new(6);
    for _ in 0..5_000 {
        let slots = random.between(1, 80);
        let requests = random_requests(&mut random);
        let old = random_schedule(&mut random, slots);
        let next = next_schedule(&old, &requests, slots);
        let compatible = |(&a, &b): (&u8, &u8)| a == b || a == FREE || b == FREE;
        assert!(old.owners().iter().zip(&next.owners()).all(compatible));
        assert!(next.owners()[slots as usize..].iter().all(|&owner| owner == FREE));
        for (node, target) in (1u8..).zip(targets(&requests, slots)) {
            assert!(count(&next, node) <= target);
        }
    }
}

/// With the same requests nothing is released the second time, so every
/// target is met then and the schedule stays.
#[test]
fn second_version_meets_every_target() {
    let mut random = Random::new(7);
    for _ in 0..5_000 {
        let slots = random.between(1, 80);
        let requests = random_requests(&mut random);
        let old = random_schedule(&mut random, slots);
        let first = next_schedule(&old, &requests, slots);
        let second = next_schedule(&first, &requests, slots);
        for (node, target) in (1u8..).zip(targets(&requests, slots)) {
            assert_eq!(count(&second, node), target);
        }
        assert_eq!(next_schedule(&second, &requests, slots), second);
    }
}

#[test]
fn free_slots_go_to_the_fewest_and_then_the_lowest() {
    let requests = requests(&[(1, 3), (2, 2), (4, 1)]);
    let next = next_schedule(&schedule(&[1, 1, 0, 0, 0, 3]), &requests, 6);
    assert_eq!(next, schedule(&[1, 1, 2, 4, 2, 0]));
    let second = next_schedule(&next, &requests, 6);
    assert_eq!(second, schedule(&[1, 1, 2, 4, 2, 1]));
}
