//! The layouts on the air: one form for each meaning, and no other form read.

#![forbid(unsafe_code)]

mod common;

use common::{packet, schedule, settings};
use reference::allotment::NO_REQUESTS;
use reference::random::Random;
use reference::refusal::Refusal;
use reference::schedule::FREE_SCHEDULE;
use reference::set;
use reference::settings::{Settings, MAX_REQUEST};
use reference::wire::{read_packet, read_schedule, write_packet, write_schedule, Packet};

fn random_settings(random: &mut Random) -> Settings {
    let nodes = random.between(1, 32);
    let slots = random.between(1, 80);
    settings(nodes, slots, 1)
}

fn random_packet(random: &mut Random, settings: &Settings) -> Packet {
    let sender = random.between(1, settings.nodes());
    let flags = random.next_u32() & set::full(settings.nodes()) | set::single(sender);
    let mut requests = NO_REQUESTS;
    for node in 1..=settings.nodes() {
        if node == sender || set::contains(flags, node) && random.chance(50) {
            requests[node as usize - 1] = random.between(0, MAX_REQUEST) as u8;
        }
    }
    let lowest = random.between(0, 1_000_000);
    Packet {
        sender,
        lowest,
        highest: random.between(lowest, 1_000_000),
        flags,
        requests,
    }
}

#[test]
fn packets_are_read_as_written() {
    let mut random = Random::new(2);
    for _ in 0..5_000 {
        let settings = random_settings(&mut random);
        let packet = random_packet(&mut random, &settings);
        assert_eq!(read_packet(&write_packet(&packet), &settings), Ok(packet));
    }
}

#[test]
fn edited_packets_are_refused_or_have_their_one_form() {
    let mut random = Random::new(3);
    let mut read = 0;
    for _ in 0..50_000 {
        let settings = random_settings(&mut random);
        let mut bytes = write_packet(&random_packet(&mut random, &settings));
        let at = random.below(bytes.len());
        let any = random.next_u32() as u8;
        bytes[at] = random.pick(&[0, 1, 15, 16, 255, any]);
        match read_packet(&bytes, &settings) {
            Ok(packet) => {
                read += 1;
                assert_eq!(write_packet(&packet), bytes);
            }
            Err(refusal) => assert_eq!(refusal, Refusal::Layout),
        }
    }
    assert!((5_000..45_000).contains(&read), "{read}");
}

#[test]
fn packet_layout_in_bytes() {
    let mut sent = packet(2, 0x0102, 0b110, &[(2, 5), (3, 0)]);
    sent.highest = 0x0f4240;
    let mut expected = vec![2, 0, 0, 1, 2, 0, 0x0f, 0x42, 0x40, 0, 0, 0, 6];
    expected.extend([255, 5, 0]);
    expected.extend([255; 29]);
    assert_eq!(write_packet(&sent)[..], expected);
}

#[test]
fn broken_packets_are_refused() {
    let good = packet(2, 1, 0b011, &[(1, 15), (2, 0)]);
    let broken = [
        Packet { sender: 0, ..good },
        Packet { sender: 3, ..good },
        Packet { sender: 4, ..good },
        Packet { lowest: 2, ..good },
        Packet {
            highest: 1_000_001,
            ..good
        },
        Packet {
            flags: 0b010,
            ..good
        },
        Packet {
            flags: 0b1011,
            ..good
        },
        packet(2, 1, 0b011, &[(1, 15)]),
        packet(2, 1, 0b011, &[(2, 16)]),
        packet(2, 1, 0b011, &[(2, 254)]),
        packet(2, 1, 0b011, &[(2, 15), (4, 0)]),
    ];
    let settings = settings(3, 2, 1);
    assert_eq!(good.check(&settings), Ok(()));
    for packet in broken {
        let bytes = write_packet(&packet);
        assert_eq!(read_packet(&bytes, &settings), Err(Refusal::Layout));
    }
}

#[test]
fn schedules_are_read_as_written() {
    let mut random = Random::new(4);
    for _ in 0..2_000 {
        let settings = random_settings(&mut random);
        let version = random.between(1, 1_000_000);
        let owner = |_| random.between(0, settings.nodes()) as u8;
        let owners: Vec<u8> = (0..settings.slots()).map(owner).collect();
        let bytes = write_schedule(version, &schedule(&owners));
        assert_eq!(bytes[4..4 + owners.len()], owners);
        assert_eq!(read_schedule(&bytes, &settings), Ok((version, schedule(&owners))));
    }
}

#[test]
fn broken_schedules_are_refused() {
    let settings = settings(3, 2, 1);
    let read = |version, owners: &[u8]| {
        read_schedule(&write_schedule(version, &schedule(owners)), &settings).map(|_| ())
    };
    assert_eq!(read(1_000_000, &[3, 1]), Ok(()));
    assert_eq!(read(0, &[]), Ok(()));
    assert_eq!(read(1_000_001, &[3, 1]), Err(Refusal::Layout));
    assert_eq!(read(1, &[4, 1]), Err(Refusal::Layout));
    assert_eq!(read(1, &[0, 0, 1]), Err(Refusal::Layout));
    assert_eq!(read(0, &[0, 1]), Err(Refusal::Layout));
    let bytes = write_schedule(1, &FREE_SCHEDULE);
    let long = [&bytes[..], &[0]].concat();
    assert_eq!(read_schedule(&long, &settings), Err(Refusal::WrongLength));
    assert_eq!(read_schedule(&[], &settings), Err(Refusal::WrongLength));
}
