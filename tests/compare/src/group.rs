//! A group of nodes that exchange packets and schedules by calls alone, each
//! of them a [`Twin`]. Most rounds go as a site's do, so that versions move;
//! between them stand calls with wrong inputs, in the wrong phase, or late.

use reference::node::{Node, Phase};
use reference::random::Random;
use reference::set;
use reference::settings::Settings;
use reference::wire::{PACKET_LENGTH, SCHEDULE_LENGTH};

use crate::area;
use crate::call::{Beginning, Call, Restarting, Run};
use crate::inputs;
use crate::oracle::{self, REPORT_LENGTH};
use crate::tally::Tally;
use crate::twin::Twin;

/// What the runs came to; comparisons of nodes that stand still show little.
#[derive(Default)]
pub struct Progress {
    pub tally: Tally,
    /// Closes that took a determined schedule, by rounds in an epoch up to 4.
    pub advanced: [u64; 5],
    /// Closes that sent without a new version.
    pub repeated: u64,
    /// Closes that left a determined schedule for a later round.
    pub determined: u64,
    /// Takes of another version.
    pub moved: u64,
    /// Ends that lost the version.
    pub expired: u64,
}

impl Progress {
    fn note(&mut self, call: Call, before: &Node, after: &Node) {
        let other_version = before.version != after.version;
        match call {
            Call::Close if after.sends() && other_version => {
                let rounds = after.settings.rounds().min(4);
                self.advanced[rounds as usize] += 1;
            }
            Call::Close if after.sends() => self.repeated += 1,
            Call::Close if after.determined.is_some() => self.determined += 1,
            Call::Take if other_version => self.moved += 1,
            Call::End if other_version => self.expired += 1,
            _ => {}
        }
    }
}

pub struct Group<'a> {
    random: Random,
    settings: Settings,
    twins: Vec<Twin>,
    /// The packets of this round, and of the one before.
    packets: Vec<Vec<u8>>,
    old_packets: Vec<Vec<u8>>,
    /// The schedules sent in this round.
    schedules: Vec<Vec<u8>>,
    /// Whether losses and odd calls are many.
    rough: bool,
    /// What is held against the second implementation.
    others: &'a [Run],
    progress: &'a mut Progress,
}

/// Runs a group for some rounds, in the second implementation and in others.
pub fn play(seed: u64, rounds: u32, others: &[Run], progress: &mut Progress) {
    let mut random = Random::new(seed);
    let settings = inputs::settings(&mut random);
    let rough = random.chance(40);
    let mut group = Group {
        random,
        settings,
        twins: Vec::new(),
        packets: Vec::new(),
        old_packets: Vec::new(),
        schedules: Vec::new(),
        rough,
        others,
        progress,
    };
    group.begin();
    for _ in 0..rounds {
        group.round();
    }
}

/// Rounds.
impl Group<'_> {
    fn begin(&mut self) {
        self.twins.clear();
        for node in 1..=self.settings.nodes() {
            let call = Call::Begin(self.beginning(node));
            let garbage = inputs::bytes(&mut self.random, area::LENGTH);
            let twin = Twin::new(call, &garbage, self.others, &mut self.progress.tally);
            self.twins.push(twin);
        }
    }

    /// Mostly version 1 and all flags, from which versions move.
    fn beginning(&mut self, node: u32) -> Beginning {
        let full = set::full(self.settings.nodes());
        let some = self.random.next_u32() & full | set::single(node);
        Beginning {
            node,
            nodes: self.settings.nodes(),
            slots: self.settings.slots(),
            rounds: self.settings.rounds(),
            heard: self.settings.heard(),
            split: self.settings.split(),
            version: u32::from(self.random.chance(95)),
            flags: if self.random.chance(90) { full } else { some },
            demand: inputs::request(&mut self.random),
        }
    }

    fn round(&mut self) {
        let reception = if self.rough {
            self.random.pick(&[100, 90, 60, 30])
        } else {
            self.random.pick(&[100, 100, 98])
        };
        self.negotiate(reception);
        self.close_all();
        self.distribute(reception);
        self.end_all();
        // Without a version above 0 nothing is determined any more.
        let dead = self.twins.iter().all(|twin| twin.node().version == 0);
        if dead && self.random.chance(40) {
            self.begin();
        }
    }

    /// Everybody sends once or twice. In large groups only some nodes hear.
    fn negotiate(&mut self, reception: u32) {
        let count = self.twins.len();
        let hearing = if count > 8 {
            3 + self.random.below(3)
        } else {
            count
        };
        let passes = self.random.between(1, 2);
        for _ in 0..passes {
            let mut senders: Vec<usize> = (0..count).collect();
            self.random.shuffle(&mut senders);
            for sender in senders {
                self.broadcast(sender, hearing, reception);
                self.noise();
            }
        }
    }

    fn broadcast(&mut self, sender: usize, hearing: usize, reception: u32) {
        let spare = self.random.below(9);
        let mut packet = inputs::bytes(&mut self.random, PACKET_LENGTH + spare);
        if self.call(sender, Call::Send, &[], &mut packet) != 0 {
            return;
        }
        packet.truncate(PACKET_LENGTH);
        for hearer in (0..self.twins.len()).filter(|&hearer| hearer != sender) {
            // The first nodes hear all; the others, each the next one.
            let near = hearer < hearing || hearer == (sender + 1) % self.twins.len();
            if near && self.random.chance(reception) {
                self.call(hearer, Call::Hear, &packet, &mut []);
            }
        }
        self.packets.push(packet);
    }

    fn close_all(&mut self) {
        self.schedules.clear();
        self.old_packets = std::mem::take(&mut self.packets);
        for node in self.nodes_in(|phase| phase == Phase::Negotiation) {
            let mut output = inputs::bytes(&mut self.random, SCHEDULE_LENGTH + 5);
            self.call(node, Call::Close, &[], &mut output);
            if self.twins[node].node().sends() {
                output.truncate(SCHEDULE_LENGTH);
                self.schedules.push(output);
            }
            self.noise();
        }
    }

    fn distribute(&mut self, reception: u32) {
        let silent = Phase::Distribution { sends: false };
        for node in self.nodes_in(|phase| phase == silent) {
            if !self.schedules.is_empty() && self.random.chance(reception) {
                let schedule = self.schedules[self.random.below(self.schedules.len())].clone();
                self.call(node, Call::Take, &schedule, &mut []);
            }
            self.noise();
        }
    }

    fn end_all(&mut self) {
        for node in self.nodes_in(|phase| phase != Phase::Negotiation) {
            self.call(node, Call::End, &[], &mut []);
            self.noise();
        }
    }

    fn nodes_in(&self, wanted: impl Fn(Phase) -> bool) -> Vec<usize> {
        (0..self.twins.len())
            .filter(|&node| wanted(self.twins[node].node().phase))
            .collect()
    }

    fn call(&mut self, node: usize, call: Call, input: &[u8], output: &mut [u8]) -> u32 {
        let twin = &mut self.twins[node];
        let before = *twin.node();
        let answer = twin.call(call, input, output, &mut self.progress.tally);
        self.progress.note(call, &before, twin.node());
        answer
    }
}

/// Calls that do not belong to the round.
impl Group<'_> {
    fn noise(&mut self) {
        let percent = if self.rough { 20 } else { 6 };
        if self.random.chance(percent) {
            let node = self.random.below(self.twins.len());
            self.odd_call(node);
        }
    }

    fn odd_call(&mut self, node: usize) {
        let random = &mut self.random;
        let call = match random.below(100) {
            0..=14 => Call::Want(inputs::request(random)),
            15..=19 => Call::Want(inputs::odd_number(random)),
            20..=24 => Call::Read,
            25..=29 => Call::Slots,
            30..=39 => Call::Send,
            40..=69 => Call::Hear,
            70..=84 => Call::Take,
            85..=87 => Call::Close,
            88..=90 => Call::End,
            91..=94 => Call::Begin(inputs::beginning(random)),
            95..=98 => self.odd_restart(node),
            _ => Call::Begin(self.beginning(node as u32 + 1)),
        };
        // Another node number or other settings would end the exchange.
        if self.would_leave(node, call) {
            return;
        }
        let input = self.odd_input(node, call);
        let mut output = self.odd_output();
        self.call(node, call, &input, &mut output);
    }

    fn odd_restart(&mut self, node: usize) -> Call {
        if self.random.chance(50) {
            return Call::Restart(inputs::restarting(&mut self.random));
        }
        let id = node as u32 + 1;
        Call::Restart(Restarting {
            node: id,
            nodes: self.settings.nodes(),
            slots: self.settings.slots(),
            rounds: self.settings.rounds(),
            heard: self.settings.heard(),
            split: self.settings.split(),
            flags: set::full(self.settings.nodes()),
            place: self.twins[node].node().place,
        })
    }

    fn would_leave(&self, node: usize, call: Call) -> bool {
        let begins = matches!(call, Call::Begin(_) | Call::Restart(_));
        begins
            && oracle::first(call)
                .is_ok_and(|next| next.settings != self.settings || next.id != node as u32 + 1)
    }

    /// A packet or schedule: late, damaged, made up, or of a wrong length.
    fn odd_input(&mut self, node: usize, call: Call) -> Vec<u8> {
        let packet = matches!(call, Call::Hear);
        let seen = match (packet, self.random.chance(50)) {
            (true, true) => &self.packets,
            (true, false) => &self.old_packets,
            (false, _) => &self.schedules,
        };
        let seen = match seen.len() {
            0 => Vec::new(),
            count => seen[self.random.below(count)].clone(),
        };
        let node = self.twins[node].node();
        match self.random.below(10) {
            0..=4 => seen,
            5..=6 => inputs::damaged(&mut self.random, &seen),
            7 => inputs::bytes(&mut self.random, seen.len()),
            _ => inputs::input(&mut self.random, call, node),
        }
    }

    fn odd_output(&mut self) -> Vec<u8> {
        let length = self.random.below(REPORT_LENGTH + 20);
        let length = self.random.pick(&[length, 0, 44, 45, 83, 84, 95, 96]);
        inputs::bytes(&mut self.random, length)
    }
}
