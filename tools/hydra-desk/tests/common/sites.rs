//! Sites for pictures: long runs of three, eight and twenty boxes, many rounds, thirty-two boxes, six boxes with late hearings.

use super::random::Random;

struct Story {
    text: String,
    nodes: u32,
    /// The boxes that are down or waiting.
    out: u32,
}

impl Story {
    fn new(nodes: u32, slots: u32, rounds: u32, wants: impl Fn(u32) -> u32) -> Story {
        let all = u32::MAX >> (32 - nodes);
        let mut text = format!("nodes slots rounds heard split\n{nodes} {slots} {rounds} 1 0\nnode version flags want\n");
        for node in 1..=nodes {
            text.push_str(&format!("{node} 1 {all} {}\n", wants(node)));
        }
        text.push_str("event node with\n");
        Story {
            text,
            nodes,
            out: 0,
        }
    }

    fn line(&mut self, line: &str) {
        self.text.push_str(line);
        self.text.push('\n');
    }

    fn crash(&mut self, node: u32) {
        self.line(&format!("crash {node} 0"));
        self.out |= 1 << (node - 1);
    }

    fn is_up(&self, node: u32) -> bool {
        self.out >> (node - 1) & 1 == 0
    }

    /// A round in which box a hears box b where `hears` says so.
    fn round(&mut self, mut hears: impl FnMut(u32, u32) -> bool, takes: &[(u32, u32)]) {
        let mut packet = 0;
        for sender in (1..=self.nodes)
            .filter(|&node| self.is_up(node))
            .collect::<Vec<u32>>()
        {
            self.line(&format!("send {sender} 0"));
            packet += 1;
            for listener in 1..=self.nodes {
                if listener != sender && self.is_up(listener) && hears(listener, sender) {
                    self.line(&format!("hear {listener} {packet}"));
                }
            }
        }
        self.line("close 0 0");
        for (taker, from) in takes {
            self.line(&format!("take {taker} {from}"));
        }
        self.line("end 0 0");
    }
}

/// Sixty epochs of eight boxes: two splits, three crashes, changed demands, some losses.
pub fn eight() -> String {
    let mut random = Random::new(8);
    let mut story = Story::new(8, 24, 1, |node| 1 + node % 4);
    for epoch in 1..=60 {
        match epoch {
            8 => story.line("want 2 6"),
            10 => story.crash(3),
            13 => story.line("restart 3 255"),
            20 => story.line("want 4 1"),
            38 => {
                story.crash(6);
                story.crash(7);
            }
            44 => story.line("restart 6 255"),
            46 => story.line("restart 7 255"),
            _ => {}
        }
        let parted = (22..27).contains(&epoch) || (54..57).contains(&epoch);
        let takes = if epoch % 5 == 0 {
            vec![(5, 1), (3, 1)]
        } else {
            Vec::new()
        };
        story.round(
            |a, b| (!parted || (a <= 4) == (b <= 4)) && random.below(250) > 0,
            &takes,
        );
        // A box that was restarted is live with the epoch's end.
        let restarted = [(13, 3), (44, 6), (46, 7)]
            .iter()
            .find(|(at, _)| *at == epoch);
        if let Some((_, node)) = restarted {
            story.out &= !(1 << (node - 1));
        }
    }
    story.text
}

/// Four epochs of thirty-two boxes: a hill between 24 and 8 of them, a crash, a deaf box.
pub fn thirty_two() -> String {
    let mut random = Random::new(32);
    let mut story = Story::new(32, 80, 1, |node| 2 + node % 3);
    for epoch in 1..=4 {
        if epoch == 2 {
            story.crash(12);
        }
        let hill = epoch == 2 || epoch == 3;
        let takes: Vec<(u32, u32)> = (25..=32).map(|taker| (taker, 1)).collect();
        story.round(
            |a, b| {
                (!hill || (a <= 24) == (b <= 24))
                    && !(epoch == 4 && a == 7)
                    && (epoch != 2 || random.below(50) > 0)
            },
            &takes,
        );
    }
    story.text
}

/// Ten epochs of twenty boxes: heavy losses in some, and a crash.
pub fn twenty() -> String {
    let mut random = Random::new(20);
    let mut story = Story::new(20, 80, 1, |node| 1 + node % 6);
    for epoch in 1..=10 {
        if epoch == 4 {
            story.crash(18);
        }
        let loss = if epoch % 3 == 0 { 30 } else { 1000 };
        story.round(|_, _| random.below(loss) > 0, &[(5, 1), (17, 1)]);
    }
    story.text
}

/// Seventy epochs of three boxes with two rounds each, and many changes of demand.
pub fn three() -> String {
    let mut random = Random::new(3);
    let mut story = Story::new(3, 12, 2, |node| 2 * node);
    for epoch in 1..=70 {
        if epoch % 4 == 0 {
            story.line(&format!("want {} {}", 1 + random.below(3), random.below(9)));
        }
        for _ in 0..2 {
            story.round(|_, _| random.below(20) > 0, &[(1, 2)]);
        }
    }
    story.text
}

/// Five boxes with twelve rounds in an epoch; one goes down in the middle of it.
pub fn many_rounds() -> String {
    let mut random = Random::new(12);
    let mut story = Story::new(5, 10, 12, |node| node);
    for round in 1..=12 {
        if round == 6 {
            story.crash(4);
        }
        story.round(|_, _| random.below(8) > 0, &[]);
    }
    story.text
}

/// Six boxes with wide numbers, late hearings and many kinds of lines; the script stops in distribution.
pub fn six() -> String {
    let mut story = Story::new(6, 18, 2, |node| node);
    for _ in 0..2 {
        story.round(|a, b| a != 2 || b != 5, &[(2, 1), (2, 2)]);
    }
    story.line("want 5 15");
    story.crash(6);
    story.line("restart 6 63");
    for sender in [1, 2, 3] {
        story.line(&format!("send {sender} 0"));
    }
    for line in [
        "hear 2 1",
        "hear 3 1",
        "send 4 0",
        "hear 4 2",
        "hear 5 4",
        "hear 5 1",
        "hear 6 1",
        "hear 1 44",
    ] {
        story.line(line);
    }
    story.line("close 0 0");
    story.text
}
