//! Random scripts: mostly plausible rounds with losses, crashes and odd lines; some are damaged.

/// Xorshift: small, and the same on every machine.
pub struct Random(u64);

impl Random {
    pub fn new(seed: u64) -> Random {
        let mut random = Random(seed.wrapping_mul(0x2545_f491_4f6c_dd1d) | 1);
        // The first numbers of neighbouring seeds are much alike.
        for _ in 0..20 {
            random.below(2);
        }
        random
    }

    pub fn below(&mut self, bound: u64) -> u64 {
        self.0 ^= self.0 << 13;
        self.0 ^= self.0 >> 7;
        self.0 ^= self.0 << 17;
        (self.0 >> 11) % bound
    }

    pub fn chance(&mut self, percent: u64) -> bool {
        self.below(100) < percent
    }
}

pub struct Shape {
    pub nodes: u64,
    pub rounds: u64,
    pub epochs: u64,
    pub loss: u64,
    pub noise: u64,
}

impl Shape {
    pub fn random(random: &mut Random) -> Shape {
        Shape {
            nodes: [1, 2, 3, 3, 4, 5, 7, 12][random.below(8) as usize],
            rounds: 1 + random.below(3),
            epochs: 1 + random.below(4),
            loss: [0, 0, 5, 30][random.below(4) as usize],
            noise: [0, 3, 10, 25][random.below(4) as usize],
        }
    }
}

pub fn script(random: &mut Random, shape: &Shape) -> String {
    let Shape { nodes, rounds, .. } = *shape;
    let all = (1u64 << nodes) - 1;
    let slots = 1 + random.below(if nodes > 6 { 80 } else { 12 });
    let heard = 1 + random.below(rounds);
    let split = u64::from(random.chance(25));
    let mut out =
        format!("nodes slots rounds heard split\n{nodes} {slots} {rounds} {heard} {split}\n");
    out.push_str("node version flags want\n");
    let version = u64::from(random.chance(80));
    for node in 1..=nodes {
        let want = random.below(16);
        out.push_str(&format!("{node} {version} {all} {want}\n"));
    }
    out.push_str("event node with\n");
    for _ in 0..shape.epochs * rounds {
        round(random, shape, &mut out);
    }
    out
}

/// The packets of all boxes one by one, or all before the first is heard; then the close, takes and the end.
fn round(random: &mut Random, shape: &Shape, out: &mut String) {
    let nodes = shape.nodes;
    let together = random.chance(40);
    if together {
        for sender in 1..=nodes {
            line(random, shape, out, format!("send {sender} 0"));
        }
    }
    for sender in 1..=nodes {
        if !together {
            line(random, shape, out, format!("send {sender} 0"));
        }
        for hearer in (1..=nodes).filter(|&hearer| hearer != sender) {
            if !random.chance(shape.loss) {
                line(random, shape, out, format!("hear {hearer} {sender}"));
            }
        }
    }
    line(random, shape, out, "close 0 0".to_string());
    for _ in 0..random.below(3) {
        let (taker, sender) = (1 + random.below(nodes), 1 + random.below(nodes));
        line(random, shape, out, format!("take {taker} {sender}"));
    }
    line(random, shape, out, "end 0 0".to_string());
}

/// The line, or something odd before it or in its place.
fn line(random: &mut Random, shape: &Shape, out: &mut String, line: String) {
    if shape.noise > 0 && random.below(1000) < shape.noise * 4 {
        out.push_str(&odd(random, shape.nodes));
        out.push('\n');
        if random.chance(30) {
            return;
        }
    }
    out.push_str(&line);
    out.push('\n');
}

fn odd(random: &mut Random, nodes: u64) -> String {
    let node = random.below(nodes + 2);
    let other = random.below(nodes + 2);
    let flags = random.below(1 << nodes) | 1 << node.clamp(1, nodes).saturating_sub(1);
    match random.below(12) {
        0 | 1 => format!("crash {node} 0"),
        2..=4 => format!("restart {node} {flags}"),
        5 => format!("want {node} {}", random.below(18)),
        6 => format!("take {node} {other}"),
        7 => format!("hear {node} {}", random.below(20)),
        8 => format!("send {node} {}", random.below(2)),
        9 => "close 0 0".to_string(),
        10 => "end 0 0".to_string(),
        _ => [
            "sned 1 0",
            "close",
            "hear 1  2",
            "",
            "want 01 2",
            "take 1 2 3",
            "# note",
        ][random.below(7) as usize]
            .to_string(),
    }
}

/// A byte, a line or a line's end is lost, doubled or changed.
pub fn damage(random: &mut Random, script: &str) -> Vec<u8> {
    let mut bytes = script.as_bytes().to_vec();
    let at = random.below(bytes.len() as u64) as usize;
    match random.below(7) {
        0 => bytes[at] = b' ',
        1 => bytes[at] = b'9',
        2 => {
            bytes.remove(at);
        }
        3 => bytes = script.replace('\n', "\r\n").into_bytes(),
        4 => {
            bytes.pop();
        }
        5 => bytes.truncate(at),
        _ => {
            let mut lines: Vec<&str> = script.split_inclusive('\n').collect();
            lines.remove(random.below(lines.len().min(14) as u64) as usize);
            bytes = lines.concat().into_bytes();
        }
    }
    bytes
}
