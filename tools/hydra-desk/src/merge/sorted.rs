//! The script of the boxes' events, sorted by round and phase.

use std::collections::{BTreeMap, VecDeque};

use super::log::{Event::*, Phase::*, Place, Settings, Step, START};
use super::story::Story;

type Queue<'a> = VecDeque<&'a Step>;

/// The script, and of each event line the box and the line of its log from which it is; none of a close or an end.
pub struct Merged {
    pub script: String,
    pub origins: Vec<Option<(u32, usize)>>,
}

struct Writer {
    merged: Merged,
    /// The packets of this negotiation: by sender and its own number, the number in the script.
    packets: BTreeMap<(u32, u32), usize>,
}

impl Writer {
    /// Writes an event, unless it hears a packet that is not sent yet.
    fn write(&mut self, node: u32, step: &Step) -> bool {
        let (word, with) = match step.event {
            Send(number) => {
                let next = self.packets.len() + 1;
                self.packets.insert((node, number), next);
                ("send", 0)
            }
            Hear(sender, number) => match self.packets.get(&(sender, number)) {
                Some(packet) => ("hear", *packet as u32),
                None => return false,
            },
            Take(sender) => ("take", sender),
            Want(demand) => ("want", demand),
            Crash => ("crash", 0),
            Restart(flags) => ("restart", flags),
            Begin(..) | Close | End | Area | Nothing => return true,
        };
        self.line(&format!("{word} {node} {with}\n"), Some((node, step.line)));
        true
    }

    fn line(&mut self, line: &str, origin: Option<(u32, usize)>) {
        self.merged.script.push_str(line);
        self.merged.origins.push(origin);
    }

    /// Each box in its own order, as far as it goes, again and again. False where boxes wait for
    /// each other's packets.
    fn write_all(&mut self, mut queues: Vec<Queue>) -> bool {
        let mut goes_on = true;
        while goes_on {
            goes_on = false;
            for (node, queue) in (1..).zip(queues.iter_mut()) {
                while queue.front().is_some_and(|step| self.write(node, step)) {
                    queue.pop_front();
                    goes_on = true;
                }
            }
        }
        queues.iter().all(|queue| queue.is_empty())
    }

    /// What each box does before it crashes or restarts, then the rest.
    fn write_distribution(&mut self, queues: Vec<Queue>) -> bool {
        let (mut before, mut behind) = (Vec::new(), Vec::new());
        for mut queue in queues {
            let goes_down = |step: &&Step| matches!(step.event, Crash | Restart(_));
            let cut = queue.iter().position(goes_down).unwrap_or(queue.len());
            behind.push(queue.split_off(cut));
            before.push(queue);
        }
        self.write_all(before) && self.write_all(behind)
    }
}

/// The script's lines before its events.
fn head(settings: &Settings, stories: &[Story]) -> String {
    let figures = settings.common[1..].iter().map(|n| n.to_string());
    let figures = figures.collect::<Vec<_>>().join(" ");
    let mut text = format!("nodes slots rounds heard split\n{figures}\nnode version flags want\n");
    for (node, story) in stories.iter().enumerate() {
        let (version, flags, demand) = story.row;
        text.push_str(&format!("{} {version} {flags} {demand}\n", node + 1));
    }
    text + "event node with\n"
}

/// The steps at a place, taken off a queue.
fn taken<'a>(queue: &mut Queue<'a>, place: Place) -> Queue<'a> {
    let mut here = Queue::new();
    while queue.front().is_some_and(|step| step.place == place) {
        here.extend(queue.pop_front());
    }
    here
}

pub fn script(settings: &Settings, stories: &[Story], last: Place) -> Result<Merged, Vec<String>> {
    let mut writer = Writer {
        merged: Merged {
            script: head(settings, stories),
            origins: Vec::new(),
        },
        packets: BTreeMap::new(),
    };
    let mut queues: Vec<Queue> = stories.iter().map(|s| s.steps.iter().collect()).collect();
    let mut place = START;
    loop {
        let now = queues.iter_mut().map(|queue| taken(queue, place)).collect();
        let (written, call) = match place.1 {
            Negotiation => (writer.write_all(now), "close 0 0\n"),
            Distribution => (writer.write_distribution(now), "end 0 0\n"),
        };
        if !written {
            return Err(vec![format!(
                "In {place} packets are heard before they are sent."
            )]);
        }
        if place == last {
            return Ok(writer.merged);
        }
        writer.line(call, None);
        writer.packets.clear();
        place = place.next();
    }
}
