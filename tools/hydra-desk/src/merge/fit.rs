//! Whether the logs of the boxes fit together: each fault in a sentence.

use super::log::{Event::*, Log, Place, Step};
use super::sorted::Merged;
use super::story::Story;
use crate::core::Kind;
use crate::run::Run;
use crate::source::Source;
use crate::words;

/// One log for each box, all with the same settings: what is wrong. The logs are in the order of
/// their boxes.
pub fn set(logs: &[Log]) -> Vec<String> {
    let Some(first) = logs.first() else {
        return vec!["There is no log.".to_string()];
    };
    let mut faults = Vec::new();
    for log in logs
        .iter()
        .filter(|log| log.settings.common != first.settings.common)
    {
        faults.push(format!(
            "{} and {}: the settings differ.",
            first.name, log.name
        ));
    }
    for pair in logs.windows(2) {
        let (name, next, node) = (pair[0].name, pair[1].name, pair[0].settings.node);
        if node == pair[1].settings.node {
            faults.push(format!("{name} and {next}: both are logs of box {node}."));
        }
    }
    for node in 1..=first.settings.nodes() {
        if logs.iter().all(|log| log.settings.node != node) {
            faults.push(format!(
                "There is no log of box {node}; if it was never up, its settings are enough."
            ));
        }
    }
    faults
}

/// Each packet that was heard was sent in that round, and each schedule that was taken came from a
/// close of that round: what is wrong.
pub fn senders(logs: &[Log], stories: &[Story]) -> Vec<String> {
    let mut faults = Vec::new();
    for (log, story) in logs.iter().zip(stories) {
        let node = log.settings.node;
        let other = |j: u32| {
            stories
                .get(j.wrapping_sub(1) as usize)
                .filter(|_| j != node)
        };
        for Step {
            line,
            place: Place(round, _),
            event,
        } in &story.steps
        {
            let fault = match *event {
                Hear(j, number)
                    if !other(j).is_some_and(|s| s.sent.contains(&(*round, number))) =>
                {
                    format!("hears packet {number} of box {j} in round {round}, which no log sent")
                }
                Take(j) if !other(j).is_some_and(|s| s.closed.contains_key(round)) => {
                    format!("takes from box {j} in round {round}, which that box did not close")
                }
                _ => continue,
            };
            faults.push(format!("{}, line {line}: box {node} {fault}.", log.name));
        }
    }
    faults
}

/// A box restarts by the clock of another, so that one has come there too: what is wrong.
pub fn restarts(logs: &[Log], stories: &[Story]) -> Vec<String> {
    let mut faults = Vec::new();
    for (log, story) in logs.iter().zip(stories) {
        let others = stories.iter().filter(|other| !std::ptr::eq(*other, story));
        let Some(furthest) = others.map(|other| other.at).max() else {
            continue;
        };
        for Step { line, place, event } in &story.steps {
            if matches!(event, Restart(_)) && *place > furthest {
                let name = log.name;
                faults.push(format!(
                    "{name}, line {line}: it restarts in {place}, where no other box has come."
                ));
            }
        }
    }
    faults
}

/// The site accepts every line of the script, and the boxes that it closes are those whose logs close: what is wrong.
pub fn run(logs: &[Log], stories: &[Story], merged: &Merged) -> Vec<String> {
    let source = Source::from_bytes("", merged.script.clone().into_bytes());
    let mut run = match Run::open(source, None).expect("bytes can be read") {
        Ok(run) => run,
        Err(refused) => return vec![format!("{}: {}.", logs[0].name, refused.fault.sentence)],
    };
    let mut faults = Vec::new();
    let mut round = 0;
    let mut origins = merged.origins.iter();
    while let Some(step) = run.step().expect("bytes can be read") {
        let origin = origins.next().copied().flatten();
        if let (Some((node, line)), false) = (origin, step.accepted()) {
            let (name, (sentence, _)) = (logs[node as usize - 1].name, words::refusal(&run, &step));
            let (text, number) = (step.line.shown(), step.answer);
            faults.push(format!(
                "{name}, line {line}: `{text}` is refused, {sentence} ({number})."
            ));
        }
        if step.is(Kind::Close) {
            for (log, story) in logs.iter().zip(stories) {
                let (name, node) = (log.name, log.settings.node);
                let closes = step.reports.iter().any(|report| report.node == node);
                match (closes, story.closed.get(&round)) {
                    (true, None) => faults.push(format!(
                        "{name}: box {node} goes on from round {round} without a close, and does not wait there."
                    )),
                    (false, Some(line)) => faults.push(format!(
                        "{name}, line {line}: box {node} closes round {round}, but waits there."
                    )),
                    _ => {}
                }
            }
            round += 1;
        }
    }
    faults
}
