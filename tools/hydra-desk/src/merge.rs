//! The logs of a site's boxes become one script. The format of a log is in
//! `examples/service/README.md`.
//!
//! Boxes close and end each at its own moment, and no clock is common to their logs. A script has
//! one `close` and one `end` for all of them. The script that shows what the boxes hold is sorted:
//! by round; in a round the negotiation before the distribution; in a distribution the takings
//! before the crashes and restarts; otherwise the events of each box in its own order, and each
//! packet is sent before it is heard.
//!
//! What a box may do where is not known here: the script is run, and what the site refuses is told with the log's line.
//!
//! A box is down from the end of its log on, and before each restart. There the script has a
//! `crash`. A box that ended in order, with its area as the last line, is up at the script's end if
//! no other box has come further.

mod fit;
mod log;
mod sorted;
mod story;
#[cfg(test)]
mod tests;

use log::START;
use story::Story;

/// The values, or all that is wrong.
fn all<T>(results: impl Iterator<Item = Result<T, Vec<String>>>) -> Result<Vec<T>, Vec<String>> {
    let (mut values, mut faults) = (Vec::new(), Vec::new());
    for result in results {
        match result {
            Ok(value) => values.push(value),
            Err(more) => faults.extend(more),
        }
    }
    none(faults).map(|()| values)
}

fn none(faults: Vec<String>) -> Result<(), Vec<String>> {
    if faults.is_empty() {
        Ok(())
    } else {
        Err(faults)
    }
}

/// The script of a site from the logs of its boxes, each a name and its text; or sentences that say
/// why there is none.
pub fn merge(logs: &[(String, String)]) -> Result<String, Vec<String>> {
    let mut logs = all(logs.iter().map(|(name, text)| log::read(name, text)))?;
    logs.sort_by_key(|log| log.settings.node);
    none(fit::set(&logs))?;
    let mut stories = all(logs.iter().map(Story::of))?;
    none(fit::senders(&logs, &stories))?;
    none(fit::restarts(&logs, &stories))?;
    let last = stories.iter().map(|story| story.at).max().unwrap_or(START);
    for story in stories.iter_mut().filter(|story| story.at < last) {
        story.crash();
    }
    let merged = sorted::script(&logs[0].settings, &stories, last)?;
    none(fit::run(&logs, &stories, &merged))?;
    Ok(merged.script)
}
