//! Causes before consequences. A refused line is mended on a copy of the site, in the way that the
//! desk's page advises for its number; a later refused line that the copy accepts follows from it.

use crate::core::{Event, Kind, Site, DONE};
use crate::meant;
use crate::run::{Run, Step};
use crate::script;

/// As many mended sites are kept beside the run.
const TOP_TRIALS: usize = 6;

/// How a refused line is mended.
#[derive(Clone, Debug, PartialEq, Eq)]
pub enum Mend {
    /// The line as it was meant.
    Instead(String),
    /// A line before it.
    Before(&'static str),
    /// A packet of another box in its place, so that later packets keep their numbers.
    Another,
}

/// What a refused line is.
pub enum Finding {
    Own(Option<Mend>),
    /// It is accepted once the cause at this line is mended.
    Follows(u64),
}

struct Trial {
    site: Site,
    line: u64,
    /// Whether a refused line was accepted here since the last end.
    useful: bool,
}

#[derive(Default)]
pub struct Causes {
    /// Each has the mends of those before it, too.
    trials: Vec<Trial>,
}

impl Causes {
    /// An accepted step: the mended sites go along. One that refuses it is on another way.
    pub fn accepted(&mut self, run: &Run, event: Event) {
        if self.trials.is_empty() {
            return;
        }
        let refusing = |trial: &mut Trial| trial.site.event(event) != DONE;
        if let Some(at) = self.trials.iter_mut().position(refusing) {
            self.trials.truncate(at);
        }
        self.trials
            .retain(|trial| !trial.site.same_memory(&run.site));
        if event.kind == Kind::End {
            self.trials
                .retain_mut(|trial| std::mem::take(&mut trial.useful));
        }
    }

    /// A refused step.
    pub fn refused(&mut self, run: &Run, step: &Step) -> Finding {
        let mut follows = None;
        if let Some(event) = step.event {
            for trial in &mut self.trials {
                if trial.site.event(event) == DONE && follows.is_none() {
                    follows = Some(trial.line);
                    trial.useful = true;
                }
            }
        }
        match follows {
            Some(line) => Finding::Follows(line),
            None => Finding::Own(self.mend(run, step)),
        }
    }

    fn mend(&mut self, run: &Run, step: &Step) -> Option<Mend> {
        let base = self.trials.last().map_or(&run.site, |trial| &trial.site);
        let (mend, site) =
            mends(step, run.settings().nodes)
                .into_iter()
                .find_map(|(mend, events)| {
                    let mut site = base.clone();
                    let all = events.into_iter().all(|event| site.event(event) == DONE);
                    all.then_some((mend, site))
                })?;
        if self.trials.len() == TOP_TRIALS {
            self.trials.remove(0);
        }
        self.trials.push(Trial {
            site,
            line: step.line.number,
            useful: true,
        });
        Some(mend)
    }
}

/// The mends to be tried, with the events that then stand for the line.
fn mends(step: &Step, nodes: u32) -> Vec<(Mend, Vec<Event>)> {
    let Some(event) = step.event else {
        let line = meant::event(&step.line).line;
        let read = line.and_then(|line| Some((script::event(line.as_bytes())?, line)));
        return Vec::from_iter(read.map(|(event, line)| (Mend::Instead(line), vec![event])));
    };
    match (step.answer, event.kind) {
        (4, _) => [("close 0 0", Kind::Close), ("end 0 0", Kind::End)]
            .into_iter()
            .map(|(line, kind)| (Mend::Before(line), vec![Event::new(kind, 0, 0), event]))
            .collect(),
        (5 | 7, Kind::Send) => (1..=nodes)
            .map(|other| (Mend::Another, vec![Event::new(Kind::Send, other, 0)]))
            .collect(),
        _ => Vec::new(),
    }
}
