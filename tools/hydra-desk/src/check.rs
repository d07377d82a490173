//! `check`: the refusals of a script, counted and explained.

use std::collections::BTreeMap;
use std::io;

use crate::causes::{Causes, Finding, Mend};
use crate::core::{Day, Settings};
use crate::head::Fault;
use crate::out::Status;
use crate::run::{Run, Step};
use crate::source::Source;
use crate::words;

/// As many refused lines are kept to be told one by one; the rest are counted.
const TOP_KEPT: usize = 10_000;

/// A refused line.
pub struct Refusal {
    pub line: u64,
    pub text: String,
    pub number: u32,
    pub sentence: String,
    /// A box that waits, or a taker that sends itself: nothing is wrong.
    pub ordinary: bool,
    /// The line from whose refusal this one follows.
    pub follows: Option<u64>,
    pub mend: Option<Mend>,
}

/// What a run of a whole script came to.
#[derive(Default)]
pub struct Checked {
    pub settings: Option<Settings>,
    pub events: u64,
    pub refused: u64,
    /// Refused lines by number, and how many of them are ordinary.
    pub counts: BTreeMap<u32, (u64, u64)>,
    pub fault: Option<Fault>,
    pub refusals: Vec<Refusal>,
    pub status: Status,
}

impl Checked {
    /// Refused lines that were counted and not kept.
    pub fn untold(&self) -> u64 {
        self.refused - self.refusals.len() as u64
    }

    fn keep(&mut self, refusal: Refusal) {
        let (all, ordinary) = self.counts.entry(refusal.number).or_default();
        *all += 1;
        *ordinary += u64::from(refusal.ordinary);
        if self.refusals.len() < TOP_KEPT {
            self.refusals.push(refusal);
        }
    }
}

pub fn check(source: Source, day: Option<Day>) -> io::Result<Checked> {
    let mut checked = Checked::default();
    let mut run = match Run::open(source, day)? {
        Ok(run) => run,
        Err(refused) => {
            checked.fault = Some(refused.fault);
            checked.status = Status::Malformed;
            return Ok(checked);
        }
    };
    checked.settings = Some(run.settings());
    let mut causes = Causes::default();
    while let Some(step) = run.step()? {
        match step.event {
            Some(event) if step.accepted() => causes.accepted(&run, event),
            _ => checked.keep(refusal(&run, &step, &mut causes)),
        }
    }
    checked.events = run.events;
    checked.refused = run.refused;
    checked.status = run.status();
    Ok(checked)
}

fn refusal(run: &Run, step: &Step, causes: &mut Causes) -> Refusal {
    let (sentence, ordinary) = words::refusal(run, step);
    let (follows, mend) = match causes.refused(run, step) {
        Finding::Follows(_) if ordinary => (None, None),
        Finding::Follows(line) => (Some(line), None),
        Finding::Own(mend) => (None, mend),
    };
    Refusal {
        line: step.line.number,
        text: step.line.shown(),
        number: step.answer,
        sentence,
        ordinary,
        follows,
        mend,
    }
}
