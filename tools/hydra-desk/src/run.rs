//! The run of a script: each event line goes to the site in memory.

use std::io;

use crate::core::{Day, Event, Kind, Report, Settings, Site, DONE, TALLY_EPOCHS};
use crate::head::{self, Fault, Head};
use crate::out::Status;
use crate::script;
use crate::source::{Line, Source};

/// Where in its rounds and epochs a site is, counted by what it has accepted.
#[derive(Clone, Copy, Debug, PartialEq, Eq)]
pub struct Place {
    /// From 1.
    pub epoch: u64,
    /// From 1, within the epoch.
    pub round: u64,
    pub distribution: bool,
}

impl Place {
    const START: Place = Place {
        epoch: 1,
        round: 1,
        distribution: false,
    };

    /// Behind an accepted event; `begins_epoch` is what the tally says of it.
    fn behind(self, kind: Kind, begins_epoch: bool) -> Place {
        match kind {
            Kind::Close => Place {
                distribution: true,
                ..self
            },
            Kind::End if begins_epoch => Place {
                epoch: self.epoch + 1,
                ..Place::START
            },
            Kind::End => Place {
                round: self.round + 1,
                distribution: false,
                ..self
            },
            _ => self,
        }
    }
}

/// A line and what became of it.
pub struct Step {
    pub line: Line,
    /// None for a line that is no event line.
    pub event: Option<Event>,
    pub answer: u32,
    /// Where the site was before it.
    pub place: Place,
    /// Whether an epoch begins with it.
    pub begins_epoch: bool,
    /// Of a close, what each live box did and why.
    pub reports: Vec<Report>,
    /// Of a hearing, whether the packet was merged, if that was looked for and can be seen.
    pub merged: Option<bool>,
}

impl Step {
    pub fn accepted(&self) -> bool {
        self.answer == DONE
    }

    pub fn is(&self, kind: Kind) -> bool {
        self.accepted() && self.event.is_some_and(|event| event.kind == kind)
    }
}

pub struct Run {
    source: Source,
    pub head: Head,
    pub site: Site,
    pub place: Place,
    /// Whether hearings are looked at for merging; it takes a copy of the site for each.
    pub merging: bool,
    pub events: u64,
    pub refused: u64,
    /// Whether a line was refused with 2.
    malformed: bool,
}

/// What a script came to before its events.
pub struct Refused {
    pub split: bool,
    pub fault: Fault,
}

impl Run {
    pub fn open(mut source: Source, day: Option<Day>) -> io::Result<Result<Run, Refused>> {
        let opening = head::read(&mut source)?;
        let split = opening.split;
        let loaded = opening.head.and_then(|head| {
            let site = head::load(&head, day)?;
            Ok((head, site))
        });
        Ok(match loaded {
            Err(fault) => Err(Refused { split, fault }),
            Ok((head, site)) => Ok(Run {
                source,
                place: Place::START,
                merging: false,
                head,
                site,
                events: 0,
                refused: 0,
                malformed: false,
            }),
        })
    }

    pub fn settings(&self) -> Settings {
        self.head.settings
    }

    pub fn name(&self) -> &str {
        &self.source.name
    }

    /// The next event line is run.
    pub fn step(&mut self) -> io::Result<Option<Step>> {
        let Some(line) = self.source.next_line()? else {
            return Ok(None);
        };
        let event = match line.ended {
            true => script::event(&line.text),
            false => None,
        };
        let marked = match event {
            Some(Event {
                kind: Kind::Hear,
                node,
                with,
            }) if self.merging => self.site.marked(node, with),
            _ => None,
        };
        let (answer, begins_epoch) = match event {
            Some(event) => self.run(event),
            None => (2, false),
        };
        let mut step = Step {
            line,
            event,
            answer,
            place: self.place,
            begins_epoch,
            reports: Vec::new(),
            merged: marked.map(|marked| marked.merged(&self.site)),
        };
        self.events += 1;
        match event {
            Some(event) if step.accepted() => {
                if event.kind == Kind::Close {
                    step.reports = self.site.reports().collect();
                }
                self.place = self.place.behind(event.kind, begins_epoch);
            }
            _ => {
                self.refused += 1;
                self.malformed |= step.answer == 2;
            }
        }
        Ok(Some(step))
    }

    /// The site's answer, and whether its tally has counted an epoch more.
    fn run(&mut self, event: Event) -> (u32, bool) {
        // A full tally counts no more. Whoever wants its numbers has them by now.
        if self.site.tally().epochs == TALLY_EPOCHS {
            self.site.clear_tally();
        }
        let epochs = self.site.tally().epochs;
        let answer = self.site.event(event);
        (answer, self.site.tally().epochs != epochs)
    }

    /// How a command ends that has run so far.
    pub fn status(&self) -> Status {
        match (self.malformed, self.refused) {
            (true, _) => Status::Malformed,
            (false, 0) => Status::Fine,
            (false, _) => Status::Refused,
        }
    }
}
