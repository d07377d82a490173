//! The run of a script, epoch by epoch, for words and for pictures.

use std::io;

use crate::core::{Event, Kind, Report, Rule, Settings, Shown, Site, State};
use crate::epoch::{live, Closed, Epoch, Item, RefusedLine, Since};
use crate::run::{Run, Step};
use crate::words;

/// As many refused lines of an epoch are kept; the rest are counted.
const TOP_REFUSED: usize = 100;

pub struct Recorder {
    pub run: Run,
    epoch: Epoch,
    over: bool,
    /// The boxes that are waiting, as the site shows it behind each crash and restart, and the version that each box had last.
    waiting: u32,
    versions: Vec<u32>,
}

impl Recorder {
    /// Merging is looked for if `merging` says so.
    pub fn new(mut run: Run, merging: bool) -> Recorder {
        run.merging = merging;
        let begins = run.site.all_shown();
        Recorder {
            waiting: 0,
            versions: versions(&begins),
            epoch: Epoch::new(1, begins, Since::default()),
            run,
            over: false,
        }
    }

    pub fn settings(&self) -> Settings {
        self.run.settings()
    }

    /// Whether the next epoch's hearings are looked at for merging.
    pub fn look_at_merging(&mut self, look: bool) {
        self.run.merging = look;
    }

    /// The next epoch, whole or as far as the script goes; none behind the last.
    pub fn next_epoch(&mut self) -> io::Result<Option<Epoch>> {
        if self.over {
            return Ok(None);
        }
        while let Some(step) = self.run.step()? {
            self.note(&step);
            if step.begins_epoch {
                return Ok(Some(self.turn_over()));
            }
        }
        self.over = true;
        let epoch = &mut self.epoch;
        epoch.after = self.run.site.all_shown();
        epoch.cut = true;
        epoch.in_distribution = self.run.place.distribution;
        epoch.lose(live(&epoch.after));
        let number = epoch.number;
        let last = std::mem::replace(epoch, Epoch::new(number, Vec::new(), Since::default()));
        Ok(Some(last))
    }

    fn turn_over(&mut self) -> Epoch {
        let after = self.run.site.all_shown();
        let since = self.since(&after);
        self.waiting = 0;
        self.versions = versions(&after);
        let next = Epoch::new(self.epoch.number + 1, after.clone(), since);
        let mut epoch = std::mem::replace(&mut self.epoch, next);
        epoch.after = after;
        epoch
    }

    fn since(&self, after: &[Shown]) -> Since {
        let mut since = Since {
            began: self.waiting,
            ..Since::default()
        };
        for (at, shown) in after.iter().enumerate() {
            let bit = 1 << at;
            let before = &self.epoch.begins[at];
            if before.version != shown.version || before.owners != shown.owners {
                since.changed |= bit;
            }
            let lost = shown.version == 0 && self.versions[at] > 0;
            if shown.is_live() && lost && self.waiting & bit == 0 {
                since.expired |= bit;
            }
        }
        since
    }

    fn note(&mut self, step: &Step) {
        match step.event {
            Some(event) if step.accepted() => self.accepted(step, event),
            _ => self.refused(step),
        }
    }

    fn refused(&mut self, step: &Step) {
        let (sentence, ordinary) = words::refusal(&self.run, step);
        self.epoch.counts.refused += 1;
        self.epoch.counts.ordinary += u64::from(ordinary);
        if self.epoch.counts.refused > TOP_REFUSED as u64 {
            return;
        }
        let refused = RefusedLine {
            line: step.line.number,
            text: step.line.shown(),
            number: step.answer,
            sentence,
            event: step.event,
        };
        self.epoch.items.push(Item::Refused(refused));
    }

    fn accepted(&mut self, step: &Step, event: Event) {
        let line = step.line.number;
        let Event { kind, node, with } = event;
        let run = &self.run;
        let epoch = &mut self.epoch;
        if let Kind::Crash | Kind::Restart = kind {
            let shown = run.site.shown(node);
            let waits = shown.is_some_and(|shown| shown.state == State::Waiting);
            let bit = 1 << (node - 1);
            self.waiting = self.waiting & !bit | if waits { bit } else { 0 };
        }
        match kind {
            Kind::Send => epoch.sent(line, node, run.site.packets()),
            Kind::Hear => {
                let sender = epoch.senders[with as usize - 1];
                epoch.heard(line, node, with, sender, step.merged);
            }
            Kind::Close => {
                let shown = run.site.all_shown();
                epoch.lose(live(&shown));
                epoch.senders.clear();
                self.versions = versions(&shown);
                let repeating = match run.merging {
                    true => repeating(&run.site, &step.reports),
                    false => 0,
                };
                let boxes = closed(epoch, &shown, &step.reports, repeating);
                epoch.items.push(Item::Close { line, boxes });
            }
            Kind::Take => {
                epoch.counts.takes += 1;
                let version = run.site.shown(node).map_or(0, |shown| shown.version);
                self.versions[node as usize - 1] = version;
                epoch.items.push(Item::Take {
                    line,
                    node,
                    from: with,
                    version,
                });
            }
            Kind::Want => epoch.items.push(Item::Want {
                line,
                node,
                demand: with,
            }),
            Kind::Crash => epoch.items.push(Item::Crash { line, node }),
            Kind::Restart => epoch.items.push(Item::Restart {
                line,
                node,
                flags: with,
            }),
            Kind::End => {
                epoch.items.push(Item::End {
                    line,
                    round: step.place.round,
                    epoch_ends: step.begins_epoch,
                    after: run.site.all_shown(),
                });
            }
        }
    }
}

/// What each live box did at a close.
fn closed(epoch: &mut Epoch, shown: &[Shown], reports: &[Report], repeating: u32) -> Vec<Closed> {
    let mut unmerged = [0u32; 32];
    for band in epoch.round_bands() {
        for row in &band.rows {
            for (at, from) in unmerged.iter_mut().enumerate() {
                *from |= (row.noted >> at & 1) << (row.sender - 1);
            }
        }
    }
    let one = |report: &Report| {
        let at = report.node as usize - 1;
        let lacks = report.rule == Rule::Missing;
        Closed {
            node: report.node,
            report: *report,
            version: shown[at].version,
            unmerged: lacks && unmerged[at] >> (report.missing - 1) & 1 == 1,
            repeats: repeating >> at & 1 == 1,
        }
    };
    reports.iter().map(one).collect()
}

/// The boxes that have determined a schedule and repeat the old one meanwhile. Where no take tells it of one of them,
/// all boxes do the same, and it is told of none.
fn repeating(site: &Site, reports: &[Report]) -> u32 {
    let determined = reports.iter().filter(|r| r.rule == Rule::Determined);
    let told = determined.map_while(|report| Some((report.node, site.sends(report.node)?)));
    let bit = |(node, sends): (u32, bool)| u32::from(sends) << (node - 1);
    told.map(bit).sum()
}

fn versions(shown: &[Shown]) -> Vec<u32> {
    shown.iter().map(|shown| shown.version).collect()
}
