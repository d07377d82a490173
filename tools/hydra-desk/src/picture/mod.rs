//! `picture`: the run of a script as one page, without scripts, fonts or files from elsewhere.

mod card;
mod columns;
mod lines;
mod matrix;
mod overview;
mod packets;
mod page;
mod round;
mod sentences;
mod spacetime;
mod strips;
mod style;
mod svg;

use std::io;

use crate::core::{Day, Shown};
use crate::epoch::Epoch;
use crate::head::Fault;
use crate::out::Status;
use crate::record::Recorder;
use crate::run::Run;
use crate::source::Source;

use overview::Column;
use svg::{Drawing, Marks};

/// From so many boxes on arrows would be a tangle.
const SQUARES_FROM: u32 = 7;
/// A run of more epochs begins with an overview.
const LONG: usize = 8;
/// At most so many epochs are drawn one by one, and so many in the overview.
const TOP_DRAWN: usize = 100;
const TOP_COLUMNS: usize = 600;

pub struct Page {
    pub text: String,
    pub status: Status,
}

/// The drawing of an epoch or of the last state, with the words around it.
struct Section {
    anchor: String,
    title: String,
    /// Paragraphs above the drawings.
    above: Vec<String>,
    drawings: Vec<Drawing>,
    below: Vec<String>,
}

struct Picture {
    name: String,
    recorder: Recorder,
    range: (u64, u64),
    sections: Vec<Section>,
    columns: Vec<Column>,
    epochs: u64,
}

/// The page of a script; `range` are the epochs to be drawn.
pub fn page(
    source: Source,
    day: Option<Day>,
    range: Option<(u64, u64)>,
) -> io::Result<Result<Page, Fault>> {
    Ok(draw(source, day, range)?.map(|picture| picture.page()))
}

/// The same as one drawing without a page around it, for short runs of few boxes.
pub fn single(
    source: Source,
    day: Option<Day>,
    range: Option<(u64, u64)>,
) -> io::Result<Result<Page, Fault>> {
    Ok(draw(source, day, range)?.map(|picture| picture.single()))
}

fn draw(
    source: Source,
    day: Option<Day>,
    range: Option<(u64, u64)>,
) -> io::Result<Result<Picture, Fault>> {
    let run = match Run::open(source, day)? {
        Ok(run) => run,
        Err(refused) => return Ok(Err(refused.fault)),
    };
    let name = run.name().to_string();
    let mut picture = Picture {
        name: if name == "-" {
            "standard input".to_string()
        } else {
            name
        },
        recorder: Recorder::new(run, false),
        range: range.unwrap_or((1, u64::MAX)),
        sections: Vec::new(),
        columns: Vec::new(),
        epochs: 0,
    };
    picture.run()?;
    Ok(Ok(picture))
}

impl Picture {
    fn run(&mut self) -> io::Result<()> {
        let mut number = 1;
        loop {
            let wanted = (self.range.0..=self.range.1).contains(&number);
            let drawn = wanted && self.sections.len() < TOP_DRAWN;
            // Only what is drawn needs to know what was merged.
            self.recorder.look_at_merging(drawn);
            let Some(epoch) = self.recorder.next_epoch()? else {
                return Ok(());
            };
            number += 1;
            // Behind the last end an epoch begins in which nothing happens.
            let idle = epoch.cut && epoch.items.is_empty() && epoch.number > 1;
            if !idle {
                self.epochs = epoch.number;
                if wanted && self.columns.len() < TOP_COLUMNS {
                    self.columns.push(Column::of(&epoch, drawn));
                }
                if drawn {
                    let section = self.section(&epoch);
                    self.sections.push(section);
                }
            }
            if epoch.cut {
                self.last(&epoch);
            }
        }
    }

    fn squares(&self) -> bool {
        self.recorder.settings().nodes >= SQUARES_FROM
    }

    fn section(&self, epoch: &Epoch) -> Section {
        let mut section = Section {
            anchor: format!("epoch-{}", epoch.number),
            title: format!("Epoch {}", epoch.number),
            above: Vec::new(),
            drawings: Vec::new(),
            below: Vec::new(),
        };
        if !self.squares() {
            let rounds = self.recorder.settings().rounds;
            section.drawings = spacetime::draw(epoch, rounds);
            section.below.push(sentences::epoch(epoch));
            return section;
        }
        section.above.push(matrix::head(epoch));
        section.drawings.push(held(
            &epoch.begins,
            format!("h{}", epoch.number),
            format!("As epoch {} begins", epoch.number),
        ));
        let rounds = round::rounds(epoch);
        let several = rounds.len() > 1;
        for (at, round) in (1..).zip(rounds) {
            section.drawings.push(matrix::draw(epoch, at, &round));
            let told = round.sentences(epoch.begins.len() as u32).join(" ");
            if !told.is_empty() {
                let which = if several {
                    format!("Round {at}. ")
                } else {
                    String::new()
                };
                section.below.push(format!("{which}{told}"));
            }
        }
        section.below.push(sentences::epoch(epoch));
        section
    }

    fn last(&mut self, epoch: &Epoch) {
        let drawing = match self.squares() {
            true => held(
                &epoch.after,
                "last".to_string(),
                "After the last line".to_string(),
            ),
            false => spacetime::last(epoch),
        };
        let mut below = vec![sentences::states(&epoch.after)];
        below.extend(
            sentences::owners(&epoch.after, epoch.in_distribution).filter(|_| self.squares()),
        );
        self.sections.push(Section {
            anchor: "last".to_string(),
            title: "After the last line".to_string(),
            above: Vec::new(),
            drawings: vec![drawing],
            below,
        });
    }
}

/// What boxes hold, as strips.
fn held(shown: &[Shown], id: String, title: String) -> Drawing {
    let mut marks = Marks::default();
    let height = strips::draw(&mut marks, 2.0, shown);
    Drawing {
        id,
        title,
        words: sentences::states(shown),
        height,
        marks: marks.0,
    }
}
