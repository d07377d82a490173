//! Up to six boxes: boxes across, time down, one drawing for each epoch.

use crate::core::{Shown, State};
use crate::epoch::{Epoch, Item, Since};

use super::columns::{self, Columns, LEFT};
use super::sentences;
use super::strips;
use super::svg::{Drawing, Marks};

pub struct Spacetime<'a> {
    pub(super) epoch: &'a Epoch,
    pub(super) columns: Columns,
    rounds: u32,
    /// Layers: bands, then the boxes' lines, then marks and words.
    pub(super) back: Marks,
    lives: Marks,
    pub(super) front: Marks,
    pub(super) y: f64,
    /// Of each box, whether it is up, and from where its line is still to be drawn.
    lines: Vec<(State, f64)>,
    /// The round whose name is still to be written.
    pub(super) unnamed: Option<u64>,
    finished: Vec<Drawing>,
}

/// A drawing of this height takes no further round; a printed page has room for half as much again.
const FULL: f64 = 760.0;

/// An epoch's drawing. One with many rounds goes on in further drawings, so that each fits on a printed page.
pub fn draw(epoch: &Epoch, rounds: u32) -> Vec<Drawing> {
    let mut drawn = Spacetime {
        epoch,
        columns: Columns {
            count: epoch.begins.len() as u32,
        },
        rounds,
        back: Marks::default(),
        lives: Marks::default(),
        front: Marks::default(),
        y: 0.0,
        lines: Vec::new(),
        unnamed: (rounds > 1).then_some(1),
        finished: Vec::new(),
    };
    drawn.head(&epoch.begins, epoch.since);
    drawn.items();
    drawn.finish();
    drawn.finished
}

/// The drawing of what each box holds behind the last line.
pub fn last(epoch: &Epoch) -> Drawing {
    let mut since = epoch.since;
    if !epoch.items.is_empty() {
        since.changed = 0;
    }
    let columns = Columns {
        count: epoch.after.len() as u32,
    };
    let mut marks = Marks::default();
    let mut y = columns::draw(
        &mut marks,
        columns,
        &epoch.after,
        since,
        epoch.in_distribution,
    );
    if !columns.fit(epoch.after[0].owners.len()) {
        y = strips::draw(&mut marks, y, &epoch.after);
    }
    Drawing {
        id: "last".to_string(),
        title: "After the last line".to_string(),
        words: sentences::states(&epoch.after),
        height: y + 6.0,
        marks: marks.0,
    }
}

impl Spacetime<'_> {
    /// What each box holds, at the top.
    fn head(&mut self, shown: &[Shown], since: Since) {
        self.y = columns::draw(&mut self.front, self.columns, shown, since, false);
        if !self.columns.fit(shown[0].owners.len()) {
            self.y = strips::draw(&mut self.front, self.y, shown);
        }
        self.lines = shown.iter().map(|shown| (shown.state, self.y)).collect();
    }

    fn finish(&mut self) {
        let bottom = self.y + 8.0;
        for node in 1..=self.columns.count {
            self.draw_line(node, bottom);
        }
        let number = self.epoch.number;
        let part = self.finished.len() + 1;
        let layers = [&mut self.back, &mut self.lives, &mut self.front];
        let marks = layers.map(|layer| std::mem::take(layer).0).concat();
        let (id, title, words) = match part {
            1 => (
                number.to_string(),
                format!("Epoch {number}"),
                sentences::epoch(self.epoch),
            ),
            _ => (
                format!("{number}p{part}"),
                format!("Epoch {number}, part {part}"),
                "The rounds that follow; the words of the first part tell them too.".to_string(),
            ),
        };
        self.finished.push(Drawing {
            id,
            title,
            words,
            height: bottom + 4.0,
            marks,
        });
    }

    /// Behind the end of a round: the next one stands in another drawing, if this one is full.
    fn go_on(&mut self, after: &[Shown]) {
        if self.y > FULL {
            self.finish();
            self.head(after, Since::default());
        }
    }

    fn items(&mut self) {
        let epoch = self.epoch;
        for item in &epoch.items {
            match item {
                Item::Band(band) => self.band(band),
                Item::Refused(refused) => self.refused(refused),
                Item::Close { line, boxes } => self.close(*line, boxes),
                Item::Take {
                    line,
                    node,
                    from,
                    version,
                } => self.take(*line, *node, *from, *version),
                Item::Want { line, node, demand } => self.want(*line, *node, *demand),
                Item::Crash { line, node } => self.crash(*line, *node),
                Item::Restart { line, node, flags } => self.restart(*line, *node, *flags),
                Item::End {
                    line,
                    round,
                    epoch_ends,
                    after,
                } => {
                    self.end(*line, *round, *epoch_ends);
                    if !epoch_ends {
                        self.go_on(after);
                    }
                }
            }
        }
        if epoch.untold() > 0 {
            let more = format!("{} more refused lines in this epoch", epoch.untold());
            self.front.text(LEFT + 8.0, self.y + 14.0, "s b", &more);
            self.y += 20.0;
        }
    }

    /// Draws a box's line down to a height.
    fn draw_line(&mut self, node: u32, bottom: f64) {
        let (state, top) = self.lines[node as usize - 1];
        let x = self.columns.x(node);
        let class = match state {
            State::Live => "life",
            State::Waiting => "wait",
            State::Down => return,
        };
        self.lives.line((x, top), (x, bottom), class);
    }

    pub(super) fn becomes(&mut self, node: u32, state: State, y: f64) {
        self.draw_line(node, y);
        self.lines[node as usize - 1] = (state, y);
    }

    /// The number of a line at the left, under the round's name if this is its first.
    pub(super) fn label(&mut self, y: f64, lines: &str) {
        let mut y = y;
        if let Some(round) = self.unnamed.take() {
            let name = format!("round {round} of {}", self.rounds);
            self.front.text(4.0, y, "s b", &name);
            y += 13.0;
        }
        self.front.text(4.0, y, "s", lines);
    }

    /// Room above, and enough below for two lines of words at the left.
    pub(super) fn name_room(&self) -> f64 {
        match self.unnamed {
            Some(_) => 13.0,
            None => 0.0,
        }
    }
}
