//! One box followed through its log: what it did, in its own order, and where it was down.

use std::collections::{BTreeMap, BTreeSet};

use super::log::{Event::*, Log, Phase::*, Place, Step, START};

#[derive(Clone, Copy, PartialEq)]
enum State {
    Down,
    Up,
    /// It has written its area, and nothing behind it.
    Ended,
}

/// One box: its row of the script's table, its events, and how far it has come.
pub struct Story {
    pub row: (u32, u32, u32),
    pub steps: Vec<Step>,
    /// The packets sent, by round and number.
    pub sent: BTreeSet<(u64, u32)>,
    /// The rounds closed, with the lines that say so.
    pub closed: BTreeMap<u64, usize>,
    pub at: Place,
    state: State,
}

impl Story {
    /// The whole log. The first line that does not fit ends it: those behind it would repeat that.
    pub fn of(log: &Log) -> Result<Story, Vec<String>> {
        let mut story = Story {
            row: (0, 1 << (log.settings.node - 1), 0),
            steps: Vec::new(),
            sent: BTreeSet::new(),
            closed: BTreeMap::new(),
            at: START,
            state: State::Up,
        };
        // A box that did not begin with the others was down at first.
        if !matches!(
            log.lines.first(),
            Some(Step {
                event: Begin(..),
                ..
            })
        ) {
            story.crash();
        }
        for step in &log.lines {
            let follow = story.follow(step);
            follow.map_err(|why| vec![format!("{}, line {}: {why}.", log.name, step.line)])?;
        }
        if story.state != State::Ended {
            story.crash();
        }
        Ok(story)
    }

    /// The box went down where its log last saw it.
    pub fn crash(&mut self) {
        if self.state != State::Down {
            self.steps.push(Step {
                line: 0,
                place: self.at,
                event: Crash,
            });
            self.state = State::Down;
        }
    }

    /// One line of the log; or what is wrong with it.
    fn follow(&mut self, step: &Step) -> Result<(), String> {
        let Step { line, place, event } = *step;
        match event {
            Nothing => return Ok(()),
            Begin(version, flags, demand) => {
                if line != 2 || place != START {
                    return Err("a box begins once, in round 0; later it restarts".to_string());
                }
                self.row = (version, flags, demand);
                return Ok(());
            }
            Restart(_) => {
                self.crash();
                if place < self.at {
                    let at = self.at;
                    return Err(format!("it restarts in {place}, but had come to {at}"));
                }
                (self.at, self.state) = (place, State::Up);
            }
            _ => self.check(place)?,
        }
        match event {
            // Just these two lead a box on.
            Close if place.1 == Negotiation => {
                self.closed.insert(place.0, line);
                self.at = place.next();
            }
            End if place.1 == Distribution => self.at = place.next(),
            Close | End => return Err(format!("a box does not do that in {place}")),
            Area => self.state = State::Ended,
            Send(number) if !self.sent.insert((place.0, number)) => {
                return Err(format!(
                    "packet {number} of round {} is sent again",
                    place.0
                ));
            }
            _ => self.steps.push(Step { line, place, event }),
        }
        Ok(())
    }

    /// Whether the box is up, and has come here. One that waits comes into the distribution without a close; whether it
    /// did wait is told as the script is run.
    fn check(&mut self, place: Place) -> Result<(), String> {
        if self.state != State::Up {
            return Err("the box is down here: a begin or a restart is missing".to_string());
        }
        if place == self.at.next() && place.1 == Distribution {
            self.at = place;
        }
        let at = self.at;
        match place == at {
            true => Ok(()),
            false => Err(format!("the line is of {place}, but the box is in {at}")),
        }
    }
}
