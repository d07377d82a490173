//! What an overview keeps of an epoch.

use crate::core::{Rule, Shown, State};
use crate::epoch::{Epoch, Item};

/// A box as an epoch begins.
pub struct Held {
    pub state: State,
    pub version: u32,
    pub slots: u32,
    pub wants: u32,
}

impl Held {
    fn of(node: u32, shown: &Shown) -> Held {
        let slots = match shown.is_live() {
            true => shown.own_slots(node).len() as u32,
            false => 0,
        };
        Held {
            state: shown.state,
            version: shown.version,
            slots,
            wants: shown.request,
        }
    }
}

pub struct Column {
    pub number: u64,
    pub boxes: Vec<Held>,
    pub newest: u32,
    pub lost: u64,
    pub hearings: u64,
    pub refused: u64,
    /// Refused lines that are not ordinary.
    pub wrong: u64,
    /// Of each box the rule of the epoch's last close.
    pub last: Vec<Option<Rule>>,
    /// Boxes at all closes of the epoch, by box and rule.
    rules: Vec<[u32; Rule::ALL.len()]>,
    /// Crashes, restarts and wants in short words.
    pub notes: Vec<String>,
    /// Whether the page has a drawing of the epoch.
    pub drawn: bool,
}

impl Column {
    pub fn of(epoch: &Epoch, drawn: bool) -> Column {
        let nodes = epoch.begins.len();
        let boxes = (1..).zip(&epoch.begins);
        let versions = epoch.begins.iter().map(|shown| shown.version);
        let mut column = Column {
            number: epoch.number,
            boxes: boxes.map(|(node, shown)| Held::of(node, shown)).collect(),
            newest: versions.max().unwrap_or(0),
            lost: epoch.counts.lost,
            hearings: epoch.counts.hearings,
            refused: epoch.counts.refused,
            wrong: epoch.counts.refused - epoch.counts.ordinary,
            last: vec![None; nodes],
            rules: vec![[0; Rule::ALL.len()]; nodes],
            notes: Vec::new(),
            drawn,
        };
        for item in &epoch.items {
            column.note(item);
        }
        column
    }

    fn note(&mut self, item: &Item) {
        match item {
            Item::Close { boxes, .. } => {
                self.last.fill(None);
                for closed in boxes {
                    let at = closed.node as usize - 1;
                    let rule = closed.report.rule;
                    self.last[at] = Some(rule);
                    self.rules[at][rule as usize] += 1;
                }
            }
            Item::Crash { node, .. } => self.notes.push(format!("{node} crashes")),
            Item::Restart { node, .. } => self.notes.push(format!("{node} restarts")),
            Item::Want { node, demand, .. } => self.notes.push(format!("{node} wants {demand}")),
            _ => {}
        }
    }

    /// The slots held by all boxes together.
    pub fn held(&self) -> u32 {
        self.boxes.iter().map(|held| held.slots).sum()
    }

    /// How often a rule applied to a box, at all closes of the epoch.
    pub fn by_box(&self, at_box: usize, rule: Rule) -> u64 {
        self.rules[at_box][rule as usize].into()
    }

    /// The same for all boxes together.
    pub fn by_rule(&self, rule: Rule) -> u64 {
        (0..self.boxes.len())
            .map(|at_box| self.by_box(at_box, rule))
            .sum()
    }

    /// How often a box said nothing.
    pub fn silent(&self) -> u64 {
        let rules = Rule::ALL.into_iter().filter(|rule| rule.is_silent());
        rules.map(|rule| self.by_rule(rule)).sum()
    }

    /// How much there is to look at in the epoch.
    pub fn odd(&self) -> u64 {
        self.silent() + self.wrong + self.notes.len() as u64
    }

    /// A name of the epoch that leads to its drawing, if it has one.
    pub fn link(&self, name: &str) -> String {
        match self.drawn {
            true => format!("<a href=\"#epoch-{}\">{name}</a>", self.number),
            false => name.to_string(),
        }
    }
}
