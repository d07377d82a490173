//! The lines before the events: settings and table. Which values may be is asked of the proved load.

use std::io;

use crate::core::{Day, Row, Settings, Site};
use crate::meant;
use crate::range::{accepts_row, accepts_settings, row_fault, settings, settings_fault};
use crate::script::{self, EVENT_NAMES, SETTINGS_NAMES, TABLE_NAMES};
use crate::source::{Line, Source};

#[derive(Clone, Debug, PartialEq, Eq)]
pub struct Head {
    pub settings: Settings,
    pub rows: Vec<Row>,
}

impl Head {
    /// The lines before the events.
    pub fn lines(&self) -> u64 {
        u64::from(self.settings.nodes) + 4
    }
}

/// A refusal before the first event.
#[derive(Clone, Debug, PartialEq, Eq)]
pub struct Fault {
    pub line: u64,
    pub number: u32,
    /// The line itself, if it is there.
    pub text: Option<String>,
    pub sentence: String,
}

/// What the lines before the events came to. `split` is told as soon as the settings are accepted.
pub struct Opening {
    pub split: bool,
    pub head: Result<Head, Fault>,
}

pub fn read(source: &mut Source) -> io::Result<Opening> {
    let mut reader = Reader { source, line: 0 };
    let mut split = false;
    let head = reader.head(&mut split)?;
    Ok(Opening { split, head })
}

struct Reader<'a> {
    source: &'a mut Source,
    line: u64,
}

/// A value, or the fault that stands in its place; beside them reading itself may fail.
type Found<T> = io::Result<Result<T, Fault>>;

macro_rules! found {
    ($value:expr) => {
        match $value? {
            Ok(value) => value,
            Err(fault) => return Ok(Err(fault)),
        }
    };
}

impl Reader<'_> {
    fn head(&mut self, split: &mut bool) -> Found<Head> {
        found!(self.names(SETTINGS_NAMES));
        let settings = found!(self.settings());
        *split = settings.split == 1;
        found!(self.names(TABLE_NAMES));
        let mut rows = Vec::new();
        for node in 1..=settings.nodes {
            let row = found!(self.row(settings, node));
            rows.push(row);
        }
        found!(self.names(EVENT_NAMES));
        Ok(Ok(Head { settings, rows }))
    }

    /// The next line; a missing one is refused with 1.
    fn line(&mut self, what: &str) -> Found<Line> {
        self.line += 1;
        let line = self.source.next_line()?;
        Ok(line.ok_or_else(|| Fault {
            line: self.line,
            number: 1,
            text: None,
            sentence: format!("the file ends here; {what} belongs here"),
        }))
    }

    fn names(&mut self, names: &str) -> Found<()> {
        let line = found!(self.line(&format!("the names line `{names}`")));
        if line.text == names.as_bytes() && line.ended {
            return Ok(Ok(()));
        }
        let sentence = match meant::bytes(&line.text) {
            Some((sentence, better)) if better == names.as_bytes() => sentence.to_string(),
            _ if line.text == names.as_bytes() => "the line has no newline".to_string(),
            _ => format!(
                "the names line `{names}` belongs here{}",
                hint(&line, names)
            ),
        };
        Ok(Err(fault(&line, 1, sentence)))
    }

    fn settings(&mut self) -> Found<Settings> {
        let line = found!(self.line("the settings line"));
        let Some(values) = values::<5>(&line) else {
            let sentence = malformed(&line, "five numbers: nodes slots rounds heard split");
            return Ok(Err(fault(&line, 2, sentence)));
        };
        if accepts_settings(values) {
            return Ok(Ok(settings(values)));
        }
        let sentence = settings_fault(values);
        Ok(Err(fault(&line, 2, sentence)))
    }

    fn row(&mut self, settings: Settings, node: u32) -> Found<Row> {
        let line = found!(self.line(&format!("the row of box {node}")));
        let Some([number, version, flags, want]) = values::<4>(&line) else {
            let sentence = match line.text == EVENT_NAMES.as_bytes() {
                true => format!(
                    "the row of box {node} is missing: the settings say {} boxes",
                    settings.nodes
                ),
                false => malformed(&line, "four numbers: node version flags want"),
            };
            return Ok(Err(fault(&line, 2, sentence)));
        };
        let row = Row {
            version,
            flags,
            want,
        };
        let sentence = if number != node {
            format!("the row of box {node} belongs here, not that of box {number}")
        } else if accepts_row(settings, node, row) {
            return Ok(Ok(row));
        } else {
            row_fault(settings, node, row)
        };
        Ok(Err(fault(&line, 2, sentence)))
    }
}

fn fault(line: &Line, number: u32, sentence: String) -> Fault {
    Fault {
        line: line.number,
        number,
        text: Some(line.shown()),
        sentence,
    }
}

fn values<const COUNT: usize>(line: &Line) -> Option<[u32; COUNT]> {
    line.ended.then(|| script::numbers(&line.text)).flatten()
}

/// What else a line in the place of a names line may be.
fn hint(line: &Line, names: &str) -> String {
    match names {
        EVENT_NAMES if script::numbers::<4>(&line.text).is_some() => {
            ": the table has a row too many".to_string()
        }
        EVENT_NAMES if script::event(&line.text).is_some() => ": it is missing".to_string(),
        _ => String::new(),
    }
}

fn malformed(line: &Line, wanted: &str) -> String {
    if let Some((sentence, _)) = meant::bytes(&line.text) {
        return sentence.to_string();
    }
    match line.ended {
        true => format!("the line wants {wanted}"),
        false => "the last line has no newline".to_string(),
    }
}

/// The site. `head` was accepted line by line, so what the load refuses is the day or its windows.
pub fn load(head: &Head, day: Option<Day>) -> Result<Site, Fault> {
    Site::load(head.settings, &head.rows, day).map_err(|number| Fault {
        line: 0,
        number,
        text: None,
        sentence: "the windows break the rules".to_string(),
    })
}
