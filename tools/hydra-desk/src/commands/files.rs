//! The files that a command names: scripts and windows.

use std::io;

use super::Trouble;
use crate::args::Args;
use crate::core::{Day, Window};
use crate::head::{self, Fault};
use crate::out::unreadable;
use crate::progress::Progress;
use crate::source::Source;
use crate::telling;
use crate::windows::{self, Placed};

pub fn files(args: &Args) -> Result<&[String], Trouble> {
    match args.operands.is_empty() {
        true => Err("a file is wanted, or - for standard input"
            .to_string()
            .into()),
        false => Ok(&args.operands),
    }
}

pub fn one_file(args: &Args) -> Result<&str, Trouble> {
    match args.operands.as_slice() {
        [file] => Ok(file),
        _ => Err("one file is wanted, or - for standard input"
            .to_string()
            .into()),
    }
}

pub fn readable<T>(name: &str, result: io::Result<T>) -> Result<T, Trouble> {
    result.map_err(|error| Trouble(unreadable(name, &error)))
}

pub fn open(name: &str, progress: &Progress) -> Result<Source, Trouble> {
    readable(name, Source::open(name, progress.read.clone()))
}

pub fn day_of(args: &Args) -> Result<u32, Trouble> {
    // A day that breaks the rules is for the proved call to refuse.
    let day = args.number("--day", 0, u64::from(u32::MAX))?;
    Ok(day.unwrap_or(1440) as u32)
}

pub fn placed(name: &str) -> Result<Vec<Placed>, Trouble> {
    let source = readable(name, Source::open(name, Default::default()))?;
    readable(name, windows::read(source))?.map_err(|fault| at_line(name, &fault))
}

/// What is wrong at a line of a file.
pub fn at_line(name: &str, fault: &Fault) -> Trouble {
    Trouble(format!("{name}, {}", telling::fault(fault)))
}

/// The windows that `--windows` names, read and tested against a script's boxes where they are known.
pub fn lent(args: &Args, script: Option<&str>) -> Result<Option<Day>, Trouble> {
    let Some(name) = args.value("--windows") else {
        return Ok(None);
    };
    let (placed, day) = (placed(name)?, day_of(args)?);
    // Standard input can be read once, so its boxes are not known before it is run.
    if let Some(script) = script.filter(|&script| script != "-") {
        if let Some(nodes) = nodes_of(script)? {
            keep_rules(name, nodes, day, &placed)?;
        }
    }
    let list: Vec<Window> = placed.iter().map(|placed| placed.window).collect();
    Ok(Some(Day::new(day, list)))
}

pub fn keep_rules(name: &str, nodes: u32, day: u32, placed: &[Placed]) -> Result<(), Trouble> {
    match windows::fault(nodes, day, placed) {
        None => Ok(()),
        Some(fault) if fault.line == 0 => Err(Trouble(format!(
            "{name}: {} ({})",
            fault.sentence, fault.number
        ))),
        Some(fault) => {
            let text = fault.text.unwrap_or_default();
            let (line, sentence, number) = (fault.line, fault.sentence, fault.number);
            Err(Trouble(format!(
                "{name}, line {line}, {text}: {sentence} ({number})"
            )))
        }
    }
}

/// The number of boxes of a script, if its first lines are accepted.
pub fn nodes_of(script: &str) -> Result<Option<u32>, Trouble> {
    let mut source = readable(script, Source::open(script, Default::default()))?;
    let opening = readable(script, head::read(&mut source))?;
    Ok(opening.head.ok().map(|head| head.settings.nodes))
}
