//! `why`: what each box did at each close and on which ground, with the refused lines.

use std::io;

use crate::core::{Day, Event, Kind};
use crate::epoch::{Epoch, Item, RefusedLine};
use crate::out::{Out, Status};
use crate::record::Recorder;
use crate::run::Run;
use crate::source::Source;
use crate::{telling, words};

/// By close, or of one box.
pub fn why(
    source: Source,
    day: Option<Day>,
    node: Option<u32>,
    out: &mut Out,
) -> io::Result<Status> {
    let run = match Run::open(source, day)? {
        Ok(run) => run,
        Err(refused) => {
            out.line(telling::fault(&refused.fault));
            return Ok(Status::Malformed);
        }
    };
    let nodes = run.settings().nodes;
    if let Some(node) = node.filter(|node| !(1..=nodes).contains(node)) {
        out.line(format!(
            "there is no box {node}: the site has boxes 1 to {nodes}"
        ));
        return Ok(Status::Malformed);
    }
    let mut recorder = Recorder::new(run, true);
    while let Some(epoch) = recorder.next_epoch()? {
        match node {
            None => by_close(&epoch, out),
            Some(node) => of_box(&epoch, node, out),
        }
        if out.failed() {
            return Ok(Status::Unwritten);
        }
    }
    Ok(recorder.run.status())
}

fn by_close(epoch: &Epoch, out: &mut Out) {
    for item in &epoch.items {
        if let Item::Close { .. } | Item::Refused(_) = item {
            let mut lines = telling::item(item).into_iter();
            if let Some(first) = lines.next() {
                out.line(format!("epoch {}, {first}", epoch.number));
            }
            lines.for_each(|line| out.line(line));
        }
    }
}

fn of_box(epoch: &Epoch, node: u32, out: &mut Out) {
    let begins = &epoch.begins[node as usize - 1];
    if !epoch.items.is_empty() {
        let state = format!(
            "epoch {} begins: {}",
            epoch.number,
            words::shown(node, begins)
        );
        out.line(out.paint.bold(&state));
    }
    for item in &epoch.items {
        match item {
            Item::Close { line, boxes } => {
                for closed in boxes.iter().filter(|closed| closed.node == node) {
                    out.line(format!("  line {line}, close: {}", telling::did(closed)));
                }
            }
            item if names(item, node) => telling::item(item)
                .into_iter()
                .for_each(|line| out.line(format!("  {line}"))),
            _ => {}
        }
    }
}

/// Whether a line is one of this box.
fn names(item: &Item, node: u32) -> bool {
    match item {
        Item::Take { node: of, .. }
        | Item::Want { node: of, .. }
        | Item::Crash { node: of, .. }
        | Item::Restart { node: of, .. } => *of == node,
        Item::Refused(refused) => names_refused(refused, node),
        _ => false,
    }
}

/// Whether a refused event is one of this box.
fn names_refused(refused: &RefusedLine, node: u32) -> bool {
    match refused.event {
        Some(Event {
            kind: Kind::Take,
            node: taker,
            with,
        }) => taker == node || with == node,
        Some(event) => event.node == node,
        None => false,
    }
}

/// The lines as the program `why` prints them: box by box.
pub fn listing(source: Source, day: Option<Day>, out: &mut Out) -> io::Result<Status> {
    let mut run = match Run::open(source, day)? {
        Ok(run) => run,
        Err(refused) => {
            out.line(telling::first_head(refused.split));
            out.line(format!("{} {}", refused.fault.line, refused.fault.number));
            return Ok(Status::Malformed);
        }
    };
    let mut by_box = vec![Vec::new(); run.settings().nodes as usize];
    while let Some(step) = run.step()? {
        for report in step.reports {
            by_box[report.node as usize - 1].push((step.line.number, report));
        }
    }
    out.line("line node rule missing");
    for (line, report) in by_box.into_iter().flatten() {
        out.line(telling::raw(line, report));
    }
    Ok(run.status())
}
