//! `show`: the site after each round in words, and the listing as `replay` prints it.

use std::io;

use crate::core::{Day, Packet, Shown, Site};
use crate::epoch::{two_owners, Counts, Epoch, Item};
use crate::out::{Out, Status};
use crate::record::Recorder;
use crate::run::{Refused, Run};
use crate::source::Source;
use crate::{telling, words};

/// The run of a whole script in words.
pub fn show(source: Source, day: Option<Day>, out: &mut Out) -> io::Result<Status> {
    let run = match Run::open(source, day)? {
        Ok(run) => run,
        Err(refused) => {
            out.line(telling::fault(&refused.fault));
            return Ok(Status::Malformed);
        }
    };
    out.line(telling::site(run.settings()));
    let mut recorder = Recorder::new(run, true);
    while let Some(epoch) = recorder.next_epoch()? {
        tell(&epoch, recorder.settings().rounds, out);
        if out.failed() {
            return Ok(Status::Unwritten);
        }
    }
    out.line("");
    out.line(out.paint.bold("after the last line"));
    rows(&recorder.run.site, out);
    Ok(recorder.run.status())
}

/// An epoch, round by round. Nothing is told of one in which no line stands.
fn tell(epoch: &Epoch, rounds: u32, out: &mut Out) {
    let mut round = 1;
    let mut begun = false;
    for item in &epoch.items {
        if !begun {
            let head = match rounds {
                1 => format!("epoch {}", epoch.number),
                _ => format!("epoch {}, round {round} of {rounds}", epoch.number),
            };
            out.line("");
            out.line(out.paint.bold(&head));
            begun = true;
        }
        for line in telling::item(item) {
            out.line(format!("  {line}"));
        }
        if let Item::End { after, .. } = item {
            states(after, out);
            round += 1;
            begun = false;
        }
    }
    if epoch.untold() > 0 {
        let more = words::grouped(epoch.untold());
        out.line(format!("  {more} more refused lines in this epoch"));
    }
    if epoch.counts != Counts::default() {
        out.line(format!(
            "  in this epoch: {}",
            telling::counts(epoch.counts)
        ));
    }
}

/// Boxes that hold the same schedule share a line for it.
fn states(shown: &[Shown], out: &mut Out) {
    for (node, shown) in (1..).zip(shown) {
        out.line(format!("    box {node}: {}", words::shown(node, shown)));
    }
    for (slot, owners) in two_owners(shown) {
        out.line(format!(
            "    slot {slot} has two owners: boxes {}",
            words::ranges(owners)
        ));
    }
}

fn rows(site: &Site, out: &mut Out) {
    out.line("node state version flags request slots");
    for (node, shown) in (1..).zip(site.all_shown()) {
        out.line(row(node, &shown));
    }
}

/// A row of the listing.
fn row(node: u32, shown: &Shown) -> String {
    let owners: Vec<String> = shown.owners.iter().map(u8::to_string).collect();
    format!(
        "{node} {} {} {} {} {}",
        words::state(shown.state),
        shown.version,
        shown.flags,
        shown.request,
        owners.join(",")
    )
}

/// The listing as `replay` prints it.
pub fn listing(source: Source, day: Option<Day>, out: &mut Out) -> io::Result<Status> {
    let mut run = match Run::open(source, day)? {
        Ok(run) => run,
        Err(Refused { split, fault }) => {
            out.line(telling::first_head(split));
            out.line(format!("{} {}", fault.line, fault.number));
            return Ok(Status::Malformed);
        }
    };
    out.line(telling::first_head(run.settings().split == 1));
    while let Some(step) = run.step()? {
        if !step.accepted() {
            out.line(format!("{} {}", step.line.number, step.answer));
        }
    }
    rows(&run.site, out);
    Ok(run.status())
}

/// What a box knows of the running negotiation, by the packet that it would send next.
fn known(packet: Option<Packet>) -> String {
    let Some(packet) = packet else {
        return "its packets of this round are all sent, so none shows what it knows now"
            .to_string();
    };
    let known = words::boxes(packet.known());
    let lacks = match packet.flags & !packet.known() {
        0 => String::new(),
        lacking => format!(", lacks those of {}", words::boxes(lacking)),
    };
    let flags = words::boxes(packet.flags);
    format!("merged flags {flags}; has the requests of {known}{lacks}")
}

/// The site as it is behind one line, with what each box knows of the running negotiation.
pub fn after(source: Source, day: Option<Day>, last: u64, out: &mut Out) -> io::Result<Status> {
    let mut run = match Run::open(source, day)? {
        Ok(run) => run,
        Err(refused) => {
            out.line(telling::fault(&refused.fault));
            return Ok(Status::Malformed);
        }
    };
    let mut line = run.head.lines();
    while line < last {
        let Some(step) = run.step()? else {
            out.line(format!("the script ends with line {line}"));
            break;
        };
        line = step.line.number;
        if line == last && !step.accepted() {
            let (sentence, _) = words::refusal(&run, &step);
            out.line(format!(
                "line {line}, {}, is refused with {}: {sentence}",
                step.line.shown(),
                step.answer
            ));
        }
    }
    let place = run.place;
    let phase = if place.distribution {
        "distribution"
    } else {
        "negotiation"
    };
    let head = format!(
        "after line {line}: epoch {}, round {} of {}, {phase}",
        place.epoch,
        place.round,
        run.settings().rounds
    );
    out.line(out.paint.bold(&head));
    for (node, shown) in (1..).zip(run.site.all_shown()) {
        out.line(format!("  box {node}: {}", words::shown(node, &shown)));
        if shown.is_live() && !place.distribution {
            out.line(format!("    {}", known(run.site.would_send(node))));
        }
    }
    for (slot, owners) in two_owners(&run.site.all_shown()) {
        out.line(format!(
            "  slot {slot} has two owners: boxes {}",
            words::ranges(owners)
        ));
    }
    out.line("");
    rows(&run.site, out);
    Ok(run.status())
}
