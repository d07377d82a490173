//! `reduce`: the events that a refusal needs. Scripts of up to 40,000 bytes go to the proved call;
//! a longer one is first made shorter here, by runs of parts of it.

use std::io;

use crate::core::{self, Event, DONE, TOP_SCRIPT};
use crate::head::{self, Head};
use crate::run::Run;
use crate::script;
use crate::source::{Line, Source};
use crate::words;

/// A script in memory.
struct Script {
    head: Head,
    head_text: Vec<u8>,
    lines: Vec<Line>,
}

impl Script {
    fn text(&self, lines: &[&Line]) -> Vec<u8> {
        let mut text = self.head_text.clone();
        for line in lines {
            text.extend_from_slice(&line.text);
            if line.ended {
                text.push(b'\n');
            }
        }
        text
    }

    /// The answers to these lines.
    fn answers<'a>(&'a self, lines: &'a [&Line]) -> impl Iterator<Item = u32> + 'a {
        let mut site = head::load(&self.head, None).expect("it was loaded before");
        lines.iter().map(move |line| match event(line) {
            Some(event) => site.event(event),
            None => 2,
        })
    }

    /// Whether one of these lines is refused with the number.
    fn gives(&self, lines: &[&Line], number: u32) -> bool {
        self.answers(lines).any(|answer| answer == number)
    }
}

fn event(line: &Line) -> Option<Event> {
    line.ended.then(|| script::event(&line.text)).flatten()
}

/// The reduced script, or a sentence that says why there is none.
pub fn reduce(
    mut source: Source,
    number: u32,
    only: Option<u64>,
) -> io::Result<Result<Vec<u8>, String>> {
    let first = source.first.clone();
    let opening = head::read(&mut source)?;
    let Ok(head) = opening.head else {
        // The lines before the events are few, so the call takes all that matter.
        return Ok(call(&first[..first.len().min(TOP_SCRIPT)], number));
    };
    let head_text = first_lines(&first, head.lines());
    let mut lines = Vec::new();
    while let Some(line) = source.next_line()? {
        lines.push(line);
    }
    let script = Script {
        head,
        head_text,
        lines,
    };
    let all: Vec<&Line> = script.lines.iter().collect();
    Ok(match only {
        Some(line) => of_line(&script, &all, number, line),
        None => of_number(&script, all, number),
    })
}

fn first_lines(text: &[u8], count: u64) -> Vec<u8> {
    let lines = text.split_inclusive(|&byte| byte == b'\n');
    lines.take(count as usize).flatten().copied().collect()
}

fn call(text: &[u8], number: u32) -> Result<Vec<u8>, String> {
    core::reduce(text, number).map_err(|_| format!("the script gives no refusal {number}"))
}

fn of_number(script: &Script, all: Vec<&Line>, number: u32) -> Result<Vec<u8>, String> {
    let text = script.text(&all);
    if text.len() <= TOP_SCRIPT {
        return call(&text, number);
    }
    let Some(at) = script.answers(&all).position(|answer| answer == number) else {
        return Err(format!("the script gives no refusal {number}"));
    };
    let kept = accepted_up_to(script, &all, at);
    let short = shrink(kept, TOP_SCRIPT - script.head_text.len(), |lines| {
        script.gives(lines, number)
    });
    call(&script.text(&short), number)
}

fn of_line(script: &Script, all: &[&Line], number: u32, line: u64) -> Result<Vec<u8>, String> {
    let Some(at) = all.iter().position(|event| event.number == line) else {
        return Err(format!("line {line} is no event line"));
    };
    let answer = script.answers(all).nth(at).unwrap_or(DONE);
    if answer != number {
        let what = match answer {
            DONE => "accepted".to_string(),
            other => format!("refused with {other}"),
        };
        return Err(format!("line {line} is {what}, not refused with {number}"));
    }
    let kept = accepted_up_to(script, all, at);
    let cause = last_cause(&script.text(&kept));
    let its_own =
        |lines: &[&Line]| lines.last() == kept.last() && last_cause(&script.text(lines)) == cause;
    if let Some(text) = by_call(script, &kept, number) {
        // The call keeps the number, but perhaps of another line or on another ground.
        let own = script.text(&[all[at]]).split_off(script.head_text.len());
        if text.ends_with(&own) && last_cause(&text) == cause {
            return Ok(text);
        }
    }
    Ok(script.text(&shrink(kept.clone(), 0, its_own)))
}

/// The number with which the last line of a script is refused, and the ground where the number has several.
fn last_cause(text: &[u8]) -> Option<(u32, String)> {
    let source = Source::from_bytes("", text.to_vec());
    let mut run = Run::open(source, None).ok()?.ok()?;
    let mut last = None;
    while let Some(step) = run.step().ok()? {
        last = Some(step);
    }
    let step = last?;
    let ground = match step.answer {
        3 | 5 | 10 => words::refusal(&run, &step).0,
        _ => String::new(),
    };
    Some((step.answer, ground))
}

fn by_call(script: &Script, lines: &[&Line], number: u32) -> Option<Vec<u8>> {
    let text = script.text(lines);
    (text.len() <= TOP_SCRIPT)
        .then(|| core::reduce(&text, number).ok())
        .flatten()
}

/// The accepted lines before one, and that one. A refused line changes nothing, so the others are not missed.
fn accepted_up_to<'a>(script: &Script, all: &[&'a Line], at: usize) -> Vec<&'a Line> {
    let answers: Vec<u32> = script.answers(&all[..=at]).collect();
    let keep = |&(place, _): &(usize, &u32)| place == at || answers[place] == DONE;
    answers
        .iter()
        .enumerate()
        .filter(keep)
        .map(|(place, _)| all[place])
        .collect()
}

/// Leaves out parts, large ones first, as long as the rest still holds; stops at `enough` bytes, or where
/// no single line can be left out.
fn shrink<'a>(
    mut lines: Vec<&'a Line>,
    enough: usize,
    holds: impl Fn(&[&'a Line]) -> bool,
) -> Vec<&'a Line> {
    let size = |lines: &[&Line]| lines.iter().map(|line| line.text.len() + 1).sum::<usize>();
    let mut part = lines.len().div_ceil(2).max(1);
    loop {
        let mut shorter = false;
        let mut end = lines.len();
        while end > 0 {
            if size(&lines) <= enough {
                return lines;
            }
            let start = end.saturating_sub(part);
            let mut rest = lines[..start].to_vec();
            rest.extend_from_slice(&lines[end..]);
            if holds(&rest) {
                lines = rest;
                shorter = true;
            }
            end = start;
        }
        match part {
            1 if !shorter => return lines,
            1 => {}
            _ => part = part.div_ceil(2),
        }
    }
}
