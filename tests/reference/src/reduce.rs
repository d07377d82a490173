//! A script with no idle event, by its definition: what a listing names, the
//! test of an answer, and a plain reduction, one line at a time.

use crate::script::{replay, MAX_SCRIPT};

pub const TOO_LONG: u32 = 15;
pub const NOT_GIVEN: u32 = 18;

/// The refusals that the listing of a script names: line and number.
fn refusals(script: &[u8]) -> Vec<(usize, u32)> {
    let listing = replay(script);
    let text = std::str::from_utf8(&listing).expect("a listing is text");
    let rows = text
        .lines()
        .skip(1)
        .take_while(|row| !row.starts_with("node"));
    rows.map(|row| {
        let (line, number) = row.split_once(' ').expect("two fields");
        (
            line.parse().expect("a line number"),
            number.parse().expect("a refusal number"),
        )
    })
    .collect()
}

pub fn gives(script: &[u8], number: u32) -> bool {
    refusals(script).iter().any(|(_, given)| *given == number)
}

/// Lines with their byte 10, and perhaps a last one without it.
fn lines(text: &[u8]) -> Vec<&[u8]> {
    text.split_inclusive(|&byte| byte == b'\n').collect()
}

/// How many lines stand before the events; none where one of them is refused.
fn head(script: &[u8]) -> Option<usize> {
    let nodes = lines(script).get(1)?.split(|&byte| byte == b' ').next()?;
    let nodes: usize = std::str::from_utf8(nodes).ok()?.parse().ok()?;
    let listing = replay(script);
    let opened = listing.windows(11).any(|bytes| bytes == b"\nnode state");
    opened.then_some(4 + nodes)
}

/// Whether `answer` is what is kept of `script`, which gives the number.
pub fn is_reduced(script: &[u8], number: u32, answer: &[u8]) -> bool {
    let Some(head) = head(script) else {
        let (line, _) = refusals(script)[0];
        return answer == lines(script)[..line.min(lines(script).len())].concat();
    };
    let (all, kept) = (lines(script), lines(answer));
    if kept.len() < head || kept[..head] != all[..head] || !gives(answer, number) {
        return false;
    }
    let mut rest = all[head..].iter();
    if !kept[head..]
        .iter()
        .all(|line| rest.any(|other| other == line))
    {
        return false;
    }
    (head..kept.len()).all(|left_out| !gives(&without(&kept, left_out), number))
}

fn without(lines: &[&[u8]], left_out: usize) -> Vec<u8> {
    [&lines[..left_out], &lines[left_out + 1..]]
        .concat()
        .concat()
}

/// The answer of a reduction, or the number of a refusal; `room` is the
/// length of the output.
pub fn answer(script: &[u8], number: u32, room: usize) -> u32 {
    if script.len() > MAX_SCRIPT || room < script.len() {
        TOO_LONG
    } else if number == 0 || !gives(script, number) {
        NOT_GIVEN
    } else {
        0
    }
}

/// A script that gives the number, reduced: a line that can go, goes, until
/// none can.
pub fn reduce(script: &[u8], number: u32) -> Vec<u8> {
    let Some(head) = head(script) else {
        let (line, _) = refusals(script)[0];
        return lines(script)[..line.min(lines(script).len())].concat();
    };
    let mut kept = script.to_vec();
    loop {
        let now = lines(&kept);
        let shorter = (head..now.len())
            .map(|left_out| without(&now, left_out))
            .find(|shorter| gives(shorter, number));
        match shorter {
            Some(shorter) => kept = shorter,
            None => return kept,
        }
    }
}
