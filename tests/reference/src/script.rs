//! The replay of a script: reading its lines, running its events, and
//! printing what was refused and what every node holds.

use std::iter;

use crate::node::Ground;
use crate::refusal::{require, Refusal};
use crate::schedule::FREE_SCHEDULE;
use crate::settings::Settings;
use crate::site::{Event, EventKind, PacketArea, Row, Site, State, AREA_LENGTH};
use crate::windows::Window;

pub const MAX_SCRIPT: usize = 40_000;

pub const SETTINGS_NAMES: &[u8] = b"nodes slots rounds heard split";
pub const TABLE_NAMES: &[u8] = b"node version flags want";
pub const EVENT_NAMES: &[u8] = b"event node with";

const REFUSAL_HEAD: &[u8] = b"line refusal\n";
const SPLIT_HEAD: &[u8] = b"line refusal split\n";
const REASONS_HEAD: &[u8] = b"line node rule missing\n";
const LISTING_HEAD: &[u8] = b"node state version flags request slots\n";

/// A refusal and the number of the line it is reported at.
type LineRefusal = (usize, Refusal);

/// The printed answer to `script`.
pub fn replay(script: &[u8]) -> Vec<u8> {
    replay_in(script, &mut [0; AREA_LENGTH])
}

/// As [`replay`], with a lent packet area, whatever it holds.
pub fn replay_in(script: &[u8], area: &mut [u8]) -> Vec<u8> {
    replay_day(script, area, 1, &[])
}

/// As [`replay_in`], with a day and windows that are lent to the load and to
/// each end.
pub fn replay_day(script: &[u8], area: &mut [u8], day: u32, windows: &[Window]) -> Vec<u8> {
    let mut lines = Lines::new(script);
    let figures = fit(script, area).and_then(|area| Ok((area, read_settings(&mut lines)?)));
    let (area, settings) = match figures {
        Err(refused) => return refused_script(REFUSAL_HEAD, refused),
        Ok(figures) => figures,
    };
    let head = refusal_head(&settings);
    let mut site = match load(&mut lines, settings, day, windows) {
        Err(refused) => return refused_script(head, refused),
        Ok(site) => site,
    };
    let mut output = head.to_vec();
    run(&mut site, area, &mut lines, &mut output, windows);
    print_listing(&mut output, &site);
    output
}

/// The first head tells of a site that may split, whatever is refused behind
/// its settings line.
fn refusal_head(settings: &Settings) -> &'static [u8] {
    if settings.may_split() {
        SPLIT_HEAD
    } else {
        REFUSAL_HEAD
    }
}

/// What is printed of a script that is refused before its events.
fn refused_script(head: &[u8], refused: LineRefusal) -> Vec<u8> {
    let mut output = head.to_vec();
    print_refusal(&mut output, refused);
    output
}

/// The part of `area` that holds the packets. Sizes are tested before
/// anything else, hence reported at line 0.
fn fit<'a>(script: &[u8], area: &'a mut [u8]) -> Result<&'a mut PacketArea, LineRefusal> {
    let refused = (0, Refusal::Capacity);
    if script.len() > MAX_SCRIPT {
        return Err(refused);
    }
    area.first_chunk_mut().ok_or(refused)
}

/// What stands where a line is looked for.
#[derive(Clone, Copy)]
enum Line<'a> {
    /// The text before a byte 10.
    Whole(&'a [u8]),
    /// Bytes, but no byte 10 behind them.
    Cut,
    Missing,
}

/// The lines of a script, counted from 1.
struct Lines<'a> {
    rest: &'a [u8],
    number: usize,
}

impl<'a> Lines<'a> {
    fn new(script: &'a [u8]) -> Lines<'a> {
        Lines {
            rest: script,
            number: 0,
        }
    }

    fn advance(&mut self) -> Line<'a> {
        self.number += 1;
        let rest = self.rest;
        match rest.iter().position(|&byte| byte == b'\n') {
            Some(end) => {
                self.rest = &rest[end + 1..];
                Line::Whole(&rest[..end])
            }
            None => {
                self.rest = &[];
                if rest.is_empty() {
                    Line::Missing
                } else {
                    Line::Cut
                }
            }
        }
    }

    /// Adds the number of the current line to a refusal.
    fn locate<T>(&self, result: Result<T, Refusal>) -> Result<T, LineRefusal> {
        result.map_err(|refusal| (self.number, refusal))
    }

    fn names(&mut self, expected: &[u8]) -> Result<(), LineRefusal> {
        let line = self.advance();
        let equal = matches!(line, Line::Whole(text) if text == expected);
        self.locate(require(equal, Refusal::NamesLine))
    }

    fn values<const COUNT: usize>(&mut self) -> Result<[u32; COUNT], LineRefusal> {
        let line = self.advance();
        self.locate(match line {
            Line::Whole(text) => numbers(text),
            Line::Cut => Err(Refusal::Value),
            Line::Missing => Err(Refusal::NamesLine),
        })
    }
}

/// The `COUNT` fields of a line, with one space between.
fn fields<const COUNT: usize>(text: &[u8]) -> Result<[&[u8]; COUNT], Refusal> {
    let mut parts = text.split(|&byte| byte == b' ');
    let mut fields: [&[u8]; COUNT] = [&[]; COUNT];
    for field in &mut fields {
        *field = parts.next().ok_or(Refusal::Value)?;
    }
    require(parts.next().is_none(), Refusal::Value)?;
    Ok(fields)
}

fn numbers<const COUNT: usize>(text: &[u8]) -> Result<[u32; COUNT], Refusal> {
    let mut numbers = [0; COUNT];
    for (value, field) in numbers.iter_mut().zip(fields::<COUNT>(text)?) {
        *value = number(field)?;
    }
    Ok(numbers)
}

/// A decimal number of 32 bits without leading zeros.
fn number(field: &[u8]) -> Result<u32, Refusal> {
    let leading_zero = field.len() > 1 && field[0] == b'0';
    require(!field.is_empty() && !leading_zero, Refusal::Value)?;
    field.iter().try_fold(0u32, |value, byte| {
        require(byte.is_ascii_digit(), Refusal::Value)?;
        let digit = u32::from(byte - b'0');
        value
            .checked_mul(10)
            .and_then(|tens| tens.checked_add(digit))
            .ok_or(Refusal::Value)
    })
}

fn read_settings(lines: &mut Lines) -> Result<Settings, LineRefusal> {
    lines.names(SETTINGS_NAMES)?;
    let [nodes, slots, rounds, heard, split] = lines.values()?;
    lines.locate(Settings::new(nodes, slots, rounds, heard, split))
}

/// Reads everything behind the settings and before the first event line. The
/// windows are tested behind it, and reported at line 0.
fn load(
    lines: &mut Lines,
    settings: Settings,
    day: u32,
    windows: &[Window],
) -> Result<Site, LineRefusal> {
    lines.names(TABLE_NAMES)?;
    let mut table = Vec::new();
    for expected in 1..=settings.nodes() {
        let [node, version, flags, want] = lines.values()?;
        let row = Row {
            node,
            version,
            flags,
            want,
        };
        lines.locate(Site::load_row(settings, expected, &row))?;
        table.push(row);
    }
    lines.names(EVENT_NAMES)?;
    Site::load_day(settings, &table, day, windows).map_err(|refusal| (0, refusal))
}

/// Runs the events and prints the refused ones, which are passed over.
fn run(
    site: &mut Site,
    area: &mut PacketArea,
    lines: &mut Lines,
    output: &mut Vec<u8>,
    windows: &[Window],
) {
    loop {
        let outcome = match lines.advance() {
            Line::Missing => return,
            Line::Cut => Err(Refusal::Value),
            Line::Whole(text) => {
                event(text).and_then(|event| site.apply_lent(area, event, windows))
            }
        };
        if let Err(refused) = lines.locate(outcome) {
            print_refusal(output, refused);
        }
    }
}

/// Why each live node sent what it sent, or nothing, at each accepted close:
/// node by node, and of a node line by line. A script that is refused before
/// its events prints as in a replay.
pub fn why(script: &[u8]) -> Vec<u8> {
    why_day(script, 1, &[])
}

/// As [`why`], with a day and windows that are lent to the load and to each
/// end.
pub fn why_day(script: &[u8], day: u32, windows: &[Window]) -> Vec<u8> {
    let mut area = [0; AREA_LENGTH];
    if script.len() > MAX_SCRIPT {
        return replay_day(script, &mut area, day, windows);
    }
    let mut lines = Lines::new(script);
    let settings = read_settings(&mut lines);
    let loaded = settings.and_then(|settings| load(&mut lines, settings, day, windows));
    let mut site = match loaded {
        Ok(site) => site,
        Err(_) => return replay_day(script, &mut area, day, windows),
    };
    let reasons = reasons(&mut site, &mut lines, windows);
    let mut output = REASONS_HEAD.to_vec();
    for node in 1..=site.settings().nodes() {
        for (line, _, ground) in reasons.iter().filter(|(_, told, _)| *told == node) {
            let text = format!("{line} {node} {} {}\n", ground.rule.word(), ground.missing);
            output.extend_from_slice(text.as_bytes());
        }
    }
    output
}

/// The grounds of the accepted closes: line, node, ground.
fn reasons(site: &mut Site, lines: &mut Lines, windows: &[Window]) -> Vec<(usize, u32, Ground)> {
    let mut area = [0; AREA_LENGTH];
    let mut reasons = Vec::new();
    while let Line::Whole(text) = lines.advance() {
        let Ok(event) = event(text) else { continue };
        let live = site.live_nodes().map(|node| (node.id, node.ground()));
        let grounds: Vec<(u32, Ground)> = live.collect();
        let accepted = site.apply_lent(&mut area, event, windows).is_ok();
        if accepted && event.kind == EventKind::Close {
            let told = grounds.into_iter();
            reasons.extend(told.map(|(node, ground)| (lines.number, node, ground)));
        }
    }
    reasons
}

fn event(text: &[u8]) -> Result<Event, Refusal> {
    let [word, node, with] = fields(text)?;
    Ok(Event {
        kind: kind(word)?,
        node: number(node)?,
        with: number(with)?,
    })
}

fn kind(word: &[u8]) -> Result<EventKind, Refusal> {
    EventKind::ALL
        .into_iter()
        .find(|kind| kind.word().as_bytes() == word)
        .ok_or(Refusal::Value)
}

fn print_refusal(output: &mut Vec<u8>, (line, refusal): LineRefusal) {
    print_number(output, line as u32);
    output.push(b' ');
    print_number(output, u32::from(refusal.number()));
    output.push(b'\n');
}

fn print_number(output: &mut Vec<u8>, number: u32) {
    let mut digits = [0; 10];
    let mut at = digits.len();
    let mut rest = number;
    loop {
        at -= 1;
        digits[at] = b'0' + (rest % 10) as u8;
        rest /= 10;
        if rest == 0 {
            break;
        }
    }
    output.extend_from_slice(&digits[at..]);
}

fn print_listing(output: &mut Vec<u8>, site: &Site) {
    output.extend_from_slice(LISTING_HEAD);
    for node in 1..=site.settings().nodes() {
        print_row(output, site, node);
    }
}

/// A node that is not live shows nothing of what it holds.
fn print_row(output: &mut Vec<u8>, site: &Site, node: u32) {
    let state: &[u8] = match site.state(node) {
        State::Live => b"live",
        State::Waiting => b"waiting",
        State::Down => b"down",
    };
    let (version, flags, request, schedule) = match site.live(node) {
        Some(live) => (live.version, live.flags, live.request, &live.schedule),
        None => (0, 0, 0, &FREE_SCHEDULE),
    };
    print_number(output, node);
    output.push(b' ');
    output.extend_from_slice(state);
    for number in [version, flags, request] {
        output.push(b' ');
        print_number(output, number);
    }
    let mut before = b' ';
    for &owner in &schedule.owners()[..site.settings().slots() as usize] {
        output.push(before);
        print_number(output, u32::from(owner));
        before = b',';
    }
    output.push(b'\n');
}

/// A script with this head and these event lines.
pub fn write_script(settings: &Settings, table: &[Row], events: &[Event]) -> Vec<u8> {
    let rows = table
        .iter()
        .map(|row| format!("{} {} {} {}", row.node, row.version, row.flags, row.want));
    let figures = format!(
        "{} {} {} {} {}",
        settings.nodes(),
        settings.slots(),
        settings.rounds(),
        settings.heard(),
        settings.split()
    );
    let lines = iter::once(SETTINGS_NAMES.to_vec())
        .chain(iter::once(figures.into_bytes()))
        .chain(iter::once(TABLE_NAMES.to_vec()))
        .chain(rows.map(String::into_bytes))
        .chain(iter::once(EVENT_NAMES.to_vec()))
        .chain(events.iter().map(|event| event.to_string().into_bytes()));
    lines
        .flat_map(|line| line.into_iter().chain(*b"\n"))
        .collect()
}
