//! What a line of a script says: numbers, names lines and event lines (specification, 7).

use crate::core::{Event, Kind};

pub const SETTINGS_NAMES: &str = "nodes slots rounds heard split";
pub const TABLE_NAMES: &str = "node version flags want";
pub const EVENT_NAMES: &str = "event node with";
pub const WINDOW_NAMES: &str = "node first end demand";

pub const KINDS: [(&str, Kind); 8] = [
    ("send", Kind::Send),
    ("hear", Kind::Hear),
    ("close", Kind::Close),
    ("take", Kind::Take),
    ("end", Kind::End),
    ("want", Kind::Want),
    ("crash", Kind::Crash),
    ("restart", Kind::Restart),
];

pub fn word(kind: Kind) -> &'static str {
    KINDS[kind as usize - 1].0
}

/// A decimal number without sign or leading zero, at most 4,294,967,295.
pub fn number(text: &[u8]) -> Option<u32> {
    // No such number has more digits, and ten of them fit into 64 bits.
    if text.is_empty() || text.len() > 10 || (text[0] == b'0' && text.len() > 1) {
        return None;
    }
    let mut value = 0;
    for &byte in text {
        if !byte.is_ascii_digit() {
            return None;
        }
        value = 10 * value + u64::from(byte - b'0');
    }
    u32::try_from(value).ok()
}

/// The numbers of a value line, if it has just so many with one space between them.
pub fn numbers<const COUNT: usize>(text: &[u8]) -> Option<[u32; COUNT]> {
    let mut values = [0; COUNT];
    let mut fields = text.split(|&byte| byte == b' ');
    for value in &mut values {
        *value = number(fields.next()?)?;
    }
    fields.next().is_none().then_some(values)
}

/// An event line; whether its numbers may be is for the site to say.
pub fn event(text: &[u8]) -> Option<Event> {
    let space = text.iter().position(|&byte| byte == b' ')?;
    let (name, rest) = (&text[..space], &text[space + 1..]);
    let &(_, kind) = KINDS.iter().find(|(word, _)| word.as_bytes() == name)?;
    let [node, with] = numbers(rest)?;
    Some(Event::new(kind, node, with))
}
