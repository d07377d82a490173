//! Damage to scripts: what a careless writer, editor or transfer does.

use super::Random;
use crate::script::MAX_SCRIPT;

/// Fields that are wrong in most places.
const FIELDS: [&str; 22] = [
    "",
    "0",
    "00",
    "01",
    "1",
    "2",
    "3",
    "15",
    "16",
    "32",
    "33",
    "80",
    "81",
    "+1",
    "-1",
    "0x1",
    "1.0",
    "4294967295",
    "4294967296",
    "4294967297",
    "18446744073709551617",
    "99999999999999999999999999999999999999999",
];

const NAMES: [&str; 9] = [
    "nodes slots rounds heard split",
    "nodes slots rounds heard",
    "node version flags want",
    "event node with",
    "Event node with",
    "event  node with",
    "event node with ",
    "event node",
    "",
];

/// Bytes that mean something in a script, or nearly do.
const BYTES: &[u8] = b" \n\t\r\x000123456789-+,.sendhartkw\xff";

/// The script with some damage done to it.
pub fn damage(mut script: Vec<u8>, random: &mut Random) -> Vec<u8> {
    for _ in 0..random.between(1, 3) {
        script = damage_once(script, random);
    }
    script
}

fn damage_once(script: Vec<u8>, random: &mut Random) -> Vec<u8> {
    match random.below(20) {
        0..=3 => damage_byte(script, random),
        4..=7 => damage_lines(script, random),
        8..=13 => damage_field(script, random),
        14..=15 => damage_spacing(script, random),
        16 => damage_names(script, random),
        17..=18 => cut(script, random),
        _ => lengthen(script, random),
    }
}

/// Edits, deletes or inserts a byte.
fn damage_byte(mut script: Vec<u8>, random: &mut Random) -> Vec<u8> {
    let any = random.next_u32() as u8;
    let byte = if random.chance(80) {
        random.pick(BYTES)
    } else {
        any
    };
    let at = random.below(script.len() + 1);
    match random.below(3) {
        0 if at < script.len() => script[at] = byte,
        1 if at < script.len() => {
            script.remove(at);
        }
        _ => script.insert(at, byte),
    }
    script
}

/// The lines, each with its byte 10 if it has one.
fn split(script: &[u8]) -> Vec<Vec<u8>> {
    let lines = script.split_inclusive(|&byte| byte == b'\n');
    lines.map(<[u8]>::to_vec).collect()
}

/// The index of a line; the head is met more often than by its share.
fn any_line(lines: &[Vec<u8>], random: &mut Random) -> usize {
    if random.chance(30) {
        random.below(lines.len().min(8))
    } else {
        random.below(lines.len())
    }
}

/// Deletes, duplicates or swaps lines, or cuts one short.
fn damage_lines(script: Vec<u8>, random: &mut Random) -> Vec<u8> {
    let mut lines = split(&script);
    if lines.is_empty() {
        return script;
    }
    let at = any_line(&lines, random);
    match random.below(5) {
        0 => {
            lines.remove(at);
        }
        1 => lines.insert(at, lines[at].clone()),
        2 => lines.insert(at, b"\n".to_vec()),
        3 => {
            let other = any_line(&lines, random);
            lines.swap(at, other);
        }
        _ => {
            let length = random.below(lines[at].len());
            lines[at].truncate(length);
        }
    }
    lines.concat()
}

/// Changes the text of one line and leaves the byte 10 behind it.
fn edit_line(
    script: Vec<u8>,
    random: &mut Random,
    edit: impl FnOnce(&str, &mut Random) -> String,
) -> Vec<u8> {
    let mut lines = split(&script);
    if lines.is_empty() {
        return script;
    }
    let at = any_line(&lines, random);
    let ended = lines[at].ends_with(b"\n");
    let length = lines[at].len() - usize::from(ended);
    // Earlier damage may have left bytes that are no text; then any will do.
    let text = String::from_utf8_lossy(&lines[at][..length]).into_owned();
    lines[at] = edit(&text, random).into_bytes();
    if ended {
        lines[at].push(b'\n');
    }
    lines.concat()
}

/// Replaces a field, puts a zero before it, adds one or drops one.
fn damage_field(script: Vec<u8>, random: &mut Random) -> Vec<u8> {
    edit_line(script, random, |text, random| {
        let mut fields: Vec<String> = text.split(' ').map(str::to_string).collect();
        let at = random.below(fields.len());
        let value = random.pick(&FIELDS).to_string();
        match random.below(6) {
            0 => fields[at].insert(0, '0'),
            1 => fields.insert(at, value),
            2 => {
                fields.remove(at);
            }
            _ => fields[at] = value,
        }
        fields.join(" ")
    })
}

/// Wrong white space.
fn damage_spacing(script: Vec<u8>, random: &mut Random) -> Vec<u8> {
    edit_line(script, random, |text, random| match random.below(5) {
        0 => text.replacen(' ', "\t", 1),
        1 => text.replacen(' ', "  ", 1),
        2 => format!("{text} "),
        3 => format!(" {text}"),
        _ => format!("{text}\r"),
    })
}

fn damage_names(script: Vec<u8>, random: &mut Random) -> Vec<u8> {
    edit_line(script, random, |_, random| random.pick(&NAMES).to_string())
}

/// Cuts the script off: before its last byte, anywhere, or behind a line.
fn cut(mut script: Vec<u8>, random: &mut Random) -> Vec<u8> {
    match random.below(4) {
        0 => script.clear(),
        1 => {
            script.pop();
        }
        2 => script.truncate(random.below(script.len() + 1)),
        _ => {
            let mut lines = split(&script);
            let kept = random.below(lines.len().min(10) + 1);
            lines.truncate(kept);
            script = lines.concat();
        }
    }
    script
}

/// Repeats the script's own lines up to about the longest length allowed.
fn lengthen(mut script: Vec<u8>, random: &mut Random) -> Vec<u8> {
    let length = MAX_SCRIPT - 1 + random.below(4);
    let tail = split(&script).pop().unwrap_or_else(|| b"\n".to_vec());
    while script.len() < length {
        script.extend_from_slice(&tail);
    }
    script.truncate(length);
    script
}
