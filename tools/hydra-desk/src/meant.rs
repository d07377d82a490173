//! What was meant by a line that can't be read: one sentence, and the line as it should be.

use crate::script::{self, KINDS};
use crate::source::Line;

/// Why a line is no event line, and the line that was probably meant.
pub struct Meant {
    pub sentence: String,
    pub line: Option<String>,
}

/// Why bytes are not what a line may have, whichever line it is; none if they may be.
pub fn bytes(text: &[u8]) -> Option<(&'static str, Vec<u8>)> {
    if let Some(text) = text.strip_suffix(b"\r") {
        let sentence =
            "the line ends with CR LF: a script has LF alone (`tr -d '\\r'` converts it)";
        return Some((sentence, text.to_vec()));
    }
    if let Some(text) = text.strip_prefix(b"\xef\xbb\xbf") {
        return Some(("the line begins with a byte order mark", text.to_vec()));
    }
    let fields: Vec<&[u8]> = text
        .split(|&byte| byte == b' ' || byte == b'\t')
        .filter(|field| !field.is_empty())
        .collect();
    let joined = fields.join(&b' ');
    if joined != text {
        let sentence = match text.contains(&b'\t') {
            true => "a tab stands where one space belongs",
            false => "fields are separated by one space, with none before or behind",
        };
        return Some((sentence, joined));
    }
    None
}

/// Of an event line that was refused for its form.
pub fn event(line: &Line) -> Meant {
    let (sentence, text) = explain(line);
    let line = text.filter(|text| script::event(text.as_bytes()).is_some());
    Meant { sentence, line }
}

fn explain(line: &Line) -> (String, Option<String>) {
    let plain = line.shown();
    if !line.ended && script::event(&line.text).is_some() {
        let sentence = "the last line has no newline, so it is not run".to_string();
        return (sentence, Some(plain));
    }
    if line.text.is_empty() {
        return (
            "the line is empty: a script has no empty lines".to_string(),
            None,
        );
    }
    if let Some((sentence, better)) = bytes(&line.text) {
        let better = String::from_utf8_lossy(&better).into_owned();
        // A second fault in the same line is mended too.
        let mended = words(&better).1.unwrap_or(better);
        return (sentence.to_string(), Some(mended));
    }
    words(&plain)
}

/// Of a line whose fields are parted rightly.
fn words(text: &str) -> (String, Option<String>) {
    let fields: Vec<&str> = text.split(' ').collect();
    let Some(word) = closest(fields[0]) else {
        let sentence = format!("no event is called `{}`", fields[0]);
        return (sentence, None);
    };
    let numbers = &fields[1..];
    let better = with_zeros(word, numbers);
    if word != fields[0] {
        let sentence = format!("no event is called `{}`: `{word}` is meant", fields[0]);
        return (sentence, better);
    }
    if let Some(bad) = numbers
        .iter()
        .find(|n| script::number(n.as_bytes()).is_none())
    {
        return (number(bad), better);
    }
    let sentence = match word {
        "close" | "end" => format!("`{word}` stands with two zeros"),
        _ => format!("`{word}` stands with two numbers, not {}", numbers.len()),
    };
    (sentence, better)
}

fn number(bad: &str) -> String {
    if !bad.is_empty() && bad.bytes().all(|byte| byte.is_ascii_digit()) {
        match bad.starts_with('0') {
            true => format!("`{bad}` has a leading zero"),
            false => format!("`{bad}` is above 4294967295"),
        }
    } else {
        format!("`{bad}` is not a decimal number")
    }
}

/// The line with its numbers, without leading zeros, and with the zeros that its word asks for.
fn with_zeros(word: &str, numbers: &[&str]) -> Option<String> {
    let mut numbers: Vec<String> = numbers
        .iter()
        .map(|n| match n.trim_start_matches('0') {
            "" if !n.is_empty() => "0".to_string(),
            trimmed => trimmed.to_string(),
        })
        .collect();
    let zeros = match word {
        "close" | "end" => 2,
        "send" | "crash" => 1,
        _ => 0,
    };
    while numbers.len() < 2 && numbers.len() + zeros >= 2 {
        numbers.push("0".to_string());
    }
    (numbers.len() == 2).then(|| format!("{word} {}", numbers.join(" ")))
}

/// The event word that a word is, or is a slip away from.
fn closest(word: &str) -> Option<&'static str> {
    let lower = word.to_lowercase();
    let (distance, best) = KINDS
        .iter()
        .map(|(known, _)| (slips(&lower, known), *known))
        .min()?;
    (distance <= 1 || distance == 2 && best.len() > 4).then_some(best)
}

/// How many letters must be left out, put in, changed or swapped with the next to turn a word into another.
fn slips(a: &str, b: &str) -> usize {
    let (a, b): (Vec<char>, Vec<char>) = (a.chars().collect(), b.chars().collect());
    let mut table = vec![vec![0; b.len() + 1]; a.len() + 1];
    for i in 0..=a.len() {
        for j in 0..=b.len() {
            table[i][j] = match (i, j) {
                (0, _) => j,
                (_, 0) => i,
                _ => {
                    let other = usize::from(a[i - 1] != b[j - 1]);
                    let mut least = (table[i - 1][j] + 1)
                        .min(table[i][j - 1] + 1)
                        .min(table[i - 1][j - 1] + other);
                    if i > 1 && j > 1 && a[i - 1] == b[j - 2] && a[i - 2] == b[j - 1] {
                        least = least.min(table[i - 2][j - 2] + 1);
                    }
                    least
                }
            };
        }
    }
    table[a.len()][b.len()]
}
