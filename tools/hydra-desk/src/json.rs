//! JSON, as far as `check` writes it.

use std::fmt::Write;

use crate::causes::Mend;
use crate::check::Checked;

/// A string with its quotes.
pub fn string(text: &str) -> String {
    let mut out = String::from("\"");
    for c in text.chars() {
        match c {
            '"' => out.push_str("\\\""),
            '\\' => out.push_str("\\\\"),
            c if u32::from(c) < 0x20 => {
                let _ = write!(out, "\\u{:04x}", u32::from(c));
            }
            c => out.push(c),
        }
    }
    out.push('"');
    out
}

fn optional(text: Option<String>) -> String {
    text.unwrap_or_else(|| "null".to_string())
}

/// One file, as one object.
pub fn checked(name: &str, checked: &Checked) -> String {
    let mut fields = vec![
        format!("\"file\":{}", string(name)),
        format!("\"status\":{}", checked.status as u8),
        format!("\"events\":{}", checked.events),
        format!("\"refused\":{}", checked.refused),
    ];
    let counts: Vec<String> = checked
        .counts
        .iter()
        .map(|(number, (all, ordinary))| {
            format!("\"{number}\":{{\"lines\":{all},\"ordinary\":{ordinary}}}")
        })
        .collect();
    fields.push(format!("\"counts\":{{{}}}", counts.join(",")));
    let fault = checked.fault.as_ref().map(|fault| {
        let text = optional(fault.text.as_deref().map(string));
        format!(
            "{{\"line\":{},\"number\":{},\"text\":{text},\"sentence\":{}}}",
            fault.line,
            fault.number,
            string(&fault.sentence)
        )
    });
    fields.push(format!("\"before_events\":{}", optional(fault)));
    let refusals: Vec<String> = checked.refusals.iter().map(refusal).collect();
    fields.push(format!("\"refusals\":[{}]", refusals.join(",")));
    fields.push(format!("\"untold\":{}", checked.untold()));
    format!("{{{}}}", fields.join(","))
}

fn refusal(refusal: &crate::check::Refusal) -> String {
    let mend = match &refusal.mend {
        Some(Mend::Instead(line)) => format!("{{\"instead\":{}}}", string(line)),
        Some(Mend::Before(line)) => format!("{{\"before\":{}}}", string(line)),
        Some(Mend::Another) | None => "null".to_string(),
    };
    format!(
        "{{\"line\":{},\"text\":{},\"number\":{},\"sentence\":{},\"ordinary\":{},\"follows\":{},\"mend\":{mend}}}",
        refusal.line,
        string(&refusal.text),
        refusal.number,
        string(&refusal.sentence),
        refusal.ordinary,
        optional(refusal.follows.map(|line| line.to_string())),
    )
}

#[cfg(test)]
mod tests {
    use super::string;

    #[test]
    fn strings_are_escaped() {
        assert_eq!(string("a\"b\\c\n"), "\"a\\\"b\\\\c\\u000a\"");
    }
}
