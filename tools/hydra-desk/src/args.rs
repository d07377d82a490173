//! The words behind a command: options and operands.

use std::collections::BTreeMap;

/// An option of a command.
pub struct Opt {
    /// With its dashes.
    pub long: &'static str,
    pub short: Option<&'static str>,
    /// What stands behind it, if anything.
    pub value: Option<&'static str>,
    pub about: &'static str,
}

#[derive(Debug, Default)]
pub struct Args {
    pub operands: Vec<String>,
    options: BTreeMap<&'static str, String>,
}

impl Args {
    /// Sorts the words; or says what is wrong.
    pub fn parse(
        known: &[&'static Opt],
        words: impl IntoIterator<Item = String>,
    ) -> Result<Args, String> {
        let mut args = Args::default();
        let mut words = words.into_iter();
        while let Some(word) = words.next() {
            if word == "--" {
                args.operands.extend(words.by_ref());
                break;
            }
            if !word.starts_with('-') || word == "-" {
                args.operands.push(word);
                continue;
            }
            let (name, joined) = match word.split_once('=') {
                Some((name, value)) => (name.to_string(), Some(value.to_string())),
                None => (word, None),
            };
            let Some(opt) = known
                .iter()
                .find(|opt| opt.long == name || opt.short == Some(&name))
            else {
                return Err(format!("there is no option {name} here"));
            };
            let value = match (opt.value, joined) {
                (None, Some(_)) => return Err(format!("{name} has no value")),
                (None, None) => String::new(),
                (Some(_), Some(value)) => value,
                (Some(what), None) => words.next().ok_or_else(|| format!("{name} wants {what}"))?,
            };
            args.options.insert(opt.long, value);
        }
        Ok(args)
    }

    pub fn has(&self, long: &str) -> bool {
        self.options.contains_key(long)
    }

    pub fn value(&self, long: &str) -> Option<&str> {
        self.options.get(long).map(String::as_str)
    }

    /// An option's number within a range.
    pub fn number(&self, long: &str, low: u64, high: u64) -> Result<Option<u64>, String> {
        let Some(value) = self.value(long) else {
            return Ok(None);
        };
        number(value, low, high)
            .map(Some)
            .ok_or_else(|| format!("{long} wants a number from {low} to {high}, not {value}"))
    }
}

pub fn number(text: &str, low: u64, high: u64) -> Option<u64> {
    let digits = !text.is_empty() && text.bytes().all(|byte| byte.is_ascii_digit());
    let number: u64 = digits.then(|| text.parse().ok()).flatten()?;
    (low..=high).contains(&number).then_some(number)
}
