//! What a close reports, and the call on a whole script that leaves the events that a refusal needs.

use super::raw;
use super::site::DONE;

/// The longest script that `reduce` takes, in bytes.
pub const TOP_SCRIPT: usize = 40_000;

#[derive(Clone, Copy, Debug, PartialEq, Eq, Hash, PartialOrd, Ord)]
pub enum Rule {
    Missing,
    Majority,
    Lower,
    Repeats,
    Top,
    Determined,
    Sent,
}

impl Rule {
    pub const ALL: [Rule; 7] = [
        Rule::Missing,
        Rule::Majority,
        Rule::Lower,
        Rule::Repeats,
        Rule::Top,
        Rule::Determined,
        Rule::Sent,
    ];

    /// By its number in a report; 0 is none.
    pub(super) fn of_number(number: u8) -> Option<Rule> {
        Rule::ALL.get(usize::from(number).checked_sub(1)?).copied()
    }

    /// Whether a schedule goes out. A box that has determined one sends nothing, or repeats the old one: the rule does not say which.
    pub fn sends(self) -> Option<bool> {
        match self {
            Rule::Missing | Rule::Majority | Rule::Lower | Rule::Top => Some(false),
            Rule::Determined => None,
            Rule::Repeats | Rule::Sent => Some(true),
        }
    }

    /// Whether the box sends nothing and has determined nothing.
    pub fn is_silent(self) -> bool {
        self.sends() == Some(false)
    }

    pub fn word(self) -> &'static str {
        match self {
            Rule::Missing => "missing",
            Rule::Majority => "majority",
            Rule::Lower => "lower",
            Rule::Repeats => "repeats",
            Rule::Top => "top",
            Rule::Determined => "determined",
            Rule::Sent => "sent",
        }
    }
}

/// Why a box sent what it sent at a close, or nothing.
#[derive(Clone, Copy, Debug, PartialEq, Eq)]
pub struct Report {
    pub node: u32,
    pub rule: Rule,
    /// The lowest box whose request was missing, 0 for none.
    pub missing: u32,
}

/// The settings and table of a script of up to 40,000 bytes with the events that a refusal's number needs; or the call's refusal.
pub fn reduce(script: &[u8], number: u32) -> Result<Vec<u8>, u32> {
    let mut out = vec![0; script.len()];
    let mut length = 0;
    // Each pointer is to a buffer of the length that goes with it, and no two overlap.
    let answer = unsafe {
        raw::hydra_reduce(
            script.as_ptr(),
            script.len(),
            out.as_mut_ptr(),
            out.len(),
            &mut length,
            number,
        )
    };
    if answer != DONE {
        return Err(answer);
    }
    out.truncate(length as usize);
    Ok(out)
}
