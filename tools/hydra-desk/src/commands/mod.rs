//! The commands: their words, their options, and what each does.

mod doing;
mod files;

use crate::args::{Args, Opt};
use crate::out::{Out, Status};
use doing::{
    run_accounts, run_check, run_completion, run_merge, run_picture, run_reduce, run_show, run_why,
    run_windows,
};

/// A sentence for standard error: wrong use, or a file that can't be read.
pub struct Trouble(pub String);

impl From<String> for Trouble {
    fn from(sentence: String) -> Trouble {
        Trouble(sentence)
    }
}

pub type Outcome = Result<Status, Trouble>;

pub struct Command {
    pub name: &'static str,
    pub operands: &'static str,
    pub about: &'static str,
    pub options: &'static [&'static Opt],
    pub run: fn(&Args, &mut Out) -> Outcome,
}

const fn opt(long: &'static str, value: Option<&'static str>, about: &'static str) -> Opt {
    Opt {
        long,
        short: None,
        value,
        about,
    }
}

static JSON: Opt = opt(
    "--json",
    None,
    "one JSON object for each file, one to a line",
);
static ALL: Opt = opt("--all", None, "tell every refused line, ordinary ones too");
static AFTER: Opt = opt(
    "--after",
    Some("LINE"),
    "only the site as it is after this line",
);
static LISTING: Opt = opt("--listing", None, "the lines that `replay` or `why` prints");
static WINDOWS: Opt = opt("--windows", Some("FILE.windows"), "demands by the hour");
static DAY: Opt = opt(
    "--day",
    Some("EPOCHS"),
    "epochs of a day with windows, 1 to 1440 (1440)",
);
static LINE: Opt = opt(
    "--line",
    Some("N"),
    "keep the refusal of this line's own event",
);
static CSV: Opt = opt("--csv", None, "comma-separated values");
static MONTH: Opt = opt(
    "--month",
    Some("EPOCHS"),
    "epochs of a month, 1 to 100000 (the whole script)",
);
static EPOCHS: Opt = opt("--epochs", Some("A-B"), "draw only these epochs");
static OUTPUT: Opt = Opt {
    long: "--output",
    short: Some("-o"),
    value: Some("OUT.html"),
    about: "the page to be written, - for standard output; one drawing if it ends with .svg",
};

pub static COMMANDS: &[Command] = &[
    Command {
        name: "check",
        operands: "FILE...",
        about: "tell which lines are refused, and why",
        options: &[&ALL, &JSON, &WINDOWS, &DAY],
        run: run_check,
    },
    Command {
        name: "show",
        operands: "FILE",
        about: "tell what each box holds after each round",
        options: &[&AFTER, &LISTING, &WINDOWS, &DAY],
        run: run_show,
    },
    Command {
        name: "why",
        operands: "FILE [BOX]",
        about: "tell why boxes sent what they sent, or nothing",
        options: &[&LISTING, &WINDOWS, &DAY],
        run: run_why,
    },
    Command {
        name: "picture",
        operands: "FILE",
        about: "draw the run as a page for a browser",
        options: &[&OUTPUT, &EPOCHS, &WINDOWS, &DAY],
        run: run_picture,
    },
    Command {
        name: "reduce",
        operands: "FILE NUMBER",
        about: "leave only the events that a refusal needs",
        options: &[&LINE],
        run: run_reduce,
    },
    Command {
        name: "windows",
        operands: "FILE.windows [SCRIPT]",
        about: "tell what each box wants in the course of a day",
        options: &[&DAY],
        run: run_windows,
    },
    Command {
        name: "accounts",
        operands: "FILE...",
        about: "count the slots held, by box and month",
        options: &[&MONTH, &CSV, &WINDOWS, &DAY],
        run: run_accounts,
    },
    Command {
        name: "merge",
        operands: "LOG...",
        about: "make one script of the logs of a site's boxes",
        options: &[],
        run: run_merge,
    },
    Command {
        name: "completion",
        operands: "bash|zsh|fish",
        about: "print the completion for a shell",
        options: &[],
        run: run_completion,
    },
];
