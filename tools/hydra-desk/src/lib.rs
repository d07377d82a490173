//! The desk's tool over the proved calls: it reads a script's lines, hands the events to a site in memory, and
//! tells or draws what the calls answer. Nothing of the protocol is written here.

pub mod accounts;
mod args;
mod causes;
pub mod check;
mod check_text;
mod commands;
pub mod core;
mod epoch;
mod head;
mod help;
mod json;
mod meant;
mod merge;
mod out;
pub mod picture;
mod progress;
mod range;
mod record;
mod reduce;
pub mod run;
mod script;
mod show;
mod sides;
pub mod source;
mod telling;
mod why;
mod windows;
mod words;

use args::Args;
use commands::{Trouble, COMMANDS};
use out::{complain, Out, Status};

/// Runs a command line without the program's name; the exit status.
pub fn run(words: Vec<String>) -> u8 {
    let mut words = words.into_iter();
    let mut out = Out::new();
    let outcome = match words.next().as_deref() {
        None => Err(Trouble(format!(
            "a command is wanted\n\n{}",
            help::overview().trim_end()
        ))),
        Some("--help" | "-h" | "help") => {
            out.text(&help::overview());
            Ok(Status::Fine)
        }
        Some("--version") => {
            out.line(concat!("hydra-desk ", env!("CARGO_PKG_VERSION")));
            Ok(Status::Fine)
        }
        Some(name) => command(name, words.collect(), &mut out),
    };
    let status = outcome.unwrap_or_else(|Trouble(sentence)| {
        complain(&sentence);
        Status::Malformed
    });
    out.finish(status) as u8
}

fn command(name: &str, words: Vec<String>, out: &mut Out) -> commands::Outcome {
    let Some(command) = COMMANDS.iter().find(|command| command.name == name) else {
        return Err(Trouble(format!(
            "there is no command {name} (`hydra-desk --help` lists them)"
        )));
    };
    if words.iter().any(|word| word == "--help" || word == "-h") {
        out.text(&help::of_command(command));
        return Ok(Status::Fine);
    }
    let args = Args::parse(command.options, words)
        .map_err(|sentence| Trouble(format!("{sentence} (`hydra-desk {name} --help`)")))?;
    (command.run)(&args, out)
}
