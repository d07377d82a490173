//! What each command does.

use std::io;

use super::files::{
    at_line, day_of, files, keep_rules, lent, nodes_of, one_file, open, placed, readable,
};
use super::{Outcome, Trouble};
use crate::args::{number, Args};
use crate::core::Day;
use crate::out::{complain, Out, Status};
use crate::progress::Progress;
use crate::sides::side_by_side;
use crate::source::Source;
use crate::{accounts, check, check_text, help, json, merge, picture, reduce, show, why, windows};

/// Each file with what became of it.
type Results<'a, T> = Vec<(&'a String, Result<T, Trouble>)>;

/// What `work` makes of each file that the command names, side by side, with the windows that are lent to it.
fn each_file<T: Send>(
    args: &Args,
    work: impl Fn(Source, Option<Day>) -> io::Result<T> + Sync,
) -> Result<Results<'_, T>, Trouble> {
    let names = files(args)?;
    let lent = names.iter().map(|name| lent(args, Some(name)));
    let lent = lent.collect::<Result<Vec<Option<Day>>, Trouble>>()?;
    let progress = Progress::of(names);
    let results = side_by_side(names, |at, name| {
        let source = open(name, &progress)?;
        readable(name, work(source, lent[at].clone()))
    });
    Ok(names.iter().zip(results).collect())
}

pub fn run_check(args: &Args, out: &mut Out) -> Outcome {
    let mut status = Status::Fine;
    for (name, result) in each_file(args, check::check)? {
        match result {
            Err(Trouble(sentence)) => {
                complain(&sentence);
                status = status.max(Status::Malformed);
            }
            Ok(checked) => {
                match args.has("--json") {
                    true => out.line(json::checked(name, &checked)),
                    false => out.text(&check_text::text(
                        name,
                        &checked,
                        args.has("--all"),
                        out.paint,
                    )),
                }
                status = status.max(checked.status);
            }
        }
    }
    Ok(status)
}

pub fn run_show(args: &Args, out: &mut Out) -> Outcome {
    let name = one_file(args)?;
    let day = lent(args, Some(name))?;
    let after = args.number("--after", 0, u64::MAX)?;
    let progress = Progress::of(&args.operands);
    let source = open(name, &progress)?;
    let status = match after {
        _ if args.has("--listing") => show::listing(source, day, out),
        Some(line) => show::after(source, day, line, out),
        None => show::show(source, day, out),
    };
    readable(name, status)
}

pub fn run_why(args: &Args, out: &mut Out) -> Outcome {
    let (name, node) = match args.operands.as_slice() {
        [name] => (name, None),
        [name, node] => {
            let number = number(node, 1, 32);
            let node =
                number.ok_or_else(|| format!("a box is a number from 1 to 32, not {node}"))?;
            (name, Some(node as u32))
        }
        _ => {
            return Err("a file is wanted, and perhaps the number of a box"
                .to_string()
                .into())
        }
    };
    let day = lent(args, Some(name))?;
    let progress = Progress::of(&args.operands[..1]);
    let source = open(name, &progress)?;
    let status = match args.has("--listing") {
        true => why::listing(source, day, out),
        false => why::why(source, day, node, out),
    };
    readable(name, status)
}

pub fn run_picture(args: &Args, out: &mut Out) -> Outcome {
    let name = one_file(args)?;
    let target = args
        .value("--output")
        .ok_or("-o OUT.html is wanted".to_string())?;
    let range = match args.value("--epochs") {
        None => None,
        Some(text) => {
            let (first, last) = text.split_once('-').unwrap_or((text, text));
            let ends = number(first, 1, u64::MAX).zip(number(last, 1, u64::MAX));
            Some(ends.ok_or_else(|| format!("--epochs wants A-B, not {text}"))?)
        }
    };
    let day = lent(args, Some(name))?;
    let progress = Progress::of(&args.operands);
    let source = open(name, &progress)?;
    let drawn = match target.ends_with(".svg") {
        true => picture::single(source, day, range),
        false => picture::page(source, day, range),
    };
    let page = readable(name, drawn)?.map_err(|fault| at_line(name, &fault))?;
    drop(progress);
    match target {
        "-" => out.text(&page.text),
        target => {
            if let Err(error) = std::fs::write(target, &page.text) {
                complain(&format!("{target} can't be written: {error}"));
                return Ok(Status::Unwritten);
            }
        }
    }
    Ok(page.status)
}

pub fn run_reduce(args: &Args, out: &mut Out) -> Outcome {
    let [name, text] = args.operands.as_slice() else {
        return Err("a file and the number of a refusal are wanted"
            .to_string()
            .into());
    };
    let refusal = number(text, 1, 18)
        .ok_or_else(|| format!("a refusal is a number from 1 to 18, not {text}"))?;
    let line = args.number("--line", 1, u64::MAX)?;
    let progress = Progress::of(&args.operands[..1]);
    let source = open(name, &progress)?;
    match readable(name, reduce::reduce(source, refusal as u32, line))? {
        Ok(script) => {
            out.text(&String::from_utf8_lossy(&script));
            Ok(Status::Fine)
        }
        Err(sentence) => {
            complain(&format!("{name}: {sentence}"));
            Ok(Status::Refused)
        }
    }
}

pub fn run_merge(args: &Args, out: &mut Out) -> Outcome {
    let read = |name: &String| readable(name, std::fs::read_to_string(name));
    let texts = files(args)?
        .iter()
        .map(|name| Ok((name.clone(), read(name)?)))
        .collect::<Result<Vec<_>, Trouble>>()?;
    match merge::merge(&texts) {
        Ok(script) => {
            out.text(&script);
            Ok(Status::Fine)
        }
        Err(sentences) => {
            sentences.iter().for_each(|sentence| complain(sentence));
            Ok(Status::Malformed)
        }
    }
}

pub fn run_windows(args: &Args, out: &mut Out) -> Outcome {
    let (name, script) = match args.operands.as_slice() {
        [name] => (name, None),
        [name, script] => (name, Some(script)),
        _ => {
            return Err("a file of windows is wanted, and perhaps a script"
                .to_string()
                .into())
        }
    };
    let (placed, day) = (placed(name)?, day_of(args)?);
    let nodes = match script {
        None => 32,
        Some(script) => nodes_of(script)?.ok_or_else(|| {
            format!("{script} is refused before its events (`hydra-desk check` tells why)")
        })?,
    };
    keep_rules(name, nodes, day, &placed)?;
    out.text(&windows::text(name, nodes, day, &placed));
    Ok(Status::Fine)
}

pub fn run_accounts(args: &Args, out: &mut Out) -> Outcome {
    let month = args.number("--month", 1, 100_000)?;
    let month = month.map(|month| month as u32);
    let results = each_file(args, |source, day| accounts::accounts(source, day, month))?;
    let mut status = Status::Fine;
    if args.has("--csv") {
        out.line(accounts::CSV_NAMES);
    }
    for (name, result) in results {
        let accounts = result.and_then(|accounts| accounts.map_err(|fault| at_line(name, &fault)));
        match accounts {
            Err(Trouble(sentence)) => {
                complain(&sentence);
                status = status.max(Status::Malformed);
            }
            Ok(accounts) => {
                out.text(&match args.has("--csv") {
                    true => accounts::csv(name, &accounts),
                    false => accounts::text(name, &accounts),
                });
                status = status.max(accounts.status);
            }
        }
    }
    Ok(status)
}

pub fn run_completion(args: &Args, out: &mut Out) -> Outcome {
    let shell = args.operands.first().map(String::as_str);
    let text = shell.and_then(help::completion);
    out.text(&text.ok_or("bash, zsh or fish is wanted".to_string())?);
    Ok(Status::Fine)
}
