//! `accounts`: the slots held by each box, month by month, from the proved tally.

use std::fmt::Write;
use std::io;

use crate::core::{Day, Settings, Tally, TALLY_EPOCHS};
use crate::head::Fault;
use crate::out::Status;
use crate::run::Run;
use crate::source::Source;
use crate::words::{count, count_es, grouped};

/// Sums of tallies.
#[derive(Clone, Debug, Default, PartialEq, Eq)]
pub struct Account {
    pub epochs: u64,
    pub total: u64,
    pub slots: Vec<u64>,
    pub held: Vec<u64>,
}

impl Account {
    fn new(nodes: u32) -> Account {
        Account {
            epochs: 0,
            total: 0,
            slots: vec![0; nodes as usize],
            held: vec![0; nodes as usize],
        }
    }

    fn add(&mut self, epochs: u64, total: u64, slots: &[u64], held: &[u64]) {
        self.epochs += epochs;
        self.total += total;
        self.slots
            .iter_mut()
            .zip(slots)
            .for_each(|(sum, more)| *sum += more);
        self.held
            .iter_mut()
            .zip(held)
            .for_each(|(sum, more)| *sum += more);
    }

    fn add_tally(&mut self, tally: &Tally) {
        let wide = |counts: &[u32]| {
            counts
                .iter()
                .map(|&count| u64::from(count))
                .collect::<Vec<u64>>()
        };
        let (epochs, total) = (u64::from(tally.epochs), u64::from(tally.total));
        self.add(epochs, total, &wide(&tally.slots), &wide(&tally.held));
    }
}

pub struct Accounts {
    pub settings: Settings,
    pub months: Vec<Account>,
    pub all: Account,
    pub status: Status,
}

/// The tally of each month of so many epochs; without a number the whole script is one month.
pub fn accounts(
    source: Source,
    day: Option<Day>,
    month: Option<u32>,
) -> io::Result<Result<Accounts, Fault>> {
    let mut run = match Run::open(source, day)? {
        Ok(run) => run,
        Err(refused) => return Ok(Err(refused.fault)),
    };
    let nodes = run.settings().nodes;
    let mut months = Vec::new();
    let mut running = Account::new(nodes);
    // A full tally counts no more, so it is emptied when it has as many epochs as it takes.
    let full = month.unwrap_or(TALLY_EPOCHS);
    loop {
        if run.site.tally().epochs == full {
            running.add_tally(run.site.tally());
            run.site.clear_tally();
            if month.is_some() {
                months.push(std::mem::replace(&mut running, Account::new(nodes)));
            }
        }
        if run.step()?.is_none() {
            break;
        }
    }
    running.add_tally(run.site.tally());
    if running.epochs > 0 || months.is_empty() {
        months.push(running);
    }
    let mut all = Account::new(nodes);
    for month in &months {
        all.add(month.epochs, month.total, &month.slots, &month.held);
    }
    Ok(Ok(Accounts {
        settings: run.settings(),
        status: run.status(),
        months,
        all,
    }))
}

pub fn text(name: &str, accounts: &Accounts) -> String {
    let settings = accounts.settings;
    let mut out = format!(
        "{name}: {}, {}, {}\n",
        count_es(settings.nodes, "box"),
        count(u64::from(settings.slots), "slot"),
        count(accounts.all.epochs, "epoch")
    );
    if settings.split == 1 {
        out.push_str("  the site may split: a slot that two boxes hold counts for both\n");
    }
    let mut first = 1;
    for (month, account) in (1..).zip(&accounts.months) {
        let last = first + account.epochs - 1;
        let _ = writeln!(
            out,
            "  month {month}, epochs {} to {}",
            grouped(first),
            grouped(last)
        );
        out.push_str(&table(account));
        first = last + 1;
    }
    if accounts.months.len() > 1 {
        out.push_str("  all months\n");
        out.push_str(&table(&accounts.all));
    }
    out
}

fn table(account: &Account) -> String {
    let mut out = String::from("      box         slots  epochs with a slot\n");
    for (node, (slots, held)) in (1..).zip(account.slots.iter().zip(&account.held)) {
        let _ = writeln!(
            out,
            "    {node:>5}  {:>12}  {:>18}",
            grouped(*slots),
            grouped(*held)
        );
    }
    let _ = writeln!(out, "    total  {:>12}", grouped(account.total));
    out
}

pub const CSV_NAMES: &str = "file,month,epochs,box,slots,epochs_with_a_slot";

/// A line for each box and month, and one for the month's total.
pub fn csv(name: &str, accounts: &Accounts) -> String {
    let name = field(name);
    let mut out = String::new();
    for (month, account) in (1..).zip(&accounts.months) {
        let epochs = account.epochs;
        for (node, (slots, held)) in (1..).zip(account.slots.iter().zip(&account.held)) {
            let _ = writeln!(out, "{name},{month},{epochs},{node},{slots},{held}");
        }
        let _ = writeln!(out, "{name},{month},{epochs},total,{},", account.total);
    }
    out
}

/// A field of a CSV line, quoted where it must be.
fn field(text: &str) -> String {
    match text.contains([',', '"', '\n', '\r']) {
        true => format!("\"{}\"", text.replace('"', "\"\"")),
        false => text.to_string(),
    }
}
