//! Time per event of the calls of one site (`hydra_site_event`) and of a group
//! (`hydra_group_event`, all eight numbers loaded), beside the second
//! implementation with the same windows, tally and reports, in turns, in one
//! process. Each pass is a round of one site's events; an epoch has one round.
//!
//!     cargo run --release --bin bench-sites

#![forbid(unsafe_code)]

use std::hint::black_box;

use compare::calls::{self, Lending};
use compare::desk::{answer_of, figures, numbers, rows};
use compare::measure::measure;
use compare::{scripts, windows};
use reference::group::{Group, PLACES, SITES};
use reference::site::{Event, PacketArea, Site, AREA_LENGTH, REPORTS_LENGTH};
use reference::tally::Tally;
use reference::windows::Window;

const NODES: u32 = 32;
/// The number of the group whose events are timed.
const NUMBER: u32 = 5;

struct Case {
    name: &'static str,
    round: Vec<Event>,
    day: u32,
    windows: Vec<Window>,
    reports: usize,
}

/// A round with nothing beside it, and with 64 windows and reports.
fn both(name: &'static str, round: Vec<Event>) -> [Case; 2] {
    [
        Case {
            name,
            round: round.clone(),
            day: 1,
            windows: Vec::new(),
            reports: 0,
        },
        Case {
            name,
            round,
            day: 64,
            windows: windows::in_order(NODES),
            reports: REPORTS_LENGTH,
        },
    ]
}

/// The events of a round, each answered with 0. The tally begins anew with
/// each round, so that it is never full.
fn pass<'a>(
    case: &'a Case,
    mut event: impl FnMut(Event, &mut Tally, &mut [u8]) -> u32 + 'a,
) -> impl FnMut() + 'a {
    let mut reports = vec![0; case.reports];
    move || {
        let mut tally = Tally::EMPTY;
        for &e in &case.round {
            let answer = event(black_box(e), &mut tally, &mut reports);
            assert_eq!(answer, 0, "{}: {e}", case.name);
        }
        black_box(&tally);
    }
}

fn one_site(case: &Case) -> impl FnMut() + '_ {
    let settings = scripts::settings(NODES, 80, 1);
    let table = rows(&scripts::table(&settings));
    let mut words = vec![0; 264];
    let mut bytes = vec![0; 24769];
    let mut area = vec![0; AREA_LENGTH];
    let answer = calls::site_load(
        &mut words,
        &mut bytes,
        figures(&settings),
        &table,
        case.day,
        &case.windows,
        &mut Tally::EMPTY.clone(),
    );
    assert_eq!(answer, 0);
    pass(case, move |e, tally, reports| {
        let event = numbers(e);
        calls::site_event(
            &mut words,
            &mut bytes,
            &mut area,
            event,
            &case.windows,
            tally,
            reports,
        )
    })
}

fn second_site(case: &Case) -> impl FnMut() + '_ {
    let settings = scripts::settings(NODES, 80, 1);
    let table = scripts::table(&settings);
    let mut site = Site::load_day(settings, &table, case.day, &case.windows).expect("a site");
    let mut area: PacketArea = [0; AREA_LENGTH];
    pass(case, move |e, tally, reports| {
        answer_of(site.apply_kept(&mut area, e, &case.windows, tally, reports))
    })
}

fn group(case: &Case) -> impl FnMut() + '_ {
    let settings = scripts::settings(NODES, 80, 1);
    let table = rows(&scripts::table(&settings));
    let mut words = vec![0; SITES * 262];
    let mut bytes = vec![0; SITES * 24769];
    let mut places = vec![0; PLACES + 3 * SITES];
    let mut area = vec![0; AREA_LENGTH];
    assert_eq!(calls::group_begin(&words, &bytes, &mut places), 0);
    for number in 1..=SITES as u32 {
        let lent = Lending {
            words: &mut words,
            bytes: &mut bytes,
            table: &mut places,
            tally: &mut Tally::EMPTY.clone(),
        };
        let given = figures(&settings);
        let answer = calls::group_load(lent, number, given, &table, case.day, &case.windows);
        assert_eq!(answer, 0);
    }
    pass(case, move |e, tally, reports| {
        let lent = Lending {
            words: &mut words,
            bytes: &mut bytes,
            table: &mut places,
            tally,
        };
        let event = numbers(e);
        calls::group_event(lent, &mut area, NUMBER, event, &case.windows, reports)
    })
}

fn second_group(case: &Case) -> impl FnMut() + '_ {
    let settings = scripts::settings(NODES, 80, 1);
    let table = scripts::table(&settings);
    let mut group = Group::default();
    let mut area = vec![0; AREA_LENGTH];
    for number in 1..=SITES as u32 {
        let loaded = group.load(number, Ok(settings), &table, case.day, &case.windows);
        loaded.expect("a site");
    }
    pass(case, move |e, tally, reports| {
        answer_of(group.apply(&mut area, NUMBER, e, &case.windows, tally, reports))
    })
}

fn main() {
    println!("nanoseconds per event, 32 nodes: one site, and a group of eight");
    println!(
        "{:<28} {:>8} {:>8} {:>8} {:>8} {:>8} {:>8} {:>8}",
        "round", "windows", "site", "second", "/second", "group", "second", "/second"
    );
    let cases = [
        both("all hear all", scripts::mesh_round(NODES)),
        both(
            "16 takes of each node",
            scripts::distribution_round(NODES, 16),
        ),
        both("a close and an end", scripts::silent_round()),
    ];
    for case in cases.iter().flatten() {
        let [site, second, group, seconds] = measure(
            case.round.len(),
            [
                &mut one_site(case),
                &mut second_site(case),
                &mut group(case),
                &mut second_group(case),
            ],
        );
        println!(
            "{:<28} {:>8} {site:>8.1} {second:>8.1} {:>8.2} {group:>8.1} {seconds:>8.1} {:>8.2}",
            case.name,
            case.windows.len(),
            site / second,
            group / seconds
        );
    }
}
