//! The headers against the second implementation: every number, place and
//! size that they define, and every declaration of the calls.

use std::collections::BTreeMap;
use std::fs;
use std::path::Path;

use compare::{area, oracle};
use reference::{group, node, reduce, script, settings, site, tally, windows, wire};

const HEADERS: [&str; 2] = ["hydra.h", "hydra-desk.h"];

fn text(path: &str) -> String {
    let root = Path::new(env!("CARGO_MANIFEST_DIR")).join("../..");
    fs::read_to_string(root.join(path)).expect(path)
}

/// The text without comments, one space between words.
fn plain(source: &str) -> String {
    let mut left = String::new();
    let mut rest = source;
    while let Some(start) = rest.find("/*") {
        left.push_str(&rest[..start]);
        let end = rest[start..].find("*/").expect("a comment that ends") + start + 2;
        rest = &rest[end..];
    }
    left.push_str(rest);
    left
}

/// What a header defines as a number: macros, and constants of enums.
fn numbers() -> BTreeMap<String, u64> {
    let mut found = BTreeMap::new();
    for header in HEADERS {
        let source = plain(&text(&format!("include/{header}")));
        for line in source.lines() {
            let words: Vec<&str> = line.split_whitespace().collect();
            match words[..] {
                ["#define", name, value] if name.starts_with("HYDRA_") => {
                    if let Ok(value) = value.parse() {
                        found.insert(name.to_string(), value);
                    }
                }
                _ => (),
            }
            // a line of an enum may have several constants
            for part in line.replace(['{', '}', ';'], ",").split(',') {
                let words: Vec<&str> = part.split_whitespace().collect();
                if let [.., name, "=", value] = words[..] {
                    if let (true, Ok(value)) = (name.starts_with("HYDRA_"), value.parse()) {
                        found.insert(name.to_string(), value);
                    }
                }
            }
        }
    }
    found
}

/// What they should be, by the second implementation and its node area.
fn expected() -> BTreeMap<String, u64> {
    let release = text("VERSION");
    let mut parts = release
        .trim()
        .split('.')
        .map(|n| n.parse::<u64>().expect("a number"));
    let mut part = || parts.next().expect("three numbers");
    let sizes: Vec<(&str, u64)> = vec![
        ("HYDRA_VERSION_MAJOR", part()),
        ("HYDRA_VERSION_MINOR", part()),
        ("HYDRA_VERSION_PATCH", part()),
        ("HYDRA_TOP_NODES", settings::MAX_NODES.into()),
        ("HYDRA_TOP_SLOTS", settings::MAX_SLOTS.into()),
        ("HYDRA_TOP_ROUNDS", settings::MAX_ROUNDS.into()),
        ("HYDRA_TOP_VERSION", settings::TOP_VERSION.into()),
        ("HYDRA_TOP_DEMAND", settings::MAX_REQUEST.into()),
        ("HYDRA_TOP_WINDOWS", windows::MAX_WINDOWS as u64),
        ("HYDRA_TOP_DAY", windows::MAX_DAY.into()),
        ("HYDRA_TALLY_EPOCHS", tally::MAX_EPOCHS.into()),
        ("HYDRA_NODE_SIZE", area::LENGTH as u64),
        ("HYDRA_PACKET_SIZE", wire::PACKET_LENGTH as u64),
        ("HYDRA_SCHEDULE_SIZE", wire::SCHEDULE_LENGTH as u64),
        ("HYDRA_REPORT_SIZE", oracle::REPORT_LENGTH as u64),
        ("HYDRA_SLOTS_SIZE", oracle::SLOTS_LENGTH as u64),
        ("HYDRA_GROUND_SIZE", node::GROUND_LENGTH as u64),
        ("HYDRA_PACKETS_SIZE", site::AREA_LENGTH as u64),
        ("HYDRA_GROUP_SITES", group::SITES as u64),
        // a site's storage, and what a listing shows of a node: docs/desk.md
        ("HYDRA_SITE_WORDS", 264),
        ("HYDRA_SITE_BYTES", 24769),
        ("HYDRA_SHOWN_SIZE", 10 + u64::from(settings::MAX_SLOTS)),
    ];
    // docs/node-area.md
    let places = [
        ("HYDRA_NODE_NUMBER", 0),
        ("HYDRA_NODE_VERSION", area::VERSION),
        ("HYDRA_NODE_PHASE", area::PHASE),
        ("HYDRA_NODE_FIRST", area::SCHEDULE),
        ("HYDRA_NODE_SECOND", area::SCHEDULE + area::SECOND),
        ("HYDRA_NODE_HELD", area::SCHEDULE + area::COUNTS),
        ("HYDRA_GROUND_RULE", 0),
        ("HYDRA_GROUND_MISSING", 1),
        ("HYDRA_REPORT_VERSION", 0),
        ("HYDRA_REPORT_OWNERS", 4),
        ("HYDRA_REPORT_FLAGS", wire::SCHEDULE_LENGTH),
        ("HYDRA_REPORT_PLACE", wire::SCHEDULE_LENGTH + 4),
        ("HYDRA_REPORT_DEMAND", wire::SCHEDULE_LENGTH + 8),
        ("HYDRA_REPORT_REQUEST", wire::SCHEDULE_LENGTH + 9),
        ("HYDRA_REPORT_PHASE", wire::SCHEDULE_LENGTH + 10),
        ("HYDRA_REPORT_UPDATED", wire::SCHEDULE_LENGTH + 11),
        ("HYDRA_SHOWN_STATE", 0),
        ("HYDRA_SHOWN_VERSION", 1),
        ("HYDRA_SHOWN_FLAGS", 5),
        ("HYDRA_SHOWN_REQUEST", 9),
        ("HYDRA_SHOWN_OWNERS", 10),
    ];
    // the specification's numbers, in its order
    let lists: [(u64, &[&str]); 6] = [
        (0, &["NEGOTIATION", "SILENT", "SENDING", "WAITING"]),
        (
            1,
            &[
                "RULE_MISSING",
                "RULE_MAJORITY",
                "RULE_LOWER",
                "RULE_REPEATS",
                "RULE_TOP",
                "RULE_DETERMINED",
                "RULE_SENT",
            ],
        ),
        (
            0,
            &[
                "DONE",
                "BAD_NAMES",
                "OUT_OF_RANGE",
                "NO_SUCH_NODE",
                "WRONG_PHASE",
                "NOT_LIVE",
                "NOT_DOWN",
                "ALL_SENT",
                "NO_PACKET",
                "OWN_PACKET",
                "WRONG_SENDER",
                "WRONG_LENGTH",
                "BAD_CONTENTS",
                "TWO_REQUESTS",
            ],
        ),
        (
            oracle::NOT_A_NODE.into(),
            &[
                "NOT_A_NODE",
                "NO_ROOM",
                "BAD_WINDOWS",
                "CROWDED",
                "NOT_GIVEN",
            ],
        ),
        (
            1,
            &[
                "SEND", "HEAR", "CLOSE", "TAKE", "END", "WANT", "CRASH", "RESTART",
            ],
        ),
        (0, &["STATE_DOWN", "STATE_WAITING", "STATE_LIVE"]),
    ];
    assert_eq!(
        u64::from(reduce::NOT_GIVEN),
        u64::from(oracle::NOT_A_NODE) + 4
    );
    assert_eq!(site::EventKind::ALL.len(), lists[4].1.len());
    assert_eq!(script::MAX_SCRIPT, 40_000);
    let mut all: BTreeMap<String, u64> = sizes
        .into_iter()
        .map(|(name, value)| (name.to_string(), value))
        .collect();
    all.extend(
        places
            .iter()
            .map(|&(name, place)| (name.to_string(), place as u64)),
    );
    for (first, names) in lists {
        for (name, value) in names.iter().zip(first..) {
            all.insert(format!("HYDRA_{name}"), value);
        }
    }
    all
}

#[test]
fn every_number_of_the_headers_is_the_specification_s() {
    assert_eq!(numbers(), expected());
}

#[test]
fn the_release_is_one() {
    let release = text("VERSION").trim().to_string();
    assert!(text("include/hydra.h").contains(&format!("#define HYDRA_VERSION \"{release}\"")));
    let number = numbers();
    let of = |part: &str| number[&format!("HYDRA_VERSION_{part}")];
    let told = 1_000_000 * of("MAJOR") + 1_000 * of("MINOR") + of("PATCH");
    assert_eq!(u64::from(compare::calls::version()), told);
}

/// A parameter's type in C as Rust declares it.
fn rust_type(parameter: &str) -> String {
    let name_cut = parameter.rfind([' ', '*']).expect("a type and a name") + 1;
    let c = parameter[..name_cut].replace(' ', "");
    let kind = |c: &str| match c {
        "uint8_t" => "u8",
        "uint32_t" => "u32",
        "uint64_t" => "u64",
        "size_t" => "usize",
        "structhydra_window" => "Window",
        "structhydra_tally" => "Tally",
        other => panic!("an unknown type {other}"),
    };
    match (c.strip_prefix("const"), c.strip_suffix('*')) {
        (Some(c), Some(_)) => format!("*const {}", kind(c.trim_end_matches('*'))),
        (None, Some(c)) => format!("*mut {}", kind(c)),
        (_, None) => kind(&c).to_string(),
    }
}

/// Name, types of the parameters.
type Declared = BTreeMap<String, Vec<String>>;

fn declared_in_c() -> Declared {
    let mut found = Declared::new();
    for header in HEADERS {
        let source = plain(&text(&format!("include/{header}")));
        for (start, _) in source.match_indices("HYDRA_ANSWER hydra_") {
            let rest = &source[start + "HYDRA_ANSWER ".len()..];
            let end = rest.find(')').expect("an end of the parameters");
            if !rest[end..].starts_with(");") {
                continue; // an inline part has a body
            }
            let (name, parameters) = rest[..end].split_once('(').expect("a parameter list");
            let types = parameters
                .split(',')
                .map(|p| rust_type(p.split_whitespace().collect::<Vec<_>>().join(" ").trim()))
                .collect();
            found.insert(name.to_string(), types);
        }
    }
    found
}

fn declared_in_rust() -> Declared {
    let source = text("tests/compare/src/calls.rs");
    let block = source.find("extern \"C\" {").expect("the declarations");
    let end = block + source[block..].find("\n}").expect("their end");
    let mut found = Declared::new();
    for function in source[block..end].split("fn ").skip(1) {
        let (name, rest) = function.split_once('(').expect("a parameter list");
        let parameters = &rest[..rest.find(')').expect("an end of the parameters")];
        let types = parameters
            .split(',')
            .filter_map(|p| p.split_once(':').map(|(_, kind)| kind.trim().to_string()))
            .collect();
        found.insert(name.to_string(), types);
    }
    found.remove("hydra_version");
    found
}

#[test]
fn the_calls_are_declared_as_the_headers_have_them() {
    assert_eq!(declared_in_rust(), declared_in_c());
}

/// The symbols of calls whose arguments have changed: the headers' macros are
/// those by which the archives are made.
#[test]
fn the_headers_name_the_symbols_of_the_archives() {
    let mut macros = BTreeMap::new();
    for header in HEADERS {
        for line in text(&format!("include/{header}")).lines() {
            let words: Vec<&str> = line.split_whitespace().collect();
            if let ["#define", from, to] = words[..] {
                if from.starts_with("hydra_") {
                    macros.insert(from.to_string(), to.to_string());
                }
            }
        }
    }
    let listed: BTreeMap<String, String> = text("include/symbols")
        .lines()
        .map(|line| line.split_once(' ').expect("two names"))
        .map(|(from, to)| (from.to_string(), to.to_string()))
        .collect();
    assert_eq!(macros, listed);
}
