//! Demands by the hour: the tool with windows against the proved run of a whole script with them.

mod common;

use common::random::{script, Random, Shape};
use common::{scratch, tool};

#[repr(C)]
struct Window {
    node: u32,
    first: u32,
    end: u32,
    demand: u32,
}

#[link(name = "hydra-desk", kind = "static")]
extern "C" {
    #[link_name = "hydra_replay_2"]
    fn hydra_replay(
        script: *const u8,
        script_length: usize,
        area: *mut u8,
        area_length: usize,
        out: *mut u8,
        out_length: usize,
        length: *mut u32,
        day: u32,
        windows: *const Window,
        windows_length: usize,
    ) -> u32;
}

fn replay(script: &[u8], day: u32, windows: &[Window]) -> String {
    let mut area = vec![0u8; 11_520];
    let mut out = vec![0u8; 9 * script.len() + 30_000];
    let mut length = 0;
    let answer = unsafe {
        hydra_replay(
            script.as_ptr(),
            script.len(),
            area.as_mut_ptr(),
            area.len(),
            out.as_mut_ptr(),
            out.len(),
            &mut length,
            day,
            windows.as_ptr(),
            windows.len(),
        )
    };
    assert_eq!(answer, 0);
    out.truncate(length as usize);
    String::from_utf8(out).expect("it writes text")
}

fn file(windows: &[Window]) -> String {
    let mut text = "node first end demand\n".to_string();
    for window in windows {
        let Window {
            node,
            first,
            end,
            demand,
        } = window;
        text.push_str(&format!("{node} {first} {end} {demand}\n"));
    }
    text
}

#[test]
fn listings_with_windows_are_those_of_the_whole_run() {
    let mut random = Random::new(3);
    let mut other = 0;
    for seed in 0..60 {
        let shape = Shape {
            epochs: 5,
            ..Shape::random(&mut random)
        };
        let mut text = script(&mut random, &shape).into_bytes();
        text.truncate(40_000);
        let day = 1 + random.below(4) as u32;
        // Some break the rules: a box that is none, or two windows in one epoch.
        let windows: Vec<Window> = (0..random.below(4))
            .map(|_| {
                let first = random.below(u64::from(day)) as u32;
                Window {
                    node: 1 + random.below(shape.nodes + 1) as u32,
                    first,
                    end: first + 1,
                    demand: random.below(16) as u32,
                }
            })
            .collect();
        let expected = replay(&text, day, &windows);
        let lent = scratch("random.windows", file(&windows).as_bytes());
        let day = day.to_string();
        let words = ["show", "--listing", "--windows", &lent, "--day", &day, "-"];
        assert_eq!(tool(&words, &text).out, expected, "seed {seed}");
        other += u32::from(expected != replay(&text, 1, &[]));
    }
    assert!(other > 20, "windows changed {other} listings");
}

#[test]
fn a_line_that_breaks_a_rule_is_named() {
    let script = "samples/whole-case.script";
    let said = |lines: &str, day: &str| {
        let file = scratch(
            "bad.windows",
            format!("node first end demand\n{lines}").as_bytes(),
        );
        let ran = tool(&["check", "--windows", &file, "--day", day, script], b"");
        assert_eq!(ran.status, 2, "{lines}");
        ran.err
    };
    assert!(said("1 0 2 3\n4 0 1 2\n", "8").contains("line 3, 4 0 1 2: there is no box 4"));
    assert!(said("1 0 2 16\n", "8")
        .contains("line 2, 1 0 2 16: a box wants 0 to 15 slots, not 16 (16)"));
    assert!(said("1 2 2 1\n", "8").contains("first 2 must be below end 2"));
    assert!(said("1 2 9 1\n", "8").contains("at most the day's 8 epochs"));
    assert!(said("1 0 4 1\n2 0 4 1\n1 3 5 2\n", "8")
        .contains("line 4, 1 3 5 2: box 1 has a window in these epochs already, at line 2"));
    assert!(said("1 0 4 1\n", "1441").contains("a day has 1 to 1,440 epochs, not 1441 (16)"));
    let many: String = (0..65).map(|at| format!("1 {at} {} 1\n", at + 1)).collect();
    assert!(said(&many, "100").contains("line 66, 1 64 65 1: there are more than 64 windows (16)"));
    assert!(said("1 0 4\n", "8").contains("line 2: the line wants four numbers"));
}

#[test]
fn the_day_in_words() {
    let file = scratch("day.windows", b"node first end demand\n1 2 4 7\n");
    let ran = tool(
        &["windows", "--day", "6", &file, "samples/whole-case.script"],
        b"",
    );
    assert_eq!(ran.status, 0);
    assert!(ran
        .out
        .contains("box 1 wants 0 in epochs 0-1, 7 in epochs 2-3, 0 in epochs 4-5\n"));
    assert!(ran.out.contains("no windows: 2, 3"));
}

/// An end with windows is a `want` for each box that has some, and then the plain end: the reports are those of that script.
#[test]
fn reports_with_windows_are_those_of_the_wants() {
    let day = ["1 0 1 3\n", "2 1 3 5\n", "1 2 3 1\n"];
    let wants = [[3, 0], [0, 5], [1, 5]];
    let lent = scratch(
        "three.windows",
        format!("node first end demand\n{}", day.concat()).as_bytes(),
    );
    let head = |first: u32, second: u32| {
        format!("nodes slots rounds heard split\n3 8 1 1 0\nnode version flags want\n1 1 7 {first}\n2 1 7 {second}\n3 1 7 2\nevent node with\n")
    };
    let round = "send 1 0\nsend 2 0\nsend 3 0\nhear 1 2\nhear 1 3\nhear 2 1\nhear 2 3\nhear 3 1\nhear 3 2\nclose 0 0\n";
    let (mut with, mut plain) = (head(9, 9), head(3, 0));
    for epoch in 1..8 {
        let [first, second] = wants[epoch % 3];
        with.push_str(&format!("{round}end 0 0\n"));
        plain.push_str(&format!(
            "{round}want 1 {first}\nwant 2 {second}\nend 0 0\n"
        ));
    }
    let told = |out: String| -> Vec<String> {
        let behind = |line: &str| line.split_once(' ').expect("it has fields").1.to_string();
        out.lines().skip(1).map(behind).collect()
    };
    let words = ["why", "--listing", "--windows", &lent, "--day", "3", "-"];
    let expected = told(common::program("why", plain.as_bytes()));
    assert_eq!(told(tool(&words, with.as_bytes()).out), expected);
    assert_eq!(expected.len(), 21);
    let words = ["show", "--listing", "--windows", &lent, "--day", "3", "-"];
    assert_eq!(
        tool(&words, with.as_bytes()).out,
        tool(&["show", "--listing", "-"], plain.as_bytes()).out
    );
    let last = |page: String| {
        let (_, last) = page
            .split_once("<section id=\"last\">")
            .expect("it is there");
        last.to_string()
    };
    let words = ["picture", "--windows", &lent, "--day", "3", "-o", "-", "-"];
    let drawn = last(tool(&words, with.as_bytes()).out);
    assert_eq!(
        drawn,
        last(tool(&["picture", "-o", "-", "-"], plain.as_bytes()).out)
    );
    assert_ne!(
        drawn,
        last(tool(&["picture", "-o", "-", "-"], with.as_bytes()).out)
    );
}
