//! Where the columns of a strip stand, the numbers of their epochs, and what befell boxes in them.

use super::super::sentences::dashes;
use super::super::svg::{at, width, Marks, SMALL, WIDTH};
use super::column::Column;
use crate::words;

/// The most columns of a strip.
const IN_STRIP: usize = 60;
pub const LEFT: f64 = 84.0;
pub const RIGHT: f64 = 694.0;
/// Where the sums behind the columns stand.
pub const BEHIND: f64 = RIGHT + 8.0;

/// The columns of a strip, and how wide each is.
#[derive(Clone, Copy)]
pub struct Part<'a> {
    pub columns: &'a [Column],
    pub step: f64,
}

impl<'a> Part<'a> {
    /// The strips of a run. All have columns of one width.
    pub fn all(columns: &'a [Column]) -> impl Iterator<Item = Part<'a>> {
        let step = (RIGHT - LEFT) / columns.len().min(IN_STRIP) as f64;
        let strips = columns.chunks(IN_STRIP);
        strips.map(move |columns| Part { columns, step })
    }

    pub fn iter(self) -> impl Iterator<Item = (usize, &'a Column)> {
        self.columns.iter().enumerate()
    }

    pub fn first(self) -> &'a Column {
        &self.columns[0]
    }

    pub fn last(self) -> &'a Column {
        &self.columns[self.columns.len() - 1]
    }

    /// A number of all columns added up.
    pub fn sum(self, of: impl Fn(&Column) -> u64) -> u64 {
        self.columns.iter().map(of).sum()
    }

    /// The left side of a column.
    pub fn x(self, place: usize) -> f64 {
        LEFT + self.step * place as f64
    }

    pub fn middle(self, place: usize) -> f64 {
        self.x(place) + self.step / 2.0
    }

    /// Whether the axis has the number of an epoch: the first, and then as many as there is room for.
    pub fn numbered(self, place: usize) -> bool {
        let every = if self.step < 24.0 { 10 } else { 1 };
        place == 0 || self.columns[place].number.is_multiple_of(every)
    }
}

/// Two short lines before a lane, the second in the weight that is asked for.
pub fn name(marks: &mut Marks, y: f64, first: &str, second: &str, class: &str) {
    marks.text(4.0, y + 14.0, "s b", first);
    marks.text(4.0, y + 27.0, class, second);
}

/// Faint lines through all lanes, so that the eye finds the numbered epochs.
pub fn grid(part: Part, top: f64, bottom: f64) -> Marks {
    let mut marks = Marks::default();
    for (place, _) in part.iter().filter(|(place, _)| part.numbered(*place)) {
        let x = part.middle(place);
        marks.line((x, top), (x, bottom), "grid");
    }
    marks
}

/// The numbers of the epochs. Each place of the axis leads to its epoch.
pub fn epochs(marks: &mut Marks, part: Part, y: f64) -> f64 {
    marks.text(4.0, y + 20.0, "s b", "epoch");
    let line = y + 25.0;
    for (place, column) in part.iter() {
        let (left, top, number) = (at(part.x(place)), at(y + 8.0), column.number);
        marks.raw(&column.link(&format!(
            "<rect x=\"{left}\" y=\"{top}\" width=\"{}\" height=\"22\" class=\"hit\"><title>epoch {number}</title></rect>",
            at(part.step)
        )));
    }
    for (place, column) in part.iter() {
        let numbered = part.numbered(place);
        let tall = if numbered { 5.0 } else { 2.0 };
        let x = part.middle(place);
        marks.line((x, line), (x, line + tall), "thin");
        if numbered {
            marks.raw(&column.link(&format!(
                "<text x=\"{}\" y=\"{}\" class=\"s b m\">{}</text>",
                at(x),
                at(y + 20.0),
                column.number
            )));
        }
    }
    marks.line((LEFT, line), (RIGHT, line), "thin");
    line + 6.0
}

/// A note with its place: the line down to its column, its row and left side.
struct Note {
    line: f64,
    row: usize,
    start: f64,
    told: String,
}

impl Note {
    fn end(&self) -> f64 {
        self.start + width(&self.told, SMALL, false)
    }

    /// Whether its line down to the axis would strike through this other note.
    fn strikes(&self, other: &Note) -> bool {
        let line = self.line;
        other.row > self.row && line >= other.start - 2.0 && line <= other.end() + 2.0
    }
}

/// What befell boxes, in up to four rows; more are counted.
pub fn notes(marks: &mut Marks, part: Part) -> f64 {
    let (placed, untold) = place_notes(part);
    let Some(rows) = placed.iter().map(|note| note.row + 1).max() else {
        return 0.0;
    };
    marks.text(4.0, 14.0, "s b", "events");
    let bottom = 16.0 * rows as f64 + 8.0;
    for note in &placed {
        let y = 14.0 + 16.0 * note.row as f64;
        if !placed.iter().any(|other| note.strikes(other)) {
            marks.line((note.line, y + 4.0), (note.line, bottom + 8.0), "quiet");
        }
        marks.text(note.start, y, "s", &note.told);
    }
    if untold > 0 {
        marks.text(4.0, 28.0, "l g", &format!("+{untold} more"));
    }
    bottom
}

/// The notes of an epoch as one: `6, 7 crash`, or the first of them and how many more there are.
fn in_short(notes: &[String]) -> Option<String> {
    let (first, more) = notes.split_first()?;
    if more.is_empty() {
        return Some(first.clone());
    }
    let all_do = |verb: &str| {
        let does = |note: &String| {
            note.split_once(' ')
                .filter(|(_, does)| *does == verb)?
                .0
                .parse()
                .ok()
        };
        notes.iter().map(does).collect::<Option<Vec<u32>>>()
    };
    let plural = |(verb, verbs)| Some(format!("{} {verbs}", boxes_in_order(all_do(verb)?)));
    let told = [("crashes", "crash"), ("restarts", "restart")]
        .into_iter()
        .find_map(plural);
    told.or_else(|| Some(format!("{first} +{}", more.len())))
}

fn boxes_in_order(mut nodes: Vec<u32>) -> String {
    nodes.sort_unstable();
    nodes.dedup();
    dashes(&words::ranges(nodes))
}

/// The notes that find room, and how many don't.
fn place_notes(part: Part) -> (Vec<Note>, usize) {
    let mut ends: [f64; 4] = [0.0; 4];
    let (mut placed, mut untold) = (Vec::new(), 0);
    for (place, column) in part.iter() {
        let Some(told) = in_short(&column.notes) else {
            continue;
        };
        let start = (part.x(place) + 1.0).min(WIDTH - width(&told, SMALL, false) - 4.0);
        let line = part.middle(place);
        let fits = |row: &usize| ends[*row] < start - 6.0;
        // A note in a lower row would be struck through by the line down to the axis.
        let unstruck = |row: &usize| ends[row + 1..].iter().all(|&end| end + 2.0 < line);
        let rows = || (0..ends.len()).filter(fits);
        match rows().find(unstruck).or_else(|| rows().next()) {
            Some(row) => {
                let note = Note {
                    line,
                    row,
                    start,
                    told,
                };
                ends[row] = note.end();
                placed.push(note);
            }
            None => untold += 1,
        }
    }
    (placed, untold)
}
