//! The page around the drawings, and the single drawing.

use std::fmt::Write;

use crate::telling;
use crate::words::{count, grouped};

use super::svg::{self, escape, Marks};
use super::{overview, style, Page, Picture, Section, LONG, TOP_COLUMNS, TOP_DRAWN};

impl Picture {
    fn title(&self) -> String {
        let file = self.name.rsplit('/').next().unwrap_or(&self.name);
        file.strip_suffix(".script").unwrap_or(file).to_string()
    }

    fn summary(&self) -> String {
        let run = &self.recorder.run;
        format!(
            "{}. {}, {}, {} refused.",
            telling::site(run.settings()),
            count(self.epochs, "epoch"),
            count(run.events, "event"),
            grouped(run.refused)
        )
    }

    /// What the marks mean, and what is not drawn.
    fn legend(&self) -> Vec<String> {
        let unmerged = "heard but not merged, because one of the two lacks the other in its flags; it still counts \
                        towards the flags of the next epoch";
        let mut out = vec![match self.squares() {
            true => format!(
                "Each round is a square with a row for every listener and a column for every sender. Dark: heard. Pale \
                 with a frame: {unmerged}. Red cross: missed. Light grey: nothing was sent. Hatched: not live. To the right \
                 stands what the boxes did at the close. Boxes with the same schedule share one strip."
            ),
            false => format!(
                "Read it downwards. A circle with a number is a packet, on its sender's line. Arrowheads mark the boxes that \
                 heard it, red crosses the live boxes that missed it. A hollow arrowhead: {unmerged}. The packets of one grey \
                 band were all sent before any of them was heard."
            ),
        }];
        let (first, last) = (self.range.0, self.range.1.min(self.epochs));
        if first > 1 || last < self.epochs {
            out.push(format!("Only epochs {first} to {last} are drawn."));
        }
        let wanted = (last + 1).saturating_sub(first);
        if wanted > TOP_DRAWN as u64 {
            out.push(format!(
                "Of these the first {TOP_DRAWN} are drawn one by one; `--epochs A-B` draws others."
            ));
        }
        if wanted > TOP_COLUMNS as u64 {
            out.push(format!("The overview has the first {TOP_COLUMNS}."));
        }
        out
    }

    pub(super) fn page(&self) -> Page {
        let title = escape(&self.title());
        let mut text = format!(
            "<!doctype html>\n<html lang=\"en\"><head><meta charset=\"utf-8\"/>\
             <meta name=\"viewport\" content=\"width=device-width\"/><title>{title}</title>\n<style>{}{}</style></head><body>\n\
             <h1>{title}</h1>\n<p>{}</p>\n",
            style::PAGE,
            style::drawings(),
            escape(&self.summary())
        );
        for paragraph in self.legend() {
            let _ = writeln!(text, "<p>{}</p>", escape(&paragraph));
        }
        if self.columns.len() > LONG {
            let slots = self.recorder.settings().slots;
            text.push_str(&overview::section(&self.columns, slots));
        }
        for section in &self.sections {
            text.push_str(&section.text());
        }
        text.push_str("</body></html>\n");
        Page {
            text,
            status: self.recorder.run.status(),
        }
    }

    pub(super) fn single(&self) -> Page {
        let title = escape(&self.title());
        let mut body = String::new();
        let mut y = 30.0;
        let mut marks = Marks::default();
        for section in &self.sections {
            marks.line((0.0, y), (svg::WIDTH, y), "thick");
            marks.text(4.0, y + 21.0, "h b", &section.title);
            y += 28.0;
            for drawing in &section.drawings {
                body.push_str(&drawing.nested(y));
                y += drawing.height + 6.0;
            }
        }
        let height = svg::at(y);
        let mut head = Marks::default();
        head.text(4.0, 18.0, "h b", &self.title());
        let text = format!(
            "<svg xmlns=\"http://www.w3.org/2000/svg\" viewBox=\"0 0 800 {height}\" width=\"800\" height=\"{height}\">\
             <title>{title}</title><desc>{}</desc><style>{}</style>\n\
             <rect width=\"800\" height=\"{height}\" style=\"fill:#fff;stroke:none\"/>{}{}\n{body}</svg>\n",
            escape(&self.summary()),
            style::drawings(),
            head.0,
            marks.0
        );
        Page {
            text,
            status: self.recorder.run.status(),
        }
    }
}

impl Section {
    fn text(&self) -> String {
        let mut out = format!(
            "<section id=\"{}\"><h2>{}</h2>\n",
            self.anchor,
            escape(&self.title)
        );
        for paragraph in &self.above {
            let _ = writeln!(out, "<p>{}</p>", escape(paragraph));
        }
        for drawing in &self.drawings {
            out.push_str(&drawing.svg());
        }
        for paragraph in &self.below {
            let _ = writeln!(out, "<p>{}</p>", escape(paragraph));
        }
        out.push_str("</section>\n");
        out
    }
}
