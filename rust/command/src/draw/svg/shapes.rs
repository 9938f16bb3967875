//! The bars and marks of a picture.

use std::fmt::Write as _;

use super::labels::escaped;
use super::layout::{ARROW, BAR, GAP};

/// Of the document: colours that differ in lightness as well as in hue, and are told apart by the colour-blind.
pub const STYLE: &str = "\
text{font-family:sans-serif;font-size:12px;fill:#1a1a1a}
.page{fill:#fff}
.heading{font-size:14px;font-weight:bold}
.figures,.moment{font-size:10px;fill:#404040}
.moment{text-anchor:middle}
.run,.key-run{fill:#14406b}
.pending,.key-pending{fill:#bdd0e3}
.late,.key-late{fill:#ee6a1c}
.idle,.key-idle{fill:#a8a8a8}
.release,.due,.key-release,.key-due{fill:#111}
.finish,.key-finish{fill:#fff;stroke:#111;stroke-width:1.4}
.refused,.key-refused{fill:none;stroke:#b00020;stroke-width:1.6}
.rule{stroke:#c8c8c8}
.grid{stroke:#ececec}
.step{stroke:#d0d0d0}
.axis{stroke:#404040}
.rule,.grid,.step,.axis{fill:none;stroke-width:1;shape-rendering:crispEdges}
";

/// A bar: its corner, width and height.
pub fn bar(out: &mut String, class: &str, at: (usize, usize), size: (usize, usize), data: &str) {
    let ((x, y), (width, height)) = (at, size);
    let _ = writeln!(
        out,
        r#"<rect class="{class}" x="{x}" y="{y}" width="{width}" height="{height}"{data}/>"#
    );
}

/// An arrow up to the lower edge of a bar whose top is given.
pub fn release(out: &mut String, class: &str, at: (usize, usize), half: usize, data: &str) {
    let (x, y) = (at.0, at.1 + BAR + GAP);
    let _ = writeln!(
        out,
        r#"<path class="{class}" d="M{x} {y}l{half} {ARROW}h-{}z"{data}/>"#,
        2 * half
    );
}

/// An arrow down to the upper edge of a bar whose top is given.
pub fn due(out: &mut String, class: &str, at: (usize, usize), half: usize, data: &str) {
    let (x, y) = (at.0, at.1 - GAP);
    let _ = writeln!(
        out,
        r#"<path class="{class}" d="M{x} {y}l{half} -{ARROW}h-{}z"{data}/>"#,
        2 * half
    );
}

/// A circle on the middle of a bar whose top is given: the bar is seen above and below it.
pub fn finish(out: &mut String, class: &str, at: (usize, usize), half: usize, data: &str) {
    let (x, y, radius) = (at.0, at.1 + BAR / 2, half - 1);
    let _ = writeln!(
        out,
        r#"<circle class="{class}" cx="{x}" cy="{y}" r="{radius}"{data}/>"#
    );
}

/// A cross around a point.
pub fn cross(
    out: &mut String,
    class: &str,
    at: (usize, usize),
    half: usize,
    (data, title): (&str, &str),
) {
    let half = half.min(3);
    let (x, y, size) = (at.0 - half, at.1 - half, 2 * half);
    let _ = write!(
        out,
        r#"<path class="{class}" d="M{x} {y}l{size} {size}m0 -{size}l-{size} {size}"{data}"#
    );
    let _ = match title {
        "" => writeln!(out, "/>"),
        title => writeln!(out, "><title>{}</title></path>", escaped(title)),
    };
}

pub fn text(out: &mut String, class: &str, at: (usize, usize), text: &str, title: &str) {
    let (x, y) = at;
    let _ = write!(out, r#"<text class="{class}" x="{x}" y="{y}">"#);
    if !title.is_empty() {
        let _ = write!(out, "<title>{}</title>", escaped(title));
    }
    let _ = writeln!(out, "{}</text>", escaped(text));
}
