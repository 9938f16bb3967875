//! A run as an SVG picture. Long runs are wrapped into bands, one below the other.

mod band;
mod labels;
mod layout;
mod legend;
mod shapes;
#[cfg(test)]
mod tests;

use std::fmt::Write as _;

use super::rows::{has_strokes, Chart};
use crate::log::{Log, Origin};
use band::BandDrawing;
use layout::{Layout, MARGIN};

/// Above a core, and between its bands.
const CORE_GAP: usize = 26;
const BAND_GAP: usize = 12;
/// From the line of a heading to the rows below it.
const HEADING: usize = 10;

pub fn svg(logs: &[Log]) -> String {
    let layout = Layout::of(logs);
    let mut body = String::new();
    let mut y = legend::draw(&mut body, MARGIN, has_strokes(logs));
    let mut headings = Vec::new();
    for log in logs {
        let core = Chart::of(log);
        headings.push(core.heading());
        y = chart(&mut body, &layout, &core, y + CORE_GAP);
    }
    document(&headings.join("; "), &body, layout.width, y + MARGIN)
}

/// Draws the run of a core below this height, and answers how far down it goes.
fn chart(out: &mut String, layout: &Layout, chart: &Chart, top: usize) -> usize {
    let core = match chart.origin {
        Origin::Core(core) => core.to_string(),
        Origin::Bench => "bench".to_owned(),
    };
    let _ = writeln!(out, r#"<g class="core" data-core="{core}">"#);
    shapes::text(out, "heading", (MARGIN, top), &chart.heading(), "");
    let mut y = top + HEADING;
    for band in layout.bands(chart.ticks) {
        let mut drawing = BandDrawing {
            out: &mut *out,
            layout,
            band,
            core: &core,
        };
        y = drawing.draw(chart, y) + BAND_GAP;
    }
    out.push_str("</g>\n");
    y - BAND_GAP
}

fn document(title: &str, body: &str, width: usize, height: usize) -> String {
    format!(
        "<svg xmlns=\"http://www.w3.org/2000/svg\" width=\"{width}\" height=\"{height}\" viewBox=\"0 0 {width} {height}\">\n\
         <title>{title}</title>\n\
         <style>\n{}</style>\n\
         <rect class=\"page\" width=\"{width}\" height=\"{height}\"/>\n\
         {body}</svg>\n",
        shapes::STYLE
    )
}
