//! The picture as SVG. Each category has a shape of its own, which grey print keeps.

use super::block::{in_rows, Block};
use super::markup::{escaped, shortened};
use super::panel::Panel;
use super::{Category, Map};
use crate::words::counted;
use std::fmt::Write;

/// Around and between panels.
const MARGIN: usize = 24;
const BETWEEN: usize = 36;
/// Panels stand beside each other up to this width.
const WIDTH: usize = 1290;
/// The headline needs so much.
const LEAST_WIDTH: usize = 780;
/// A letter of the headline, and one of the line under it.
const HEAD_LETTER: usize = 14;
const PLACE_LETTER: usize = 9;
const HEADLINE: usize = 78;
const LEGEND_LINE: usize = 24;

const STYLE: &str = "\
.map{background:#fff;font-family:system-ui,'Segoe UI','Helvetica Neue',Arial,sans-serif}
.map text{font-size:11px;fill:#24292f}
.map .b{font-size:14px;font-weight:600}
.map .h{font-size:20px;font-weight:600}
.map .p{font-size:14px;fill:#57606a}
.map .g{font-size:13px}
.map .m{text-anchor:middle}
.map .n{text-anchor:middle;font-size:9px;fill:#57606a}
.map .t{font-weight:700;fill:#24292f}
.map .e{text-anchor:end;font-size:9px;fill:#57606a}
.map .c{text-anchor:end;font-size:13px;font-weight:600}
.map .w{text-anchor:middle;font-size:15px;font-weight:700;fill:#fff}
.map .l{fill:none;stroke:#8c959f}
.map use:hover{opacity:.6}
";

/// Solid; a cross; a ring; a small square.
const SYMBOLS: &str = "\
<symbol id=\"f-in\" overflow=\"visible\"><rect width=\"12\" height=\"12\" rx=\"1.5\" fill=\"#0b4a8f\"/></symbol>
<symbol id=\"f-out\" overflow=\"visible\"><rect width=\"12\" height=\"12\" rx=\"1.5\" fill=\"#d55e00\"/>\
<path d=\"M2.5 2.5l7 7m0-7l-7 7\" stroke=\"#fff\" stroke-width=\"1.9\" fill=\"none\"/></symbol>
<symbol id=\"f-kept\" overflow=\"visible\"><rect x=\".5\" y=\".5\" width=\"11\" height=\"11\" rx=\"1.5\" fill=\"#fff\" stroke=\"#0b4a8f\"/>\
<circle cx=\"6\" cy=\"6\" r=\"2.6\" fill=\"none\" stroke=\"#0b4a8f\" stroke-width=\"1.5\"/></symbol>
<symbol id=\"f-other\" overflow=\"visible\"><rect width=\"12\" height=\"12\" rx=\"1.5\" fill=\"#f1f3f5\"/>\
<rect x=\"4\" y=\"4\" width=\"4\" height=\"4\" rx=\".8\" fill=\"#9aa4af\"/></symbol>
";

/// The symbol of a category's cells.
pub fn symbol(category: Category) -> &'static str {
    match category {
        Category::Written | Category::Inside => "f-in",
        Category::Outside => "f-out",
        Category::Kept => "f-kept",
        Category::Other => "f-other",
    }
}

/// The picture as a file of its own, with a headline and a legend.
pub fn file(map: &Map) -> String {
    let mut body = String::new();
    let (width, bottom) = draw_panels(map, MARGIN + HEADLINE, &mut body);
    let width = width.max(LEAST_WIDTH);
    draw_headline(map, width, &mut body);
    let height = draw_legend(map, bottom + MARGIN, &mut body);
    let picture = picture(map, 0, (width, height + MARGIN), &body);
    format!("<?xml version=\"1.0\" encoding=\"UTF-8\"?>\n{picture}")
}

/// The picture to stand in a page, which has the headline and the legend.
pub fn inline(map: &Map) -> String {
    let mut body = String::new();
    let (width, bottom) = draw_panels(map, MARGIN, &mut body);
    // The page has margins of its own.
    picture(
        map,
        MARGIN,
        (
            width.saturating_sub(2 * MARGIN),
            bottom.saturating_sub(MARGIN),
        ),
        &body,
    )
}

/// What stands from an edge on, so wide and so high.
fn picture(map: &Map, edge: usize, (width, height): (usize, usize), body: &str) -> String {
    let (title, told) = (escaped(&title(map)), escaped(&told(map)));
    format!(
        "<svg xmlns=\"http://www.w3.org/2000/svg\" class=\"map\" role=\"img\" \
         aria-labelledby=\"map-title map-desc\" width=\"{width}\" height=\"{height}\" \
         viewBox=\"{edge} {edge} {width} {height}\">\n\
         <title id=\"map-title\">{title}</title>\n<desc id=\"map-desc\">{told}</desc>\n\
         <style>\n{STYLE}</style>\n<defs>\n{SYMBOLS}</defs>\n\
         <rect x=\"{edge}\" y=\"{edge}\" width=\"{width}\" height=\"{height}\" fill=\"#fff\"/>\n{body}</svg>\n"
    )
}

/// The headline in one line.
pub fn title(map: &Map) -> String {
    let (name, place) = (&map.name, map.place());
    match map.answer() {
        Some(answer) => format!("{answer} {name}: {place}"),
        None => format!("{name}: memory image, {place}"),
    }
}

/// The picture for a reader who does not see it.
fn told(map: &Map) -> String {
    let told = |&category: &Category| {
        let count = map.frames(category).len() as u64;
        format!("{} {}", counted(count, "frame"), map.label(category))
    };
    let all: Vec<String> = map.categories().iter().map(told).collect();
    format!(
        "Every frame of the {}: {}.",
        map.part.name(),
        all.join("; ")
    )
}

/// Draws the panels in rows; the width and the bottom of all.
fn draw_panels(map: &Map, top: usize, out: &mut String) -> (usize, usize) {
    let blocks = Block::all(map.part);
    let panels = blocks.iter().map(|block| Panel::new(map, block)).collect();
    let (mut top, mut width, mut bottom) = (top, 0, top);
    for row in in_rows(panels, Panel::width, BETWEEN, WIDTH) {
        let (right, end) = draw_row(row, top, out);
        width = width.max(right + MARGIN);
        (top, bottom) = (end + BETWEEN, end);
    }
    (width, bottom)
}

/// Draws panels side by side; the right and the bottom of all.
fn draw_row(row: Vec<Panel>, top: usize, out: &mut String) -> (usize, usize) {
    let head = row.iter().map(Panel::head).max().unwrap_or(0);
    let (mut left, mut bottom) = (MARGIN, top);
    for panel in row {
        let panel = panel.placed(left, top, head);
        panel.draw(out);
        bottom = bottom.max(top + panel.height());
        left += panel.width() + BETWEEN;
    }
    (left.saturating_sub(BETWEEN), bottom)
}

fn draw_headline(map: &Map, width: usize, out: &mut String) {
    const BADGE: usize = 72;
    let mut left = MARGIN;
    if let (Some(answer), Some(verdict)) = (map.answer(), &map.verdict) {
        let fill = if verdict.passes() {
            "#11693b"
        } else {
            "#b3261e"
        };
        let (top, middle) = (MARGIN, left + BADGE / 2);
        let _ = writeln!(
            out,
            "<rect x=\"{left}\" y=\"{top}\" width=\"{BADGE}\" height=\"30\" rx=\"6\" fill=\"{fill}\"/>\
             <text class=\"w\" x=\"{middle}\" y=\"{}\">{answer}</text>",
            top + 21
        );
        left += BADGE + 14;
    }
    let letters = (width - left - MARGIN) / HEAD_LETTER;
    let name = escaped(&shortened(&map.name, letters));
    let base = MARGIN + 22;
    let _ = writeln!(
        out,
        "<text class=\"h\" x=\"{left}\" y=\"{base}\">{name}</text>"
    );
    let place = match map.answer() {
        Some(_) => map.place(),
        None => format!("Memory image, {}", map.place()),
    };
    let place = escaped(&shortened(&place, (width - 2 * MARGIN) / PLACE_LETTER));
    let base = MARGIN + 54;
    let _ = writeln!(
        out,
        "<text class=\"p\" x=\"{MARGIN}\" y=\"{base}\">{place}</text>"
    );
}

/// A line for each category; the bottom of the last.
fn draw_legend(map: &Map, top: usize, out: &mut String) -> usize {
    let mut y = top;
    for &category in map.categories() {
        let (symbol, count) = (symbol(category), map.frames(category).len());
        let (label, base) = (escaped(map.label(category)), y + 11);
        let (number, words) = (MARGIN + 62, MARGIN + 74);
        let _ = writeln!(
            out,
            "<use href=\"#{symbol}\" x=\"{MARGIN}\" y=\"{y}\"/>\
             <text class=\"c\" x=\"{number}\" y=\"{base}\">{count}</text>\
             <text class=\"g\" x=\"{words}\" y=\"{base}\">{label}</text>"
        );
        y += LEGEND_LINE;
    }
    y
}
