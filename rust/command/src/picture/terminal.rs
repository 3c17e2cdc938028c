//! The picture in a terminal: one character a frame, minors downwards.

use super::block::{in_rows, Block, STRIP};
use super::{Category, Map};
use crate::output;
use crate::part::Column;
use crate::verdict::NO_RANGE;
use crate::words::counted;
use std::fmt::Write;

/// The columns of the terminal that are used.
const WIDTH: usize = 100;
/// Before each row stands its minor.
const GUTTER: usize = 9;
const BETWEEN: usize = 3;
/// A strip has room for the number of its first minor.
const STRIP_WIDTH: usize = 3;
/// After a column of several strips.
const GAP: usize = 2;
/// Of many runs the first few are told; the page has them all.
const MOST_TOLD: usize = 12;

/// The answer, why it is no, the picture, what its characters mean, and the runs.
pub fn text(map: &Map) -> String {
    let mut text = headline(map);
    let panels = Block::all(map.part)
        .iter()
        .map(|it| Panel::of(map, it))
        .collect();
    for row in in_rows(panels, |panel: &Panel| panel.width, BETWEEN, WIDTH) {
        text.push('\n');
        text.push_str(&beside(&row));
    }
    text.push('\n');
    for &category in map.categories() {
        let (label, count) = (map.label(category), map.frames(category).len());
        let letter = painted(category, &category.letter().to_string());
        let _ = writeln!(text, "  {letter} {count:>5}  {label}");
    }
    for category in map.marks() {
        text.push_str(&runs(map, category));
    }
    text
}

fn headline(map: &Map) -> String {
    let (name, place) = (&map.name, map.place());
    let Some(verdict) = &map.verdict else {
        return format!("{name}: memory image, {place}\n");
    };
    let answer = verdict.painted();
    let mut text = format!("{answer} {name}: {place}\n");
    for question in verdict.questions.iter().filter(|question| !question.holds) {
        // Writing to a string does not fail.
        let _ = writeln!(text, "  NO   {}", question.words);
    }
    if verdict.range.is_none() {
        let _ = writeln!(text, "  {NO_RANGE}");
    }
    text
}

fn runs(map: &Map, category: Category) -> String {
    let places = map.part.places(&map.frames(category));
    if places.is_empty() {
        return String::new();
    }
    let mut text = format!("\n{}\n", map.label(category));
    for place in places.iter().take(MOST_TOLD) {
        let _ = writeln!(text, "  {place}");
    }
    if let Some(more @ 1..) = places.len().checked_sub(MOST_TOLD) {
        let _ = writeln!(text, "  and {}", counted(more as u64, "more run"));
    }
    text
}

fn painted(category: Category, text: &str) -> String {
    match category {
        Category::Written | Category::Inside => output::painted(text, output::GREEN),
        Category::Outside => output::painted(text, output::RED),
        Category::Kept => output::painted(text, output::CYAN),
        Category::Other => text.to_string(),
    }
}

/// The lines of one block, each as wide as the panel.
struct Panel {
    width: usize,
    heads: Vec<String>,
    rows: Vec<String>,
}

impl Panel {
    fn of(map: &Map, block: &Block) -> Self {
        let grid = Grid::of(block);
        let title = title(block);
        let width = title.chars().count().max(grid.width());
        let padded = |line: String| format!("{line:<width$}");
        let rest = " ".repeat(width - grid.width());
        let row = |at| format!("{}{}{rest}", grid.gutter(at), grid.row(map, at));
        Self {
            width,
            heads: [title]
                .into_iter()
                .chain(grid.heads())
                .map(padded)
                .collect(),
            rows: (0..block.rows()).map(row).collect(),
        }
    }

    /// The line of a row of panels whose heads have so many lines.
    fn line(&self, at: usize, heads: usize) -> String {
        let above = heads - self.heads.len().min(heads);
        let line = match (at, at.checked_sub(heads)) {
            (0, _) => self.heads.first(),
            (_, Some(row)) => self.rows.get(row),
            // The title stands on top and the rest of the head on the rows.
            _ => at
                .checked_sub(above)
                .filter(|&at| at > 0)
                .and_then(|at| self.heads.get(at)),
        };
        line.cloned().unwrap_or_else(|| " ".repeat(self.width))
    }
}

/// The block's columns: one name for all, or a letter for each name.
fn title(block: &Block) -> String {
    let number = block.number;
    if let Some(name) = block.name() {
        return format!("block {number}: {name}");
    }
    let mut names: Vec<String> = Vec::new();
    for (name, ..) in block.names() {
        let kind = name.split('_').next().unwrap_or(name);
        let told = format!("{} {kind}", initial(name));
        if !names.contains(&told) {
            names.push(told);
        }
    }
    format!("block {number}: {}", names.join(", "))
}

fn initial(name: &str) -> char {
    name.chars().next().unwrap_or(' ')
}

/// Where a block's columns and strips stand.
struct Grid<'a> {
    block: &'a Block,
    strips: usize,
    strip_width: usize,
    gap: usize,
}

impl<'a> Grid<'a> {
    fn of(block: &'a Block) -> Self {
        let strips = block.strips();
        let (strip_width, gap) = if strips > 1 {
            (STRIP_WIDTH, GAP)
        } else {
            (1, 0)
        };
        Self {
            block,
            strips,
            strip_width,
            gap,
        }
    }

    fn column_width(&self) -> usize {
        self.strips * self.strip_width + self.gap
    }

    fn width(&self) -> usize {
        GUTTER + self.block.columns.len() * self.column_width()
    }

    /// The majors; then the letters of the names, or the first minor of each strip.
    fn heads(&self) -> Vec<String> {
        let mut heads = vec![self.majors()];
        if self.block.name().is_none() {
            let names = self.block.columns.iter().map(|column| initial(column.name));
            heads.push(format!("{:GUTTER$}{}", "", names.collect::<String>()));
        }
        if self.strips > 1 {
            let minors = (0..self.strips).map(|strip| format!("{:<STRIP_WIDTH$}", strip * STRIP));
            let minors = minors.chain([" ".repeat(self.gap)]).collect::<String>();
            let minors = minors.repeat(self.block.columns.len());
            heads.push(format!("{:>8} {minors}", "minor"));
        }
        heads
    }

    /// Every major, or every tenth where the columns are many.
    fn majors(&self) -> String {
        let columns = &self.block.columns;
        let step = if columns.len() > 10 { 10 } else { 1 };
        let mut line = format!("{:>8} ", "major");
        for (place, column) in columns.iter().enumerate().step_by(step) {
            let start = GUTTER + place * self.column_width();
            line = format!("{line:<start$}{}", column.major);
        }
        line
    }

    /// What stands before a row: its minor, or what it adds to the first minor of the strip.
    fn gutter(&self, row: usize) -> String {
        let label = match self.strips {
            1 => row.to_string(),
            _ => format!("+{row}"),
        };
        let word = if row == 0 { "minor" } else { "" };
        format!("{word:<5}{label:>3} ")
    }

    fn row(&self, map: &Map, row: usize) -> String {
        let gap = " ".repeat(self.gap);
        let cells = |column| -> String {
            let cells = (0..self.strips).map(|strip| self.cell(map, column, strip * STRIP + row));
            cells.chain([gap.clone()]).collect()
        };
        self.block.columns.iter().map(cells).collect()
    }

    /// The frame of a column at a place, or nothing as wide.
    fn cell(&self, map: &Map, column: &Column, place: usize) -> String {
        let width = self.strip_width;
        let Some(&frame) = column.frames.get(place) else {
            return " ".repeat(width);
        };
        let category = map.category(frame);
        let letter = painted(category, &category.letter().to_string());
        format!("{letter}{}", " ".repeat(width - 1))
    }
}

/// Panels side by side.
fn beside(panels: &[Panel]) -> String {
    let heads = panels.iter().map(|it| it.heads.len()).max().unwrap_or(0);
    let rows = panels.iter().map(|it| it.rows.len()).max().unwrap_or(0);
    let line = |at: usize| {
        let lines: Vec<String> = panels.iter().map(|it| it.line(at, heads)).collect();
        format!("{}\n", lines.join(&" ".repeat(BETWEEN)).trim_end())
    };
    (0..heads + rows).map(line).collect()
}
