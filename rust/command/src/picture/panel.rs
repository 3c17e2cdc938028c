//! A block as a panel of an SVG picture: headings, and a cell for each frame.

use super::block::{Block, STRIP};
use super::markup::escaped;
use super::{svg, Map};
use crate::part::{Column, Frame};
use std::fmt::Write;

/// A cell and the space to the next.
const PITCH: usize = 14;
/// Half of a cell, to which headings are centred.
const MIDDLE: usize = 6;
/// Between columns of several strips.
const GAP: usize = 12;
/// Before each row stands its minor.
const GUTTER: usize = 52;
/// Lines of the heading: title, names, one line of numbers.
const TITLE: usize = 26;
const NAMES: usize = 50;
const NUMBERS: usize = 16;
/// A letter of the title.
const TITLE_LETTER: usize = 9;

/// A block, and where its picture begins.
pub struct Panel<'a> {
    map: &'a Map,
    block: &'a Block,
    left: usize,
    top: usize,
    /// The height of the heading, as tall as the tallest beside it.
    head: usize,
}

impl<'a> Panel<'a> {
    pub fn new(map: &'a Map, block: &'a Block) -> Self {
        let names = if block.name().is_some() { 0 } else { NAMES };
        let minors = if block.strips() > 1 { NUMBERS } else { 0 };
        Self {
            map,
            block,
            left: 0,
            top: 0,
            head: TITLE + names + NUMBERS + minors,
        }
    }

    pub fn head(&self) -> usize {
        self.head
    }

    pub fn placed(self, left: usize, top: usize, head: usize) -> Self {
        Self {
            left,
            top,
            head,
            ..self
        }
    }

    pub fn width(&self) -> usize {
        let columns = self.block.columns.len() * self.column_pitch();
        (GUTTER + columns).max(self.title().chars().count() * TITLE_LETTER)
    }

    pub fn height(&self) -> usize {
        self.head + self.block.rows() * PITCH
    }

    fn title(&self) -> String {
        let number = self.block.number;
        match self.block.name() {
            Some(name) => format!("Block {number}: {name}"),
            None => format!("Block {number}"),
        }
    }

    fn column_pitch(&self) -> usize {
        match self.block.strips() {
            1 => PITCH,
            strips => strips * PITCH + GAP,
        }
    }

    /// From the left edge of the first cell of a column to the right edge of its last.
    fn span(&self, place: usize) -> (usize, usize) {
        let left = self.left + GUTTER + place * self.column_pitch();
        (left, left + (self.block.strips() - 1) * PITCH + 2 * MIDDLE)
    }

    fn grid_top(&self) -> usize {
        self.top + self.head
    }

    pub fn draw(&self, out: &mut String) {
        let (left, base) = (self.left, self.top + MIDDLE * 2);
        let title = escaped(&self.title());
        // Writing to a string does not fail.
        let _ = writeln!(
            out,
            "<text class=\"b\" x=\"{left}\" y=\"{base}\">{title}</text>"
        );
        self.draw_names(out);
        self.draw_majors(out);
        self.draw_minors(out);
        for (place, column) in self.block.columns.iter().enumerate() {
            self.draw_column(place, column, out);
        }
    }

    /// A name stands upright over its one column, or over a line along its columns.
    fn draw_names(&self, out: &mut String) {
        if self.block.name().is_some() {
            return;
        }
        let base = self.grid_top() - NUMBERS - MIDDLE;
        for (name, first, last) in self.block.names() {
            let (name, (left, _), (_, right)) = (escaped(name), self.span(first), self.span(last));
            let middle = (left + right) / 2;
            let _ = match first == last {
                true => writeln!(
                    out,
                    "<text transform=\"translate({},{base}) rotate(-90)\">{name}</text>",
                    middle + 4
                ),
                false => writeln!(
                    out,
                    "<path class=\"l\" d=\"M{} {base}v-5H{}v5\"/>\
                     <text class=\"m\" x=\"{middle}\" y=\"{}\">{name}</text>",
                    left + 3,
                    right - 3,
                    base - 11
                ),
            };
        }
    }

    fn draw_majors(&self, out: &mut String) {
        let has_strips = self.block.strips() > 1;
        let lift = if has_strips { NUMBERS } else { 0 };
        let base = self.grid_top() - MIDDLE - lift;
        self.draw_label("major", base, out);
        for (place, column) in self.block.columns.iter().enumerate() {
            let ((left, right), major) = (self.span(place), column.major);
            let middle = (left + right) / 2;
            // Every tenth leads the eye where the columns are many.
            let class = match self.block.columns.len() > 10 && major % 10 == 0 {
                true => "n t",
                false => "n",
            };
            let _ = writeln!(
                out,
                "<text class=\"{class}\" x=\"{middle}\" y=\"{base}\">{major}</text>"
            );
            if has_strips {
                let line = base + 4;
                let _ = writeln!(out, "<path class=\"l\" d=\"M{left} {line}H{right}\"/>");
            }
        }
    }

    /// The minors along the rows, and the first of each strip where there are several.
    fn draw_minors(&self, out: &mut String) {
        let strips = self.block.strips();
        for row in 0..self.block.rows() {
            let label = match (row, strips) {
                (0, 1) => "minor 0".to_string(),
                (_, 1) => row.to_string(),
                _ => format!("+{row}"),
            };
            self.draw_label(&label, self.grid_top() + row * PITCH + 9, out);
        }
        if strips > 1 {
            self.draw_firsts(out);
        }
    }

    fn draw_firsts(&self, out: &mut String) {
        let base = self.grid_top() - MIDDLE + 1;
        self.draw_label("minor", base, out);
        let columns = 0..self.block.columns.len();
        let places = columns.flat_map(|place| (0..self.block.strips()).map(move |it| (place, it)));
        for (place, strip) in places {
            let middle = self.span(place).0 + strip * PITCH + MIDDLE;
            let first = strip * STRIP;
            let _ = writeln!(
                out,
                "<text class=\"n\" x=\"{middle}\" y=\"{base}\">{first}</text>"
            );
        }
    }

    /// Words that end before the cells.
    fn draw_label(&self, label: &str, base: usize, out: &mut String) {
        let right = self.left + GUTTER - MIDDLE;
        let _ = writeln!(
            out,
            "<text class=\"e\" x=\"{right}\" y=\"{base}\">{label}</text>"
        );
    }

    fn draw_column(&self, place: usize, column: &Column, out: &mut String) {
        let frame = |&number: &u32| self.map.part.frame(number).ok();
        for (at, frame) in column.frames.iter().filter_map(frame).enumerate() {
            let x = self.span(place).0 + at / STRIP * PITCH;
            let y = self.grid_top() + at % STRIP * PITCH;
            let symbol = svg::symbol(self.map.category(frame.number));
            let note = self.note(frame);
            let _ = writeln!(
                out,
                "<use href=\"#{symbol}\" x=\"{x}\" y=\"{y}\"><title>{note}</title></use>"
            );
        }
    }

    /// What the reader is told of a frame that is pointed to.
    fn note(&self, frame: Frame) -> String {
        let label = self.map.label(self.map.category(frame.number));
        escaped(&format!("{frame}\naddress {:08X}\n{label}", frame.address))
    }
}
