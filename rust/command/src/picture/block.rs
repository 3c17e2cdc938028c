//! The blocks of a part, and how their pictures stand beside each other.

use crate::part::{Column, Part};

/// Minors that stand below each other; a longer column goes on in a strip beside the first.
pub const STRIP: usize = 19;

/// The columns of one block.
pub struct Block {
    pub number: u32,
    pub columns: Vec<Column>,
}

impl Block {
    /// Every block of a part.
    pub fn all(part: Part) -> Vec<Self> {
        let mut blocks: Vec<Self> = Vec::new();
        for column in part.columns() {
            let number = column.block;
            match blocks.last_mut() {
                Some(block) if block.number == number => block.columns.push(column),
                _ => blocks.push(Self {
                    number,
                    columns: vec![column],
                }),
            }
        }
        blocks
    }

    /// The strips of its longest column.
    pub fn strips(&self) -> usize {
        let strips = |column: &Column| column.frames.len().div_ceil(STRIP);
        self.columns.iter().map(strips).max().unwrap_or(0).max(1)
    }

    /// The rows of its longest strip.
    pub fn rows(&self) -> usize {
        let rows = |column: &Column| column.frames.len().min(STRIP);
        self.columns.iter().map(rows).max().unwrap_or(0)
    }

    /// Each name with the first and the last place of the neighbours that have it.
    pub fn names(&self) -> Vec<(&'static str, usize, usize)> {
        let mut names: Vec<(&'static str, usize, usize)> = Vec::new();
        for (place, column) in self.columns.iter().enumerate() {
            match names.last_mut() {
                Some((name, _, last)) if *name == column.name => *last = place,
                _ => names.push((column.name, place, place)),
            }
        }
        names
    }

    /// The name of all its columns, where they have one.
    pub fn name(&self) -> Option<&'static str> {
        match self.names().as_slice() {
            [(name, ..)] => Some(name),
            _ => None,
        }
    }
}

/// Panels in rows that are not too wide; the last are put together first, so that the first, the
/// widest, stands alone where not all go beside it.
pub fn in_rows<T>(
    panels: Vec<T>,
    width: impl Fn(&T) -> usize,
    between: usize,
    most: usize,
) -> Vec<Vec<T>> {
    let mut rows: Vec<Vec<T>> = Vec::new();
    let mut used = 0;
    for panel in panels.into_iter().rev() {
        used += between + width(&panel);
        match rows.first_mut() {
            Some(row) if used <= most => row.insert(0, panel),
            _ => {
                used = width(&panel);
                rows.insert(0, vec![panel]);
            }
        }
    }
    rows
}
