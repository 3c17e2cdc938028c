//! The picture of a part's frames, column by column: in a terminal, as SVG and as a page.
//!
//! Which frames there are and where they stand is asked of the part.

mod block;
pub mod html;
mod markup;
mod panel;
pub mod svg;
pub mod terminal;

use crate::desk::{self, NamedRange};
use crate::input::Input;
use crate::part::{Column, Frame, Part};
use crate::runs::FrameSet;
use crate::verdict::Verdict;

/// What happens to a frame.
#[derive(Clone, Copy, PartialEq, Eq, Debug)]
pub enum Category {
    /// Written, and no range says whether it may be.
    Written,
    Inside,
    Outside,
    Kept,
    Other,
}

impl Category {
    /// The character in a terminal, where a colour may be missing.
    pub fn letter(self) -> char {
        match self {
            Self::Written | Self::Inside => '#',
            Self::Outside => '!',
            Self::Kept => 'o',
            Self::Other => '.',
        }
    }
}

/// The frames of one category in one column, without a gap.
pub struct Run {
    pub first: Frame,
    pub last: Frame,
    pub category: Category,
    /// How many frames the column has.
    pub of: usize,
}

/// A part's frames, and what a file does to them.
pub struct Map {
    pub name: String,
    pub part: Part,
    pub range: Option<NamedRange>,
    /// None where the file is a memory image.
    pub verdict: Option<Verdict>,
    /// The frames that the stream writes, or those of the image that are not blank.
    marked: FrameSet,
}

impl Map {
    pub fn of_stream(name: &str, part: Part, verdict: Verdict) -> Self {
        Self {
            name: name.to_string(),
            part,
            range: verdict.range.clone(),
            marked: verdict.effects.stored.clone(),
            verdict: Some(verdict),
        }
    }

    /// The image is as long as the part's memory.
    pub fn of_image(image: &Input, part: Part, range: Option<NamedRange>) -> Self {
        let length = image.bytes.len() / (part.figures.frames as usize).max(1);
        let frames = (0..).zip(image.bytes.chunks(length.max(1)));
        let is_blank = |bytes: &[u8]| bytes.iter().all(|&byte| byte == 0);
        let marked = frames.filter(|(_, bytes)| !is_blank(bytes));
        Self {
            name: image.name.clone(),
            part,
            range,
            verdict: None,
            marked: marked.map(|(number, _)| number).collect(),
        }
    }

    pub fn category(&self, frame: u32) -> Category {
        let owns = self.range.as_ref().map(|range| range.owns(frame));
        match (self.marked.contains(frame), owns) {
            (true, None) => Category::Written,
            (true, Some(true)) => Category::Inside,
            (true, Some(false)) => Category::Outside,
            (false, Some(true)) => Category::Kept,
            (false, _) => Category::Other,
        }
    }

    /// The categories that frames can be of here.
    pub fn categories(&self) -> &'static [Category] {
        use Category::{Inside, Kept, Other, Outside, Written};
        match self.range {
            Some(_) => &[Inside, Outside, Kept, Other],
            None => &[Written, Other],
        }
    }

    pub fn label(&self, category: Category) -> &'static str {
        use Category::{Inside, Kept, Other, Outside, Written};
        match (category, self.verdict.is_some(), self.range.is_some()) {
            (Written, true, _) => "written",
            (Inside, true, _) => "written in the range",
            (Outside, true, _) => "written outside the range",
            (Kept, true, _) => "in the range and kept",
            (Other, true, true) => "other: neither written nor in the range",
            (Other, true, false) => "other: not written",
            (Written, false, _) => "not blank",
            (Inside, false, _) => "not blank, in the range",
            (Outside, false, _) => "not blank, outside the range",
            (Kept, false, _) => "blank, in the range",
            (Other, false, true) => "other: blank, not in the range",
            (Other, false, false) => "other: blank",
        }
    }

    /// The frames of a category.
    pub fn frames(&self, category: Category) -> FrameSet {
        let is_of = |&frame: &u32| self.category(frame) == category;
        (0..self.part.figures.frames).filter(is_of).collect()
    }

    /// The categories of frames that are written or not blank.
    pub fn marks(&self) -> impl Iterator<Item = Category> {
        let is_mark = |category: &Category| !matches!(category, Category::Kept | Category::Other);
        self.categories().iter().copied().filter(is_mark)
    }

    /// PASS or FAIL; nothing for an image, which is not judged.
    pub fn answer(&self) -> Option<&'static str> {
        self.verdict.as_ref().map(Verdict::answer)
    }

    /// The part and the range.
    pub fn place(&self) -> String {
        desk::place_words(Some(self.part), self.range.as_ref())
    }

    /// The runs of written frames, or of those that are not blank, in every column.
    pub fn runs(&self) -> Vec<Run> {
        let columns = self.part.columns();
        columns.iter().flat_map(|it| self.runs_of(it)).collect()
    }

    fn runs_of(&self, column: &Column) -> Vec<Run> {
        let mut runs: Vec<Run> = Vec::new();
        let marked = column.frames.iter().filter(|it| self.marked.contains(**it));
        for frame in marked.filter_map(|&number| self.part.frame(number).ok()) {
            let category = self.category(frame.number);
            let follows =
                |run: &&mut Run| run.last.number + 1 == frame.number && run.category == category;
            match runs.last_mut().filter(follows) {
                Some(run) => run.last = frame,
                None => runs.push(Run {
                    first: frame,
                    last: frame,
                    category,
                    of: column.frames.len(),
                }),
            }
        }
        runs
    }
}
