//! Sets of frame numbers, told as runs.

use std::fmt;

/// Frame numbers, rising and each once.
#[derive(Clone, Default, PartialEq, Eq, Debug)]
pub struct FrameSet {
    numbers: Vec<u32>,
}

impl FrameSet {
    pub fn insert(&mut self, number: u32) {
        if let Err(place) = self.numbers.binary_search(&number) {
            self.numbers.insert(place, number);
        }
    }

    pub fn contains(&self, number: u32) -> bool {
        self.numbers.binary_search(&number).is_ok()
    }

    pub fn extend(&mut self, other: &Self) {
        for number in other.iter() {
            self.insert(number);
        }
    }

    pub fn iter(&self) -> impl Iterator<Item = u32> + '_ {
        self.numbers.iter().copied()
    }

    pub fn len(&self) -> usize {
        self.numbers.len()
    }

    pub fn is_empty(&self) -> bool {
        self.numbers.is_empty()
    }

    /// The frames of the set for which the test holds.
    pub fn filtered(&self, test: impl Fn(u32) -> bool) -> Self {
        self.iter().filter(|&number| test(number)).collect()
    }

    /// First and last frame of each run of neighbours.
    pub fn runs(&self) -> Vec<(u32, u32)> {
        let mut runs: Vec<(u32, u32)> = Vec::new();
        for number in self.iter() {
            match runs.last_mut() {
                Some((_, last)) if last.checked_add(1) == Some(number) => *last = number,
                _ => runs.push((number, number)),
            }
        }
        runs
    }
}

impl FromIterator<u32> for FrameSet {
    fn from_iter<I: IntoIterator<Item = u32>>(numbers: I) -> Self {
        let mut set = Self::default();
        for number in numbers {
            set.insert(number);
        }
        set
    }
}

impl fmt::Display for FrameSet {
    fn fmt(&self, out: &mut fmt::Formatter) -> fmt::Result {
        for (index, (first, last)) in self.runs().into_iter().enumerate() {
            let comma = if index == 0 { "" } else { ", " };
            match first == last {
                true => write!(out, "{comma}{first}")?,
                false => write!(out, "{comma}{first}-{last}")?,
            }
        }
        Ok(())
    }
}
