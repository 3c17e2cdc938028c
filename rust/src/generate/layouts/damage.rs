//! What can be wrong with a layout, or with the desk that it is put to.

use super::{Draft, Piece};
use crate::generate::guided;
use crate::independent::layout::number::{self, BadForm};
use crate::independent::layout::{Field, MOST_STEPS};

impl Draft<'_> {
    pub fn damage(&mut self) {
        match self.random.below(7) {
            0 => self.change_number(),
            1 => self.pass_limit(),
            2 => self.change_form(),
            3 => self.disorder_targets(),
            4 => self.disorder_pieces(),
            5 => self.spoil_bytes(),
            _ => self.move_desk(),
        }
    }

    /// A number and its place; each field is as likely as any other, however often it stands there.
    fn some_number(&mut self) -> Option<(usize, Field, u64)> {
        let wanted = self.random.pick(&Field::ALL);
        let mut numbers = Vec::new();
        for (place, piece) in self.pieces.iter().enumerate() {
            match *piece {
                Piece::Number(field, value) if field == wanted => {
                    numbers.push((place, field, value));
                }
                _ => {}
            }
        }
        (!numbers.is_empty()).then(|| self.random.pick(&numbers))
    }

    fn change_number(&mut self) {
        if let Some((place, field, value)) = self.some_number() {
            self.pieces[place] = Piece::Number(field, self.other_value(value));
        }
    }

    /// A number one off, or near a limit of some field.
    fn other_value(&mut self, value: u64) -> u64 {
        let frames = self.part.frame_count();
        let random = &mut *self.random;
        let other = match random.below(7) {
            0 => return value + 1,
            1 => return value.saturating_sub(1),
            2 => random.below(9),
            3 => frames - 1 + random.below(3),
            4 => random.pick(&[127, 128, 4095, 4096, 4097, 16_383, 16_384]),
            5 => u32::MAX - random.below(2 * frames),
            _ => random.next_u32(),
        };
        u64::from(other)
    }

    /// A number just past what its field allows.
    fn pass_limit(&mut self) {
        let Some((place, field, _)) = self.some_number() else {
            return;
        };
        let frames = u64::from(self.part.frame_count());
        let value = match field {
            Field::Edition => self.random.pick(&[0, 2]),
            Field::Device => 8,
            Field::StepCount => u64::from(MOST_STEPS) + 1,
            Field::Kind => self.random.pick(&[0, 3]),
            Field::FrameCount => 0,
            Field::TargetCount => self.random.pick(&[0, frames + 1]),
            Field::FirstFrame | Field::Target => frames,
        };
        self.pieces[place] = Piece::Number(field, value);
    }

    fn change_form(&mut self) {
        let Some((place, _, value)) = self.some_number() else {
            return;
        };
        let bytes = match self.random.pick(&BadForm::ALL) {
            BadForm::NotShortest => number::coded_longer(value, 1 + self.random.place(2)),
            // The low 32 bits stay; from bit 35 on it has more than five bytes.
            BadForm::TooLarge => number::coded(value | 1 << self.random.pick(&[32, 34, 35, 63])),
            BadForm::CutShort => {
                self.pieces.truncate(place + 1);
                number::unended(value)
            }
        };
        self.pieces[place] = Piece::Bytes(bytes);
    }

    /// Two targets swapped, or the same.
    fn disorder_targets(&mut self) {
        let is_target = |piece: &Piece| matches!(piece, Piece::Number(Field::Target, _));
        let pairs = self.pieces.windows(2).enumerate();
        let pairs = pairs.filter(|(_, pair)| pair.iter().all(is_target));
        let places: Vec<usize> = pairs.map(|(place, _)| place).collect();
        if places.is_empty() {
            return;
        }
        let place = self.random.pick(&places);
        match self.random.below(2) {
            0 => self.pieces.swap(place, place + 1),
            _ => self.pieces[place + 1] = self.pieces[place].clone(),
        }
    }

    /// A piece left out, doubled, or moved to the end; bytes may also be more or fewer.
    fn disorder_pieces(&mut self) {
        let place = self.random.place(self.pieces.len() - 1);
        let frame_bytes = self.part.frame_bytes();
        match (self.random.below(3), &mut self.pieces[place]) {
            (_, Piece::Bytes(bytes)) if self.random.one_in(2) => {
                let length = bytes.len();
                let fewer = length.saturating_sub(self.random.pick(&[1, frame_bytes]));
                let more = length + self.random.pick(&[1, frame_bytes]);
                bytes.resize(self.random.pick(&[fewer, more]), 1);
            }
            (0, _) => drop(self.pieces.remove(place)),
            (1, _) => self.pieces.insert(place, self.pieces[place].clone()),
            _ => self.pieces[place..].rotate_left(1),
        }
    }

    fn spoil_bytes(&mut self) {
        let mut bytes = self.coded();
        guided::spoil(self.random, &mut bytes);
        self.pieces = vec![Piece::Bytes(bytes)];
    }

    /// Another part, or a range one off, past the part's end or past all 32-bit numbers.
    fn move_desk(&mut self) {
        let frames = self.part.frame_count();
        let (random, desk) = (&mut *self.random, &mut self.desk);
        match random.below(9) {
            0 => desk.device = random.pick(&[8, 9, 255, 256, u32::MAX]),
            1 => desk.device = random.below(8),
            2 => desk.first = desk.first.saturating_sub(1),
            3 => desk.count = desk.count.saturating_add(1),
            4 => desk.count = desk.count.saturating_sub(1),
            // The same range without its first frame.
            5 => {
                desk.first = desk.first.saturating_add(1);
                desk.count = desk.count.saturating_sub(1);
            }
            6 => desk.first = (frames + 1).saturating_sub(desk.count),
            7 => desk.first = u32::MAX - random.below(frames),
            _ => desk.count = u32::MAX - random.below(frames),
        }
    }
}
