//! The reference machine, and the length of a layout's stream.

use super::{Cause, Layout, Refusal, Step};

/// Words of a write: a header and a word of data.
const WRITE: usize = 2;
/// FFFFFFFF and sync, three writes before the steps and two after them.
const AROUND_STEPS: usize = 2 + 5 * WRITE;
/// The headers of types 1 and 2 to FDRI, and the auto CRC word.
const AROUND_FRAMES: usize = 2 + 1;
/// The header to MFWR and two zero words.
const MULTI_WRITE: usize = 3;

impl Step<'_> {
    /// The words that the stream has for the step.
    fn words(&self, frame_words: usize) -> usize {
        match self {
            // CMD and FAR, then the frames and a pad frame.
            Self::FrameWrite { frames, .. } => {
                2 * WRITE + AROUND_FRAMES + (frames.len() + 1) * frame_words
            }
            // CMD twice and one frame, then FAR and MFWR for each target.
            Self::MultiFrameWrite { targets, .. } => {
                2 * WRITE + AROUND_FRAMES + frame_words + targets.len() * (WRITE + MULTI_WRITE)
            }
        }
    }
}

impl Layout<'_> {
    pub fn stream_bytes(&self) -> u64 {
        let frame_words = self.part.frame_words() as usize;
        let steps = self.steps.iter().map(|step| step.words(frame_words));
        4 * (AROUND_STEPS + steps.sum::<usize>()) as u64
    }

    /// Does the steps on a memory.
    pub fn run(&self, memory: &mut [u8]) -> Result<(), Refusal> {
        if memory.len() != self.part.memory_bytes() {
            return Err(Refusal {
                cause: Cause::WrongMemory,
                offset: 0,
            });
        }
        let mut machine: Vec<&[u8]> = memory.chunks_exact(self.part.frame_bytes()).collect();
        for step in &self.steps {
            match step {
                Step::FrameWrite { first, frames } => {
                    machine[*first..][..frames.len()].copy_from_slice(frames);
                }
                Step::MultiFrameWrite { frame, targets } => {
                    targets.iter().for_each(|&target| machine[target] = frame);
                }
            }
        }
        let after = machine.concat();
        memory.copy_from_slice(&after);
        Ok(())
    }
}
