//! A compiler written from the scope paper (01) alone, to hold the proved library against: the
//! layout's steps through the stream writer of the tests, which feeds the CRC a bit at a time.

use crate::independent::layout::{self, answer, Desk, Layout, Step};
use crate::independent::loader::{self, Phase, Record, BAD_MEMORY, BAD_RECORD};
use crate::independent::names::{command, register};
use crate::independent::reference::LOOKUPS;
use crate::independent::stream::Stream;

/// A record that does not wait for sync; not a number of the paper but of the C interface.
const NOT_HUNTING: u32 = 24;
const OUTPUT_TOO_SHORT: u32 = 36;

/// Writes the layout's stream to the output's first bytes; the code and its value.
pub fn compile(desk: Desk, layout: &[u8], output: &mut [u8]) -> (u32, u64) {
    let stream = match layout::read(desk, layout) {
        Ok(layout) => stream_of(desk.device, &layout),
        Err(refusal) => return answer(Err(refusal)),
    };
    let length = stream.len() as u64;
    let Some(place) = output.get_mut(..stream.len()) else {
        return (OUTPUT_TOO_SHORT, length);
    };
    place.copy_from_slice(&stream);
    (0, length)
}

/// Compiles for the record's own device and loads the stream; the code and its value.
pub fn reconfigure(
    record: &mut [u8],
    memory: &mut [u8],
    [first, count]: [u32; 2],
    layout: &[u8],
    output: &mut [u8],
) -> (u32, u64) {
    let Some(device) = Record::decode(record) else {
        return (BAD_RECORD, 0);
    };
    if memory.len() != device.part().memory_bytes() {
        return (BAD_MEMORY, 0);
    }
    if device.phase != Phase::Hunting {
        return (NOT_HUNTING, 0);
    }
    let desk = Desk {
        device: device.number,
        first,
        count,
    };
    let (code, value) = compile(desk, layout, output);
    if code == 0 {
        let loaded = loader::load(record, memory, &output[..value as usize]);
        assert_eq!(loaded, (0, value), "the part takes the whole stream");
    }
    (code, value)
}

/// 01's "The stream that is written".
fn stream_of(device: u32, layout: &Layout) -> Vec<u8> {
    let address = |&frame: &usize| LOOKUPS.frame_address(device, frame as u32).1;
    let mut stream = Stream::ready(device);
    for step in &layout.steps {
        stream.command(command::WCFG);
        match step {
            Step::FrameWrite { first, frames } => {
                let frame_words = layout.part.frame_words();
                stream
                    .write(register::FAR, &[address(first)])
                    .padded_frames(&words(&frames.concat()), frame_words);
            }
            Step::MultiFrameWrite { frame, targets } => {
                stream
                    .frames(&words(frame))
                    .multiple_writes(targets.iter().map(address));
            }
        }
    }
    stream.check().command(command::DESYNC);
    stream.into_bytes()
}

/// Bytes of whole words as words.
fn words(bytes: &[u8]) -> Vec<u32> {
    let (words, _) = bytes.as_chunks();
    words.iter().map(|word| u32::from_be_bytes(*word)).collect()
}
