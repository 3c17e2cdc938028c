//! The two compilers, and what tells their answers and their outputs apart.

use crate::generate::random::Random;
use crate::harness::ffi;
use crate::harness::sides::{assert_same, hex, End, State};
use crate::independent::compiler;
use crate::independent::layout::{self, Desk, Refusal};

type Compile = fn(Desk, &[u8], &mut [u8]) -> (u32, u64);
type Reconfigure = fn(&mut [u8], &mut [u8], [u32; 2], &[u8], &mut [u8]) -> (u32, u64);

/// One of the two, as the C interface has it.
pub struct CompilerSide {
    pub name: &'static str,
    pub compile: Compile,
    reconfigure: Reconfigure,
}

pub const INDEPENDENT: CompilerSide = CompilerSide {
    name: "the independent compiler",
    compile: compiler::compile,
    reconfigure: compiler::reconfigure,
};

pub const PROVED: CompilerSide = CompilerSide {
    name: "the proved library",
    compile: ffi::compile,
    reconfigure: ffi::reconfigure,
};

/// All that a reconfiguration is given.
#[derive(Clone)]
pub struct Call {
    pub state: State,
    /// The range's first frame and its count.
    pub range: [u32; 2],
    pub layout: Vec<u8>,
    pub output: Vec<u8>,
}

/// What a call left and answered.
pub struct Done {
    /// With the value for the bytes taken.
    pub end: End,
    pub output: Vec<u8>,
}

impl CompilerSide {
    /// The stream of a layout, into an output of its length; none where it is refused.
    pub fn compiled(&self, desk: Desk, layout: &[u8]) -> Option<Vec<u8>> {
        let length = layout::check(desk, layout).ok()?;
        let mut output = vec![0; length as usize];
        let answer = (self.compile)(desk, layout, &mut output);
        assert_eq!(answer, (0, length), "{}", self.name);
        Some(output)
    }

    pub fn reconfigure(&self, call: &Call) -> Done {
        let (mut state, mut output) = (call.state.clone(), call.output.clone());
        let State { record, memory } = &mut state;
        let (code, taken) =
            (self.reconfigure)(record, memory, call.range, &call.layout, &mut output);
        let end = End { code, taken, state };
        Done { end, output }
    }
}

/// Room for a stream of the checked length: all, mostly, or one byte short, shorter or longer.
pub fn some_room(random: &mut Random, checked: Result<u64, Refusal>) -> usize {
    // No stream is shorter than that of no steps.
    let length = checked.unwrap_or(48) as usize;
    match random.below(16) {
        0 => length - 1,
        1 => random.place(length - 1),
        2 | 3 => length + 1 + random.place(64),
        _ => length,
    }
}

/// Compiles on both sides into outputs filled alike, and asserts the same answers and bytes, and
/// that none was touched but the stream's; the answer and the output.
pub fn compare(desk: Desk, layout: &[u8], filled: &[u8], case: &str) -> ((u32, u64), Vec<u8>) {
    let [(wanted, expected), (answer, output)] = [INDEPENDENT, PROVED].map(|side| {
        let mut output = filled.to_vec();
        let answer = (side.compile)(desk, layout, &mut output);
        (answer, output)
    });
    let room = filled.len();
    let tell = |what| {
        let layout = hex(layout);
        format!("{case}, {what}, {desk:?}, output of {room}\nlayout {layout}")
    };
    assert_eq!(answer, wanted, "{}", tell("sw_compile"));
    assert!(output == expected, "{}", tell("other bytes than expected"));
    let written = match answer {
        (0, length) => length as usize,
        _ => 0,
    };
    let is_kept = output[written..] == filled[written..];
    assert!(is_kept, "{}", tell("bytes that were to be kept"));
    (answer, output)
}

/// Puts a call to both sides, and asserts the same ends and outputs, and that a refusal changed
/// nothing; what the call left.
pub fn compare_calls(call: &Call, case: &str) -> Done {
    let tell = || {
        let (record, layout) = (hex(&call.state.record), hex(&call.layout));
        let (range, room) = (call.range, call.output.len());
        format!("{case}, range {range:?}, output of {room}\nrecord {record}\nlayout {layout}")
    };
    let expected = INDEPENDENT.reconfigure(call);
    let done = PROVED.reconfigure(call);
    assert_same(&expected.end, &done.end, tell);
    assert!(done.output == expected.output, "{}\nother output", tell());
    if done.end.code != 0 {
        let is_kept = done.end.state == call.state && done.output == call.output;
        assert!(is_kept, "{}\nchanged by a refusal", tell());
    }
    done
}
