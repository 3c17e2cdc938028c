//! `build`: the proved compiler on a layout.

use crate::arguments::{Arguments, Flag};
use crate::compiled;
use crate::failure::Failure;
use crate::input::{Input, MOST_BYTES};
use crate::output;
use crate::refusal::Wanted;
use crate::words::{counted, plain};

pub fn run(arguments: &Arguments) -> Result<(), Failure> {
    let file = arguments.operand("LAYOUT")?;
    let target = arguments
        .value(Flag::Output)
        .ok_or_else(|| Failure::usage("-o STREAM is missing: where is the stream to go"))?;
    let place = arguments.place()?;
    // Both are the desk's to say; the file's word is not taken for either.
    let part = place
        .part
        .ok_or_else(|| Failure::usage("which part: name it with --desk or --part"))?;
    let range = place
        .range
        .ok_or_else(|| Failure::usage("which frames: name them with --seat or --frames"))?;
    let layout = Input::read_all(file)?;
    let wanted = Wanted {
        part,
        range: range.frames,
        is_named: true,
    };
    let stream = compiled::stream(wanted, &layout)?;
    output::save_binary(target, &stream)?;
    if output::is_standard(target) {
        return Ok(());
    }
    let length = stream.len() as u64;
    let (name, target) = (part.name(), plain(&target.to_string_lossy()));
    let more = match length > MOST_BYTES {
        true => format!("; longer than the {MOST_BYTES} bytes that the other commands read"),
        false => String::new(),
    };
    let bytes = counted(length, "byte");
    arguments.say(&format!(
        "{target}: {bytes} for the {name}, {range}{more}\n"
    ))
}
