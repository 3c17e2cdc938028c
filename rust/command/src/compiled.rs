//! A layout's stream, or its refusal with what was expected and the bytes around it.

use crate::failure::{Failure, Message};
use crate::input::Input;
use crate::refusal::{Reading, Wanted};
use crate::words::{self, hexadecimal};
use seamwillow_library as library;

/// As many bytes are shown before a refusal's offset, and from it on.
const SHOWN: usize = 6;

/// The stream of a layout for a part and frames that the part has.
pub fn stream(wanted: Wanted, layout: &Input) -> Result<Vec<u8>, Failure> {
    let Wanted { part, range, .. } = wanted;
    let refused = |code, value| refused(wanted, layout, code, value);
    let (code, value) = library::check(part.device, range, &layout.bytes);
    if code != 0 {
        return Err(refused(code, value));
    }
    let mut stream = Vec::new();
    let too_long = || {
        Message::of_file(
            &layout.name,
            format!("no memory for a stream of {value} bytes"),
        )
    };
    let length = usize::try_from(value).map_err(|_| Failure::Trouble(too_long()))?;
    stream
        .try_reserve_exact(length)
        .map_err(|_| Failure::Trouble(too_long()))?;
    stream.resize(length, 0);
    match library::compile(part.device, range, &layout.bytes, &mut stream) {
        (0, _) => Ok(stream),
        (code, value) => Err(refused(code, value)),
    }
}

/// The number, where it applies, what was expected and what stands there.
fn refused(wanted: Wanted, layout: &Input, code: u32, value: u64) -> Failure {
    let bytes = &layout.bytes;
    let offset = usize::try_from(value).map_or(bytes.len(), |offset| offset.min(bytes.len()));
    let reading = Reading {
        wanted,
        layout: bytes,
    };
    let explained = reading.explained(code, offset);
    let context = explained.into_iter().chain([around(bytes, offset)]);
    Failure::Refused(Message {
        offset: Some(value),
        number: Some(code),
        context: context.collect(),
        ..Message::of_file(&layout.name, words::meaning(code))
    })
}

/// The bytes before and from an offset on, with a mark between them.
fn around(bytes: &[u8], offset: usize) -> String {
    let start = offset.saturating_sub(SHOWN);
    let end = bytes.len().min(offset.saturating_add(SHOWN));
    let after = match offset == bytes.len() {
        true => "end of file".to_string(),
        false => hexadecimal(&bytes[offset..end]),
    };
    let before = hexadecimal(&bytes[start..offset]);
    let gap = if before.is_empty() { "" } else { " " };
    format!("bytes from offset {start}: {before}{gap}>> {after}")
}
