//! What a file without a sync word looks like.

use crate::failure::Message;
use crate::input::Input;
use crate::part::Part;
use crate::walk::{Step, Walk, WORD};
use crate::words::{self, counted};
use seamwillow_library as library;

/// The beginning that is looked at: a sync word stands early.
const HEAD: usize = 4096;

type Reorder = fn(&mut [u8]);

/// Ways in which tools and cables turn bytes about.
const REORDERS: [(&str, Reorder); 3] = [
    ("the bits of every byte are reversed", reverse_bits),
    ("the bytes of every pair are swapped", swap_pairs),
    ("the bytes of every word are reversed", reverse_words),
];

/// What is told of a file that is no stream.
pub fn no_sync(input: &Input) -> Message {
    let guess = looks_like(&input.bytes);
    Message::of_file(&input.name, format!("no sync word: {guess}"))
}

/// One sentence on what the file may be.
pub fn looks_like(bytes: &[u8]) -> String {
    let found = as_blank(bytes)
        .or_else(|| as_packed(bytes))
        .or_else(|| as_layout(bytes))
        .or_else(|| as_image(bytes))
        .or_else(|| as_reordered(bytes))
        .or_else(|| as_broken_layout(bytes))
        .or_else(|| as_text(bytes));
    found.unwrap_or_else(|| "the file looks like nothing that seamwillow knows".to_string())
}

fn as_blank(bytes: &[u8]) -> Option<String> {
    let Some(first) = bytes.first() else {
        return Some("the file is empty".to_string());
    };
    let is_blank = bytes.iter().all(|byte| byte == first);
    let length = counted(bytes.len() as u64, "byte");
    is_blank.then(|| format!("the file is {length} of {first:02X}"))
}

fn as_packed(bytes: &[u8]) -> Option<String> {
    let packed = [
        ("gzip", &[0x1F, 0x8B][..]),
        ("zip", b"PK\x03\x04"),
        ("xz", b"\xFD7zXZ"),
    ];
    let (name, _) = packed.iter().find(|(_, magic)| bytes.starts_with(magic))?;
    Some(format!("it looks packed with {name}: unpack it first"))
}

/// What the library says of the bytes as a layout for each part: the number, and its value.
fn as_layouts(bytes: &[u8]) -> impl Iterator<Item = (Part, u32, u64)> + '_ {
    Part::all().map(|part| {
        let (code, value) = library::check(part.device, part.whole(), bytes);
        (part, code, value)
    })
}

fn as_layout(bytes: &[u8]) -> Option<String> {
    let (part, ..) = as_layouts(bytes).find(|&(_, code, _)| code == 0)?;
    let name = part.name();
    Some(format!(
        "it looks like a layout for the {name}: build its stream first"
    ))
}

/// A layout whose head is one part's, and which is refused behind it.
fn as_broken_layout(bytes: &[u8]) -> Option<String> {
    const OTHER_DEVICE: u32 = 33;
    /// Edition, device and step count come first.
    const HEAD_NUMBERS: u64 = 3;
    let is_read =
        |&(_, code, offset): &(Part, u32, u64)| code != OTHER_DEVICE && offset >= HEAD_NUMBERS;
    let (part, code, offset) = as_layouts(bytes).find(is_read)?;
    let (name, meaning) = (part.name(), words::meaning(code));
    Some(format!(
        "it may be a layout for the {name}, refused at offset {offset}: {meaning} ({code})"
    ))
}

/// A stream whose bytes or bits stand in another order.
fn as_reordered(bytes: &[u8]) -> Option<String> {
    let head = &bytes[..bytes.len().min(HEAD)];
    let part = Part::of(0)?;
    let syncs = |bytes: &[u8]| Walk::new(part, bytes).any(|step: Step| step.is_sync());
    let (what, _) = REORDERS.iter().find(|(_, reorder)| {
        (0..WORD.min(head.len())).any(|start| {
            let mut turned = head[start..].to_vec();
            reorder(&mut turned);
            syncs(&turned)
        })
    })?;
    Some(format!("it looks like a stream in which {what}"))
}

fn as_image(bytes: &[u8]) -> Option<String> {
    let part = Part::all().find(|part| part.figures.memory_bytes == bytes.len() as u64)?;
    Some(format!(
        "it is as long as a memory image of the {}",
        part.name()
    ))
}

fn as_text(bytes: &[u8]) -> Option<String> {
    let is_text = |byte: &u8| byte.is_ascii_graphic() || byte.is_ascii_whitespace();
    let head = &bytes[..bytes.len().min(HEAD)];
    head.iter()
        .all(is_text)
        .then(|| "it looks like text".to_string())
}

fn reverse_bits(bytes: &mut [u8]) {
    for byte in bytes {
        *byte = byte.reverse_bits();
    }
}

fn swap_pairs(bytes: &mut [u8]) {
    for pair in bytes.chunks_exact_mut(2) {
        pair.reverse();
    }
}

fn reverse_words(bytes: &mut [u8]) {
    for word in bytes.chunks_exact_mut(WORD) {
        word.reverse();
    }
}
