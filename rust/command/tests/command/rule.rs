//! The command decodes nothing that the library decodes: its sources have no means to, and the
//! figures that it prints are the library's.
//!
//! Sources are read as tokens, of which some need a reason. That guards against slips and habits,
//! not against intent: whoever means to can add and compare until a field is cut out. Against
//! intent stand the tests of the figures, further down, and whoever reads a change.

mod forbidden;
mod planted;
mod tokens;

use crate::common::streams::{partial, stopped};
use crate::common::{Scratch, Told};
use forbidden::{Found, A_LETTER, BYTES};
use seamwillow_library::{self as library, Record};
use seamwillow_tests::generate::random::{self, Random};
use seamwillow_tests::harness::json::Value;
use seamwillow_tests::independent::names::register;
use seamwillow_tests::independent::reference::{Part, PARTS};
use std::fs;
use std::path::{Path, PathBuf};

/// A token that stands in a file so many times, and why it may.
struct Allowed {
    file: &'static str,
    token: &'static str,
    times: usize,
    why: &'static str,
}

const fn allowed(
    file: &'static str,
    token: &'static str,
    times: usize,
    why: &'static str,
) -> Allowed {
    Allowed {
        file,
        token,
        times,
        why,
    }
}

const A_NUMBER: &str = "a number of a refusal, to give it words";
const A_TRUTH_VALUE: &str = "both sides are truth values";
const A_PATTERN: &str = "a pattern that is not an arm's own";
const OF_WORDS: &str = "bytes are counted in words and frames";
const OF_SHOWN_TEXT: &str = "a letter of what is read or shown";
const OF_LENGTHS: &str = "lengths of the drawing";

const ALLOWED: [Allowed; 64] = [
    allowed("arguments.rs", A_LETTER, 2, OF_SHOWN_TEXT),
    allowed("arguments.rs", BYTES, 6, OF_SHOWN_TEXT),
    allowed("commands/check.rs", "&=", 2, A_TRUTH_VALUE),
    allowed("commands/explain.rs", "*", 3, OF_WORDS),
    allowed("commands/explain.rs", "/", 5, OF_WORDS),
    allowed("commands/explain.rs", "|", 1, A_PATTERN),
    allowed("commands/explain.rs", "|=", 1, A_TRUTH_VALUE),
    allowed("commands/layout.rs", "|=", 1, A_TRUTH_VALUE),
    allowed(
        "commands/tables.rs",
        "from_str_radix",
        1,
        "the user's address",
    ),
    allowed("desk.rs", A_LETTER, 3, OF_SHOWN_TEXT),
    allowed("guess.rs", "33", 1, A_NUMBER),
    allowed("guess.rs", "4096", 1, "how much of a file is looked at"),
    allowed("guess.rs", "0x1F", 1, "how a gzip file begins"),
    allowed("guess.rs", "0x8B", 1, "how a gzip file begins"),
    allowed("guess.rs", BYTES, 2, "how zip and xz files begin"),
    allowed("guess.rs", "reverse_bits", 3, "a file is turned round"),
    allowed("image.rs", "23", 1, A_NUMBER),
    allowed("input.rs", "1024", 2, "the most that is read"),
    allowed("input.rs", "*", 2, "the most that is read"),
    allowed("json.rs", A_LETTER, 5, OF_SHOWN_TEXT),
    allowed("part.rs", "37", 1, A_NUMBER),
    allowed("picture/block.rs", "div_ceil", 1, OF_LENGTHS),
    allowed("picture/markup.rs", A_LETTER, 5, OF_SHOWN_TEXT),
    allowed("picture/markup.rs", "/", 1, OF_LENGTHS),
    allowed("picture/mod.rs", A_LETTER, 4, OF_SHOWN_TEXT),
    allowed(
        "picture/mod.rs",
        "/",
        1,
        "an image is as long as its frames",
    ),
    allowed("picture/mod.rs", "|", 1, A_PATTERN),
    allowed(
        "picture/panel.rs",
        "%",
        2,
        "every tenth major is set apart, and rows of a strip",
    ),
    allowed("picture/panel.rs", "*", 13, OF_LENGTHS),
    allowed("picture/panel.rs", "/", 3, OF_LENGTHS),
    allowed("picture/svg.rs", "*", 2, OF_LENGTHS),
    allowed("picture/svg.rs", "/", 3, OF_LENGTHS),
    allowed("picture/terminal.rs", A_LETTER, 4, OF_SHOWN_TEXT),
    allowed("picture/terminal.rs", "*", 5, OF_LENGTHS),
    allowed("refusal.rs", "*", 2, OF_WORDS),
    allowed("refusal.rs", "|", 1, A_PATTERN),
    allowed("usage.rs", "concat", 1, "the version as cargo has it"),
    allowed(
        "walk.rs",
        "from_be_bytes",
        1,
        "a word is shown as it stands",
    ),
    allowed("walk.rs", "*", 4, OF_WORDS),
    allowed("walk.rs", "*=", 1, "a look ahead is doubled"),
    allowed(
        "walk.rs",
        "/",
        3,
        "bytes are counted in words, and a search halves",
    ),
    allowed("walk.rs", "ops", 1, "Range"),
    allowed("walk.rs", "|", 1, A_PATTERN),
    allowed("words.rs", A_LETTER, 10, OF_SHOWN_TEXT),
    allowed("words.rs", "|", 5, A_PATTERN),
    allowed("words.rs", "21", 1, A_NUMBER),
    allowed("words.rs", "22", 1, A_NUMBER),
    allowed("words.rs", "28", 1, "how many numbers there are"),
    allowed("words.rs", "23", 1, A_NUMBER),
    allowed("words.rs", "24", 1, A_NUMBER),
    allowed("words.rs", "32", 1, A_NUMBER),
    allowed("words.rs", "33", 1, A_NUMBER),
    allowed("words.rs", "34", 2, A_NUMBER),
    allowed("words.rs", "35", 2, A_NUMBER),
    allowed("words.rs", "36", 1, A_NUMBER),
    allowed("words.rs", "37", 1, A_NUMBER),
    allowed("words.rs", "41", 1, A_NUMBER),
    allowed("words.rs", "42", 1, A_NUMBER),
    allowed("words.rs", "43", 1, A_NUMBER),
    allowed("words.rs", "44", 1, A_NUMBER),
    allowed("words.rs", "45", 2, A_NUMBER),
    allowed("words.rs", "46", 1, A_NUMBER),
    allowed("words.rs", "47", 1, A_NUMBER),
    allowed("words.rs", "4096", 1, "the most steps, to give them words"),
];

/// Lengths of a drawing stand here; 01's figures are not among them.
const DRAWING: &str = "picture/";
/// Below every IDCODE and every memory's length, and above every length of a drawing.
const LONGEST: u64 = 2048;

/// A plain number that is none of a part's figures, nor one by which fields are cut.
fn is_length(token: &str) -> bool {
    let is_figure = |number: u64| {
        let has = |part: &Part| {
            let words = u64::from(part.frame_words());
            words == number || u64::from(part.frame_count()) == number
        };
        PARTS.iter().any(has)
    };
    let is_length =
        |number: u64| number < LONGEST && !number.is_power_of_two() && !is_figure(number);
    token.parse().is_ok_and(is_length)
}

/// What is wrong with the forbidden tokens of a file: they have no reason to stand there, or not
/// so many times.
fn wrong(file: &str, found: &[Found]) -> Vec<String> {
    let allowed: Vec<&Allowed> = ALLOWED.iter().filter(|it| it.file == file).collect();
    let has_reason = |token: &str| {
        let is_drawn = file.starts_with(DRAWING) && is_length(token);
        is_drawn || allowed.iter().any(|it| it.token == token)
    };
    let others = found.iter().filter(|(_, token)| !has_reason(token));
    let mut wrong: Vec<String> = others
        .map(|(line, token)| format!("{file}:{line}: {token}"))
        .collect();
    for Allowed {
        token, times, why, ..
    } in allowed
    {
        let count = found.iter().filter(|(_, it)| it == token).count();
        if count != *times {
            wrong.push(format!(
                "{file}: {token} stands there {count} times, not {times} ({why})"
            ));
        }
    }
    wrong
}

fn sources(folder: &Path) -> Vec<PathBuf> {
    let mut files = Vec::new();
    for entry in fs::read_dir(folder)
        .expect("the sources are there")
        .flatten()
    {
        let path = entry.path();
        match path.is_dir() {
            true => files.extend(sources(&path)),
            false => files.push(path),
        }
    }
    files
}

/// The forbidden tokens of every source of the command.
fn found() -> Vec<(String, Vec<Found>)> {
    let root = Path::new(env!("CARGO_MANIFEST_DIR")).join("src");
    let found = |path: PathBuf| {
        let file = path.strip_prefix(&root).expect("it stands under the root");
        let source = fs::read_to_string(&path).expect("a source is text");
        (file.display().to_string(), forbidden::in_source(&source))
    };
    sources(&root).into_iter().map(found).collect()
}

#[test]
fn sources_have_no_means_to_decode() {
    let sources = found();
    let is_gone = |it: &&Allowed| sources.iter().all(|(file, _)| file != it.file);
    let gone = ALLOWED.iter().filter(is_gone).map(|it| it.file.to_string());
    let wrong = sources.iter().flat_map(|(file, found)| wrong(file, found));
    let wrong: Vec<String> = wrong.chain(gone).collect();
    assert!(wrong.is_empty(), "{}", wrong.join("\n"));
}

#[test]
fn printed_figures_are_the_librarys() {
    let scratch = Scratch::new("figures");
    let parts = Value::of(&scratch.run("parts --json").text());
    assert_eq!(parts.list().len(), 8);
    let table = scratch.run("parts").text();
    for (device, part) in (0..).zip(parts.list()) {
        let (code, figures) = library::part(device);
        let number = |name| part.get(name).number();
        assert_eq!((code, number("device")), (0, u64::from(device)));
        assert_eq!(part.get("idcode").word(), figures.idcode);
        assert_eq!(number("frame_words"), u64::from(figures.frame_words));
        assert_eq!(number("frames"), u64::from(figures.frames));
        assert_eq!(number("memory_bytes"), figures.memory_bytes);
        let row = table
            .lines()
            .nth(device as usize + 1)
            .expect("a row a part");
        let row: Vec<&str> = row.split_whitespace().collect();
        let name = part.get("part").text();
        let (words, frames) = (figures.frame_words, figures.frames);
        let figures = format!(
            "{:08X} {words} {frames} {}",
            figures.idcode, figures.memory_bytes
        );
        assert_eq!(row.join(" "), format!("{device} {name} {figures}"));
    }
}

#[test]
fn printed_frames_are_the_librarys() {
    let scratch = Scratch::new("frames");
    let mut random = Random::new(random::seed(111));
    for (device, part) in (0..).zip(&PARTS) {
        let frames = part.frame_count();
        let mut numbers = vec![0, 2, 3, 4, 5, frames - 1];
        numbers.extend((0..20).map(|_| random.below(frames)));
        for number in numbers {
            let (code, address) = library::frame_address(device, number);
            assert_eq!(code, 0);
            let name = part.name;
            let by_number = scratch.run(&format!("frame --json {name} {number}"));
            let by_address = scratch.run(&format!("frame --json {name} {address:08X}"));
            assert_eq!(by_number, by_address, "{name} {number}");
            let told = Value::of(&by_number.text());
            assert_eq!(told.get("frame").number(), u64::from(number));
            assert_eq!(told.get("address").word(), address);
            let fields = library::address_fields(address);
            let fields = [fields.block, fields.major, fields.minor].map(u64::from);
            let shown = ["block", "major", "minor"].map(|field| told.get(field).number());
            assert_eq!(shown, fields, "{name} {number}");
        }
    }
}

/// The CRC register after the bytes before an offset, and what a word to CRC makes of it.
fn checked(device: u32, stream: &[u8], offset: usize, word: u32) -> u32 {
    let mut memory = vec![0; PARTS[device as usize].memory_bytes()];
    let (_, mut record) = Record::power_on(device, &mut memory);
    record.load(&mut memory, &stream[..offset]);
    library::crc(record.register(register::CRC), register::CRC, word)
}

/// The word that `explain` would have had at a failed check, and where.
fn passing_word(told: &Told) -> (usize, u32) {
    let text = told.text();
    let line = text
        .lines()
        .find(|line| line.ends_with("would have passed"));
    let word = line.and_then(|line| line.split_whitespace().next());
    let word = word.and_then(|word| u32::from_str_radix(word, 16).ok());
    let offset = told.err.split("offset ").nth(1);
    let offset = offset.and_then(|rest| rest.split(':').next()?.parse().ok());
    let words = "a failed check has its word and its offset";
    (offset.expect(words), word.expect(words))
}

#[test]
fn the_passing_word_is_the_librarys() {
    let scratch = Scratch::new("passing");
    let mut random = Random::new(random::seed(112));
    for case in 0..64 {
        let device = case % 8;
        let mut stream = partial(device);
        // A bit of the stored frames.
        let place = 56 + random.below(2 * PARTS[device as usize].frame_bytes() as u32);
        stream[place as usize] ^= 1 << random.below(8);
        scratch.write("bad.bit", &stream);
        let told = scratch.run("explain bad.bit");
        let (offset, word) = passing_word(&told);
        assert_eq!(told.status, 1);
        assert_eq!(checked(device, &stream, offset, word), 0, "{told:?}");
        let check = Value::of(&scratch.run("check --json bad.bit").text());
        let stop = check.list()[0].get("stop").clone();
        assert_eq!(stop.get("passing_word").word(), word);
        // With the word in its place the stream is good.
        stream[offset..offset + 4].copy_from_slice(&word.to_be_bytes());
        scratch.write("good.bit", &stream);
        assert_eq!(scratch.run("check good.bit").status, 0, "{told:?}");
    }
    scratch.write("bad.bit", &stopped(8));
    let (offset, word) = passing_word(&scratch.run("explain bad.bit"));
    assert_eq!(checked(0, &stopped(8), offset, word), 0);
}
