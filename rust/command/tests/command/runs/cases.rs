//! The stored runs: their names and command lines.

use seamwillow_tests::independent::reference::PARTS;

pub struct Case {
    pub name: String,
    /// As a shell would have it.
    pub line: String,
}

fn case(name: impl Into<String>, line: impl Into<String>) -> Case {
    let (name, line) = (name.into(), line.into());
    Case { name, line }
}

pub fn all() -> Vec<Case> {
    let tables = [
        GENERAL, CHECK, STRANGE, PLACES, DESKS, EXPLAIN, LOAD, BUILD, LAYOUT, TABLES, MAP,
    ];
    let tables = tables.into_iter().flatten();
    let mut cases: Vec<Case> = tables.map(|(name, line)| case(*name, *line)).collect();
    cases.extend(of_commands());
    cases.extend(of_parts());
    cases.extend(of_stops());
    cases
}

const COMMANDS: [&str; 9] = [
    "check", "explain", "map", "load", "build", "layout", "parts", "frame", "numbers",
];

fn of_commands() -> impl Iterator<Item = Case> {
    COMMANDS.into_iter().flat_map(|name| {
        [
            case(format!("{name}-help"), format!("{name} --help")),
            case(format!("{name}-version"), format!("{name} -V")),
            case(format!("{name}-no-option"), format!("{name} --colour")),
        ]
    })
}

fn of_parts() -> impl Iterator<Item = Case> {
    PARTS.iter().flat_map(|part| {
        let (name, last) = (part.name, part.frame_count() - 1);
        let place = format!("--part {name} --frames 3:2");
        [
            case(format!("check-{name}"), format!("check {place} {name}.bit")),
            case(
                format!("check-{name}-full"),
                format!("check {name}-full.bit"),
            ),
            case(format!("explain-{name}"), format!("explain {name}.bit")),
            case(format!("frame-{name}"), format!("frame {name} {last}")),
            case(
                format!("frame-{name}-past"),
                format!("frame {name} {}", last + 1),
            ),
            case(
                format!("frame-{name}-json"),
                format!("frame --json {name} 0x40200"),
            ),
        ]
    })
}

fn of_stops() -> impl Iterator<Item = Case> {
    (1..=10).flat_map(|number| {
        let place = "--part XC3S50 --frames 3:2";
        let file = format!("stop{number}.bit");
        [
            case(
                format!("check-stop-{number}"),
                format!("check {place} {file}"),
            ),
            case(format!("explain-stop-{number}"), format!("explain {file}")),
        ]
    })
}

type Table = &'static [(&'static str, &'static str)];

const GENERAL: Table = &[
    ("nothing", ""),
    ("help", "--help"),
    ("help-short", "-h"),
    ("help-word", "help"),
    ("help-check", "help check"),
    ("help-unknown", "help ckeck"),
    ("help-two", "help check explain"),
    ("version", "--version"),
    ("version-short", "-V"),
    ("unknown-command", "ckeck XC3S50.bit"),
    ("empty-command", "''"),
    ("option-first", "--quiet check XC3S50.bit"),
];

const CHECK: Table = &[
    ("check-no-file", "check"),
    ("check-two", "check --frames 3:2 XC3S50.bit multiple.bit"),
    (
        "check-json",
        "check --json --frames 3:2 XC3S50.bit stop8.bit",
    ),
    (
        "check-json-seat",
        "check --json --desk good.desk --seat left XC3S50.bit",
    ),
    ("check-json-no-sync", "check --json zeros.bit"),
    ("check-json-missing", "check --json missing.bit XC3S50.bit"),
    (
        "check-json-whole-part",
        "check --json --frames 3:2 starting.bit",
    ),
    ("check-quiet", "check -q XC3S50.bit"),
    ("check-quiet-fail", "check --quiet -q stop8.bit"),
    ("check-quiet-json", "check -q --json XC3S50.bit"),
    ("check-quiet-missing", "check -q missing.bit"),
    ("check-stdin", "check - < XC3S50.bit"),
    ("check-stdin-json", "check --json - < XC3S50.bit"),
    ("check-dashes", "check -- XC3S50.bit"),
    ("check-missing", "check missing.bit"),
    ("check-missing-first", "check missing.bit XC3S50.bit"),
    ("check-folder", "check ."),
    ("check-empty-name", "check ''"),
    (
        "check-multiple",
        "check --part XC3S50 --frames 0:4 multiple.bit",
    ),
    (
        "check-outside",
        "check --part XC3S50 --frames 0:4 XC3S50.bit",
    ),
    (
        "check-no-frames",
        "check --part XC3S50 --frames 3:0 XC3S50.bit",
    ),
    (
        "check-whole-part",
        "check --part XC3S50 --frames 3:2 starting.bit",
    ),
    (
        "check-whole-part-no-range",
        "check --part XC3S50 starting.bit",
    ),
    (
        "check-full-in-range",
        "check --part XC3S50 --frames 0:368 XC3S50-full.bit",
    ),
    (
        "check-unchecked",
        "check --part XC3S50 --frames 3:1 unchecked.bit",
    ),
    ("check-other-part", "check --part XC3S50 XC3S200.bit"),
    ("check-no-part", "check no-idcode.bit"),
    ("check-no-part-named", "check --part XC3S50 no-idcode.bit"),
    ("check-late-idcode", "check late-idcode.bit"),
    ("check-mixed-idcode", "check mixed-idcode.bit"),
    (
        "check-mixed-idcode-named",
        "check --part XC3S200 mixed-idcode.bit",
    ),
    ("check-no-far", "check no-far.bit"),
    ("check-no-rcrc", "check no-rcrc.bit"),
    ("check-far-first", "check far-first.bit"),
    ("check-hidden", "check hidden.bit"),
    ("check-hidden-bytes", "check hidden-bytes.bit"),
    (
        "check-hidden-range",
        "check --part XC3S50 --frames 3:10 hidden.bit",
    ),
    ("check-wrong-idcode", "check wrong-idcode.bit"),
    ("check-twice", "check --frames 3:2 twice.bit"),
    ("check-trailing", "check trailing.bit"),
];

/// Files that are no good stream.
const STRANGE: Table = &[
    ("check-empty", "check empty.bit"),
    ("check-one-byte", "check one-byte.bit"),
    ("check-zeros", "check zeros.bit"),
    ("check-ones", "check ones.bit"),
    ("check-damaged-sync", "check damaged-sync.bit"),
    ("check-bit-flipped", "check bit-flipped.bit"),
    ("check-bits-reversed", "check bits-reversed.bit"),
    ("check-pairs-swapped", "check pairs-swapped.bit"),
    ("check-words-reversed", "check words-reversed.bit"),
    ("check-words-reversed-odd", "check words-reversed-odd.bit"),
    ("check-bit-header", "check bit-header.bit"),
    ("check-gzip", "check gzip.bit"),
    ("check-zip", "check zip.bit"),
    ("check-xz", "check xz.bit"),
    ("check-layout", "check good.layout"),
    ("check-refused-layout", "check kind3.layout"),
    ("check-image", "check XC3S50.img"),
    ("check-image-of-ones", "check ones.img"),
    ("check-hex-text", "check hex.txt"),
    ("check-junk", "check junk.bit"),
    ("check-cut-hunting", "check cut-hunting.bit"),
    ("check-cut-header", "check cut-header.bit"),
    ("check-cut-word", "check cut-word.bit"),
    ("check-cut-data", "check cut-data.bit"),
    ("check-cut-before-crc", "check cut-before-crc.bit"),
    ("check-cut-before-desync", "check cut-before-desync.bit"),
    ("explain-empty", "explain empty.bit"),
    ("explain-no-sync", "explain damaged-sync.bit"),
    (
        "explain-no-sync-part",
        "explain --part XC3S50 damaged-sync.bit",
    ),
    ("explain-bit-header", "explain bit-header.bit"),
    ("explain-gzip", "explain gzip.bit"),
    ("explain-layout", "explain good.layout"),
    ("explain-cut-header", "explain cut-header.bit"),
    ("explain-cut-word", "explain cut-word.bit"),
    ("explain-cut-data", "explain cut-data.bit"),
    ("explain-cut-before-crc", "explain cut-before-crc.bit"),
    ("explain-cut-before-desync", "explain cut-before-desync.bit"),
];

/// A part and a range by options.
const PLACES: Table = &[
    ("part-unknown", "check --part XC3S51 XC3S50.bit"),
    ("part-number", "check --part 0 XC3S50.bit"),
    ("part-number-8", "check --part 8 XC3S50.bit"),
    ("part-small-letters", "check --part xc3s50 XC3S50.bit"),
    ("part-plus", "check --part +0 XC3S50.bit"),
    ("part-empty", "check --part= XC3S50.bit"),
    ("part-attached", "check --part=XC3S50 XC3S50.bit"),
    ("part-no-value", "check XC3S50.bit --part"),
    ("part-twice", "check --part 0 --part 0 XC3S50.bit"),
    ("frames-one-number", "check --frames 3 XC3S50.bit"),
    ("frames-words", "check --frames a:b XC3S50.bit"),
    ("frames-negative", "check --frames -1:2 XC3S50.bit"),
    ("frames-plus", "check --frames +3:2 XC3S50.bit"),
    ("frames-too-large", "check --frames 0:4294967296 XC3S50.bit"),
    (
        "frames-largest",
        "check --part 0 --frames 4294967295:4294967295 XC3S50.bit",
    ),
    ("frames-three", "check --frames 1:2:3 XC3S50.bit"),
    ("frames-empty", "check --frames= XC3S50.bit"),
    ("frames-37", "check --part XC3S50 --frames 364:5 XC3S50.bit"),
    (
        "frames-37-unnamed",
        "check --frames 364:5 XC3S50.bit XC3S200.bit",
    ),
    (
        "frames-and-seat",
        "check --desk good.desk --seat left --frames 0:1 XC3S50.bit",
    ),
    ("seat-no-desk", "check --seat left XC3S50.bit"),
    ("quiet-value", "check --quiet=yes XC3S50.bit"),
    ("json-value", "check --json=1 XC3S50.bit"),
    ("short-unknown", "check -x XC3S50.bit"),
    ("option-of-another", "check --all XC3S50.bit"),
];

const DESKS: Table = &[
    ("desk", "check --desk good.desk --seat left XC3S50.bit"),
    ("desk-no-seat", "check --desk good.desk XC3S50.bit"),
    (
        "desk-and-part",
        "check --part 0 --desk good.desk --seat left XC3S50.bit",
    ),
    (
        "desk-other-part",
        "check --part XC3S200 --desk good.desk --seat left XC3S50.bit",
    ),
    (
        "desk-other-stream",
        "check --desk good.desk --seat left XC3S200.bit",
    ),
    (
        "desk-stdin",
        "check --desk - --seat left XC3S50.bit < good.desk",
    ),
    ("desk-missing", "check --desk missing.desk XC3S50.bit"),
    ("desk-folder", "check --desk . XC3S50.bit"),
    (
        "desk-unknown-seat",
        "check --desk good.desk --seat middle XC3S50.bit",
    ),
    (
        "desk-no-seats",
        "check --desk no-seats.desk --seat left XC3S50.bit",
    ),
    ("desk-empty", "check --desk empty.desk XC3S50.bit"),
    ("desk-keyword", "check --desk keyword.desk XC3S50.bit"),
    ("desk-no-part", "check --desk no-part.desk XC3S50.bit"),
    ("desk-part-twice", "check --desk part-twice.desk XC3S50.bit"),
    (
        "desk-part-unknown",
        "check --desk part-unknown.desk XC3S50.bit",
    ),
    (
        "desk-part-number-9",
        "check --desk part-number-9.desk XC3S50.bit",
    ),
    ("desk-part-bare", "check --desk part-bare.desk XC3S50.bit"),
    (
        "desk-part-two-words",
        "check --desk part-two-words.desk XC3S50.bit",
    ),
    ("desk-seat-bare", "check --desk seat-bare.desk XC3S50.bit"),
    (
        "desk-seat-no-frames",
        "check --desk seat-no-frames.desk XC3S50.bit",
    ),
    ("desk-seat-word", "check --desk seat-word.desk XC3S50.bit"),
    ("desk-seat-large", "check --desk seat-large.desk XC3S50.bit"),
    ("desk-seat-twice", "check --desk seat-twice.desk XC3S50.bit"),
    ("desk-seat-runs", "check --desk seat-runs.desk XC3S50.bit"),
    (
        "desk-seat-blanks",
        "check --desk seat-blanks.desk XC3S50.bit",
    ),
    (
        "desk-seat-past",
        "check --desk seat-past.desk --seat left XC3S50.bit",
    ),
    (
        "desk-seat-of-none",
        "check --desk seat-of-none.desk --seat left XC3S50.bit",
    ),
    ("desk-not-text", "check --desk XC3S50.bit XC3S50.bit"),
    (
        "desk-windows",
        "check --desk windows.desk --seat left XC3S50.bit",
    ),
    (
        "desk-marked",
        "check --desk marked.desk --seat left XC3S50.bit",
    ),
];

const EXPLAIN: Table = &[
    ("explain-no-file", "explain"),
    ("explain-two", "explain XC3S50.bit stop8.bit"),
    ("explain-missing", "explain missing.bit"),
    ("explain-stdin", "explain - < XC3S50.bit"),
    ("explain-quiet", "explain -q XC3S50.bit"),
    ("explain-quiet-stop", "explain -q stop8.bit"),
    ("explain-json", "explain --json XC3S50.bit"),
    ("explain-multiple", "explain multiple.bit"),
    ("explain-starting", "explain starting.bit"),
    ("explain-unchecked", "explain unchecked.bit"),
    ("explain-full", "explain XC3S50-full.bit"),
    ("explain-all", "explain --all XC3S50.bit"),
    ("explain-other-part", "explain --part XC3S50 XC3S200.bit"),
    ("explain-no-part", "explain no-idcode.bit"),
    ("explain-cut-mfwr", "explain cut-mfwr.bit"),
    (
        "explain-whole-part",
        "explain --part XC3S50 --frames 3:2 starting.bit",
    ),
    ("explain-twice", "explain twice.bit"),
    ("explain-trailing", "explain trailing.bit"),
    ("explain-odd", "explain odd.bit"),
    ("explain-flipped", "explain bit-flipped.bit"),
];

const LOAD: Table = &[
    ("load", "load XC3S50.bit -o made.img"),
    ("load-two", "load XC3S50.bit multiple.bit -o made.img"),
    (
        "load-on-image",
        "load --image ones.img multiple.bit -o made.img",
    ),
    ("load-stdin", "load - --output made.img < XC3S50.bit"),
    ("load-stdout", "load XC3S50.bit -o -"),
    ("load-quiet", "load -q XC3S50.bit -o made.img"),
    ("load-no-file", "load -o made.img"),
    ("load-no-target", "load XC3S50.bit"),
    ("load-missing", "load missing.bit -o made.img"),
    (
        "load-missing-image",
        "load --image missing.img XC3S50.bit -o made.img",
    ),
    (
        "load-23",
        "load --part XC3S200 --image ones.img XC3S200.bit -o made.img",
    ),
    (
        "load-23-length",
        "load --image one-byte.bit XC3S50.bit -o made.img",
    ),
    ("load-stop", "load stop8.bit -o made.img"),
    ("load-stop-first", "load stop8.bit XC3S50.bit -o made.img"),
    ("load-cut", "load cut-data.bit -o made.img"),
    (
        "load-cut-and-rest",
        "load cut-data.bit cut-data-rest.bit -o made.img",
    ),
    (
        "load-no-sync",
        "load --part XC3S50 damaged-sync.bit -o made.img",
    ),
    ("load-no-part", "load no-idcode.bit -o made.img"),
    ("load-wrong-idcode", "load wrong-idcode.bit -o made.img"),
    ("load-hidden", "load XC3S50.bit hidden.bit -o made.img"),
    ("load-nothing", "load empty.bit -o made.img"),
    (
        "load-other-part",
        "load --part XC3S50 XC3S200.bit -o made.img",
    ),
    ("load-two-parts", "load XC3S50.bit XC3S200.bit -o made.img"),
    ("load-into-folder", "load XC3S50.bit -o ."),
    ("load-into-no-folder", "load XC3S50.bit -o nowhere/made.img"),
];

const BUILD: Table = &[
    (
        "build",
        "build --part XC3S50 --frames 0:368 good.layout -o made.bit",
    ),
    (
        "build-seat",
        "build --desk good.desk --seat left left.layout -o made.bit",
    ),
    (
        "build-stdin",
        "build --part 0 --frames 0:368 - -o made.bit < good.layout",
    ),
    (
        "build-stdout",
        "build --part 0 --frames 0:0 no-steps.layout -o -",
    ),
    (
        "build-quiet",
        "build -q --part 0 --frames 0:368 good.layout -o made.bit",
    ),
    ("build-no-file", "build --part 0 --frames 0:368 -o made.bit"),
    (
        "build-two",
        "build --part 0 --frames 0:368 good.layout left.layout -o made.bit",
    ),
    (
        "build-no-target",
        "build --part 0 --frames 0:368 good.layout",
    ),
    (
        "build-no-part",
        "build --frames 0:368 good.layout -o made.bit",
    ),
    ("build-no-frames", "build --part 0 good.layout -o made.bit"),
    (
        "build-no-seat",
        "build --desk good.desk good.layout -o made.bit",
    ),
    (
        "build-missing",
        "build --part 0 --frames 0:368 missing.layout -o made.bit",
    ),
    (
        "build-42-empty",
        "build --part 0 --frames 0:368 empty.bit -o made.bit",
    ),
    (
        "build-41",
        "build --part 0 --frames 0:368 long-number.layout -o made.bit",
    ),
    (
        "build-42-data",
        "build --part 0 --frames 0:368 short.layout -o made.bit",
    ),
    (
        "build-47",
        "build --part 0 --frames 0:368 extra.layout -o made.bit",
    ),
    (
        "build-43",
        "build --part 0 --frames 0:368 kind3.layout -o made.bit",
    ),
    (
        "build-45",
        "build --part 0 --frames 0:368 falling.layout -o made.bit",
    ),
    (
        "build-44",
        "build --part 0 --frames 0:368 no-count.layout -o made.bit",
    ),
    (
        "build-41-large",
        "build --part 0 --frames 0:368 large-number.layout -o made.bit",
    ),
    (
        "build-42-number",
        "build --part 0 --frames 0:368 cut-number.layout -o made.bit",
    ),
    (
        "build-42-target",
        "build --part 0 --frames 0:368 no-target.layout -o made.bit",
    ),
    (
        "build-43-second",
        "build --part 0 --frames 0:368 second-kind3.layout -o made.bit",
    ),
    (
        "build-44-targets",
        "build --part 0 --frames 0:368 no-targets.layout -o made.bit",
    ),
    (
        "build-46",
        "build --part 0 --frames 0:368 many-steps.layout -o made.bit",
    ),
    (
        "build-34-target",
        "build --part 0 --frames 0:368 past-target.layout -o made.bit",
    ),
    (
        "build-34-targets",
        "build --part 0 --frames 0:368 past-targets.layout -o made.bit",
    ),
    (
        "build-32",
        "build --part 0 --frames 0:368 edition2.layout -o made.bit",
    ),
    (
        "build-33",
        "build --part 0 --frames 0:368 other-part.layout -o made.bit",
    ),
    (
        "build-34",
        "build --part 0 --frames 0:368 past.layout -o made.bit",
    ),
    (
        "build-35",
        "build --part 0 --frames 0:256 past-range.layout -o made.bit",
    ),
    (
        "build-35-target",
        "build --part 0 --frames 0:300 good.layout -o made.bit",
    ),
    (
        "build-37",
        "build --part 0 --frames 364:5 good.layout -o made.bit",
    ),
    (
        "build-stream",
        "build --part 0 --frames 0:368 XC3S50.bit -o made.bit",
    ),
    (
        "build-text",
        "build --part 0 --frames 0:368 hex.txt -o made.bit",
    ),
];

const LAYOUT: Table = &[
    ("layout", "layout good.layout"),
    ("layout-no-steps", "layout no-steps.layout"),
    ("layout-other-part", "layout other-part.layout"),
    ("layout-stdin", "layout - < good.layout"),
    (
        "layout-seat",
        "layout --desk good.desk --seat left left.layout",
    ),
    ("layout-quiet", "layout -q good.layout"),
    ("layout-no-file", "layout"),
    ("layout-missing", "layout missing.layout"),
    ("layout-43", "layout kind3.layout"),
    ("layout-42-empty", "layout empty.bit"),
    ("layout-45", "layout --frames 0:4 falling.layout"),
    ("layout-47", "layout extra.layout"),
    ("layout-32", "layout edition2.layout"),
    ("layout-33", "layout --part XC3S50 other-part.layout"),
    ("layout-33-unknown", "layout device9.layout"),
    ("layout-34", "layout past.layout"),
    ("layout-35", "layout --frames 0:256 past-range.layout"),
    ("layout-37", "layout --frames 364:5 good.layout"),
    ("layout-stream", "layout XC3S50.bit"),
];

const TABLES: Table = &[
    ("parts", "parts"),
    ("parts-json", "parts --json"),
    ("parts-quiet", "parts -q"),
    ("parts-more", "parts XC3S50"),
    ("frame-address", "frame XC3S400 00120200"),
    ("frame-address-0x", "frame XC3S400 0x02000400"),
    ("frame-address-ignored", "frame XC3S400 FA0005FF"),
    ("frame-address-none", "frame XC3S400 06000000"),
    ("frame-address-long", "frame XC3S400 0x123456789"),
    ("frame-neither", "frame XC3S400 left"),
    ("frame-negative", "frame XC3S400 -1"),
    ("frame-too-large", "frame XC3S400 4294967296"),
    ("frame-part-unknown", "frame XC3S51 0"),
    ("frame-part-number-9", "frame 9 1"),
    ("frame-empty", "frame XC3S50 ''"),
    ("frame-no-part", "frame"),
    ("frame-no-number", "frame XC3S50"),
    ("frame-more", "frame XC3S50 0 1"),
    ("frame-quiet", "frame -q XC3S50 0"),
    ("numbers", "numbers"),
    ("numbers-stop", "numbers 8"),
    ("numbers-refusal", "numbers 36"),
    ("numbers-done", "numbers 0"),
    ("numbers-unknown", "numbers 11"),
    ("numbers-31", "numbers 31"),
    ("numbers-word", "numbers eight"),
    ("numbers-plus", "numbers +8"),
    ("numbers-empty", "numbers ''"),
    ("numbers-large", "numbers 4294967296"),
    ("numbers-more", "numbers 8 9"),
    ("numbers-quiet", "numbers -q"),
];

const MAP: Table = &[
    ("map", "map XC3S50.bit"),
    ("map-stop", "map stop8.bit"),
    ("map-no-sync", "map damaged-sync.bit"),
    ("map-image", "map --image XC3S50.img"),
    ("map-svg", "map XC3S50.bit --svg made.svg"),
    (
        "map-html",
        "map --desk good.desk --seat left XC3S50.bit --html made.html",
    ),
    ("map-range", "map --part XC3S50 --frames 4:3 XC3S50.bit"),
    ("map-largest", "map --frames 3:30 XC3S5000.bit"),
    ("map-quiet", "map -q XC3S50.bit --svg made.svg"),
    ("map-image-range", "map --image ones.img --frames 360:8"),
    ("map-23", "map --image one-byte.bit"),
    ("map-23-part", "map --part XC3S200 --image ones.img"),
    ("map-37", "map --frames 364:5 XC3S50.bit"),
    ("map-no-part", "map no-idcode.bit"),
    ("map-desk-no-seat", "map --desk good.desk XC3S50.bit"),
    ("map-both", "map --image ones.img XC3S50.bit"),
    ("map-two-standard", "map XC3S50.bit --svg - --html -"),
    ("map-no-file", "map"),
];
