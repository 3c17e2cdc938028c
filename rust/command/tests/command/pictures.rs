//! The pictures of `map`: well-formed, with every frame in its place, and not blank in a browser.

mod markup;
mod png;

use crate::common::streams::partial;
use crate::common::Scratch;
use markup::{elements, Element};
use seamwillow_tests::harness::tools::{has, ran, root, run};
use seamwillow_tests::independent::reference::{address_fields, LOOKUPS, PARTS};
use seamwillow_tests::independent::stream::full_configuration;
use std::collections::{BTreeMap, BTreeSet};
use std::fs;
use std::iter;
use std::path::Path;
use std::process::Command;

/// The smallest part and the largest.
const DEVICES: [u32; 2] = [0, 7];

/// A name that means something to XML, to HTML and to a terminal.
const HOSTILE: &str = "a<b>&\"'\u{1b}]]>.bit";

/// A picture as a file, and as a page.
pub struct Drawn {
    pub svg: String,
    pub html: String,
}

/// Draws a stream's frames; the exit status may be that of a verdict.
pub fn drawn(scratch: &Scratch, stream: &[u8], name: &str, arguments: &[&str]) -> Drawn {
    let file = scratch.path(name);
    fs::write(&file, stream).expect("a stream is written");
    let (svg, html) = (scratch.path("map.svg"), scratch.path("map.html"));
    let mut map = Command::new(env!("CARGO_BIN_EXE_seamwillow"));
    map.arg("map").args(arguments).arg(file);
    map.arg("--svg").arg(&svg).arg("--html").arg(&html);
    let output = ran(&mut map);
    let told = String::from_utf8_lossy(&output.stderr);
    assert!(
        matches!(output.status.code(), Some(0 | 1)) && told.is_empty(),
        "{told}"
    );
    let read = |file: &Path| fs::read_to_string(file).expect("the picture is written");
    Drawn {
        svg: read(&svg),
        html: read(&html),
    }
}

/// A full configuration of a part.
fn whole(device: u32) -> Vec<u8> {
    let part = &PARTS[device as usize];
    full_configuration(
        device,
        &vec![1; (part.frame_count() * part.frame_words()) as usize],
    )
}

pub fn well_formed(text: &str) -> Vec<Element> {
    elements(text).unwrap_or_else(|wrong| panic!("{wrong}"))
}

#[test]
fn pictures_and_pages_are_well_formed() {
    let scratch = Scratch::new("well-formed");
    for device in DEVICES {
        for arguments in [&[][..], &["--frames", "30:100"], &["--frames", "0:0"]] {
            let drawn = drawn(&scratch, &whole(device), HOSTILE, arguments);
            well_formed(&drawn.svg);
            well_formed(&drawn.html);
            let outside = ["http://", "https://", "src=", "@import", "url("];
            let asked = |text: &&str| drawn.html.replace("http://www.w3.org/", "").contains(text);
            assert_eq!(outside.iter().find(|text| asked(text)), None);
        }
    }
}

/// 001's Table 12: the columns of block 0 from the left, with the sides of TERM and IOI.
fn column(device: u32, block: u32, major: u32) -> &'static str {
    let clbs = iter::repeat_n("CLB", PARTS[device as usize].columns as usize);
    let left = ["GCLK", "TERM_L", "IOI_L"].into_iter();
    let mut names = left.chain(clbs).chain(["IOI_R", "TERM_R"]);
    match block {
        0 => names.nth(major as usize).expect("a column has a name"),
        1 => "Block RAM",
        _ => "Block RAM interconnect",
    }
}

/// What the cells of a part must tell where every frame is written.
fn expected_notes(device: u32) -> Vec<String> {
    let note = |number| {
        let (_, address) = LOOKUPS.frame_address(device, number);
        let [block, major, minor] = address_fields(address);
        let column = column(device, block, major);
        format!(
            "frame {number}: block {block} major {major} minor {minor}, {column}\n\
             address {address:08X}\nwritten"
        )
    };
    let frames = PARTS[device as usize].frame_count();
    (0..frames).map(note).collect()
}

/// What the cells of a picture tell, as they stand.
fn notes(text: &str) -> Vec<String> {
    let titles = well_formed(text)
        .into_iter()
        .filter(|it| it.name == "title");
    let titles = titles.map(|it| it.text);
    titles.filter(|it| it.starts_with("frame ")).collect()
}

#[test]
fn every_frame_has_a_cell_with_its_number_its_address_and_its_column() {
    let scratch = Scratch::new("cells");
    for device in DEVICES {
        let drawn = drawn(&scratch, &whole(device), "whole.bit", &[]);
        let (expected, svg, html) = (
            expected_notes(device),
            notes(&drawn.svg),
            notes(&drawn.html),
        );
        let mut all = expected.iter().zip(svg.iter().zip(&html));
        let other = all.find(|(it, told)| *told != (*it, *it));
        assert_eq!(other, None, "{device}");
        assert_eq!([svg.len(), html.len()], [expected.len(); 2]);
    }
}

/// How many cells have which symbol.
fn symbols(svg: &str) -> BTreeMap<String, usize> {
    let mut counts = BTreeMap::new();
    for element in well_formed(svg).iter().filter(|it| it.name == "use") {
        let symbol = element
            .attribute("href")
            .expect("a symbol is named")
            .to_string();
        *counts.entry(symbol).or_default() += 1;
    }
    counts
}

#[test]
fn what_happens_to_a_frame_shows_without_colour() {
    let scratch = Scratch::new("symbols");
    let pupil = fs::read(root().join("examples/pupil.bit")).expect("there is an example");
    // Seven frames are written: one in this range, whose other frame is kept.
    let drawn = drawn(&scratch, &pupil, "pupil.bit", &["--frames", "64:2"]);
    // One swatch a category stands in the legend.
    let counts = [
        ("#f-in", 1 + 1),
        ("#f-kept", 1 + 1),
        ("#f-other", 360 + 1),
        ("#f-out", 6 + 1),
    ];
    let counts = counts.map(|(symbol, count)| (symbol.to_string(), count));
    assert_eq!(symbols(&drawn.svg), BTreeMap::from(counts));
    let shapes: Vec<String> = drawn
        .svg
        .split("<symbol")
        .skip(1)
        .map(without_colour)
        .collect();
    let distinct: BTreeSet<&String> = shapes.iter().collect();
    assert_eq!(distinct.len(), shapes.len(), "{shapes:?}");
}

/// A symbol's shapes, whatever their names and colours.
fn without_colour(symbol: &str) -> String {
    let body = symbol.split("</symbol>").next().unwrap_or_default();
    let body = body.split_once('>').map_or("", |(_, body)| body);
    let is_colour = |word: &&str| word.contains("fill=") || word.contains("stroke=\"#");
    let words = body.split_whitespace().filter(|word| !is_colour(word));
    words.collect::<Vec<&str>>().join(" ")
}

/// The selectors that the page hides in print.
fn hidden_in_print(html: &str) -> Vec<&str> {
    let print = html.split("@media print{").skip(1);
    let rules = print.flat_map(|it| it.split('}').map_while(|rule| rule.split_once('{')));
    let hidden = rules.filter(|(_, rule)| rule.contains("display:none"));
    let selectors = hidden.flat_map(|(selectors, _)| selectors.split(','));
    selectors.map(str::trim).collect()
}

#[test]
fn notes_are_printed() {
    let scratch = Scratch::new("print");
    let html = drawn(&scratch, &partial(0), "good.bit", &[]).html;
    // Paper has no pointer, which the hint speaks of.
    assert_eq!(hidden_in_print(&html), [".hint"]);
    let elements = well_formed(&html);
    for words in ["stores 2 frames: 3-4", "was not asked"] {
        let is_it = |it: &&Element| it.name == "p" && it.text.contains(words);
        let notes: Vec<&Element> = elements.iter().filter(is_it).collect();
        let classes = notes.iter().map(|it| it.attribute("class"));
        assert_eq!(classes.collect::<Vec<_>>(), [Some("note")], "{words}");
    }
}

/// The page of a part in Debian's browser.
fn photographed(scratch: &Scratch, device: u32) -> png::Picture {
    drawn(
        scratch,
        &whole(device),
        "whole.bit",
        &["--frames", "30:100"],
    );
    let file = scratch.path("page.png");
    let mut browser = Command::new("chromium");
    browser.args([
        "--headless",
        "--no-sandbox",
        "--disable-gpu",
        "--window-size=1500,1300",
    ]);
    browser.arg(format!(
        "--user-data-dir={}",
        scratch.path("browser").display()
    ));
    browser.arg(format!("--screenshot={}", file.display()));
    browser.arg(format!("file://{}", scratch.path("map.html").display()));
    run(&mut browser);
    png::read(&fs::read(file).expect("the screenshot is written"))
}

#[test]
fn screenshot() {
    if !has("chromium", "screenshot (rust/command/tests/pictures)") {
        return;
    }
    for device in DEVICES {
        let scratch = Scratch::new(&format!("screenshot-{device}"));
        let picture = photographed(&scratch, device);
        assert_eq!(picture.pixels.len(), picture.width * picture.height);
        let mut colours: BTreeMap<[u8; 3], usize> = BTreeMap::new();
        for pixel in &picture.pixels {
            *colours.entry(*pixel).or_default() += 1;
        }
        let most = colours.values().max().copied().unwrap_or_default();
        // The page's ground is its commonest colour, and the cells have others in plenty.
        let plenty = colours.values().filter(|&&count| count > 2000).count();
        assert!(
            plenty >= 4 && most < picture.pixels.len() * 9 / 10,
            "{plenty} colours, {most}"
        );
    }
}
