//! `map`: which frames, column by column.

use crate::arguments::{unexpected, Arguments, Flag};
use crate::desk::Place;
use crate::failure::{Failure, Message};
use crate::guess;
use crate::image;
use crate::input::Input;
use crate::output;
use crate::picture::{html, svg, terminal, Map};
use crate::verdict::Verdict;

pub fn run(arguments: &Arguments) -> Result<(), Failure> {
    let targets = [Flag::Svg, Flag::Html].map(|flag| arguments.value(flag));
    let is_standard = |target: &Option<_>| target.is_some_and(output::is_standard);
    if targets.iter().all(is_standard) {
        let words = "--svg and --html cannot both go to standard output";
        return Err(Failure::usage(words));
    }
    let map = read(arguments)?;
    let [svg_file, html_file] = targets;
    if let Some(path) = svg_file {
        output::save_text(path, &svg::file(&map))?;
    }
    if let Some(path) = html_file {
        output::save_text(path, &html::page(&map))?;
    }
    if !targets.iter().any(is_standard) {
        arguments.say(&terminal::text(&map))?;
    }
    match map.verdict {
        Some(verdict) if !verdict.passes() => Err(Failure::Told),
        _ => Ok(()),
    }
}

/// The map of the stream or of the image that the arguments name.
fn read(arguments: &Arguments) -> Result<Map, Failure> {
    let Some(path) = arguments.value(Flag::Image) else {
        let file = arguments.operand("STREAM")?;
        let place = arguments.judged_place()?;
        return of_stream(Input::read(file)?, &place);
    };
    if let Some(word) = arguments.operands.first() {
        return Err(unexpected(word));
    }
    let place = arguments.place()?;
    let (part, input) = image::read(path, place.part)?;
    place.judge_range(part, Some(&input.name))?;
    Ok(Map::of_image(&input, part, place.range))
}

fn of_stream(input: Input, place: &Place) -> Result<Map, Failure> {
    let verdict = Verdict::of(&input.bytes, place);
    let refused = |words: String| Failure::Refused(Message::of_file(&input.name, words));
    if verdict.effects.sync.is_none() {
        return Err(Failure::Refused(guess::no_sync(&input)));
    }
    let unknown = "the part is unknown: no IDCODE was accepted; name it with --part";
    let part = verdict.part.ok_or_else(|| refused(unknown.to_string()))?;
    place.judge_range(part, Some(&input.name))?;
    Ok(Map::of_stream(&input.name, part, verdict))
}
