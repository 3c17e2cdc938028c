//! `check`: one verdict a file.

use crate::arguments::{Arguments, Flag};
use crate::desk::{self, NamedRange, Place};
use crate::effects::{Stop, WholePartAction};
use crate::failure::{Failure, Message};
use crate::input::{self, Input};
use crate::json;
use crate::runs::FrameSet;
use crate::verdict::{Question, Verdict};
use crate::words;
use std::ffi::OsStr;
use std::fmt::Write;

pub fn run(arguments: &Arguments) -> Result<(), Failure> {
    let files = arguments.some_operands("STREAM")?;
    let place = arguments.judged_place()?;
    let mut objects = Vec::new();
    let (mut all_pass, mut all_read) = (true, true);
    for file in files {
        match judged(file, &place) {
            Ok((input, verdict)) => {
                all_pass &= verdict.passes();
                match arguments.has(Flag::Json) {
                    true => objects.push(object(&input.file, &verdict)),
                    false => arguments.say(&text(&input.name, &verdict))?,
                }
            }
            // The other files still have their verdicts.
            Err(failure) => {
                objects.extend(failure.message().map(|it| error_object(file, it)));
                failure.tell();
                all_read &= failure.status() == crate::failure::NO;
                all_pass = false;
            }
        }
    }
    if arguments.has(Flag::Json) {
        arguments.say(&format!("{}\n", json::list(objects)))?;
    }
    match (all_read, all_pass) {
        (false, _) => Err(Failure::ToldTrouble),
        (true, false) => Err(Failure::Told),
        (true, true) => Ok(()),
    }
}

/// A file and its verdict.
fn judged(file: &OsStr, place: &Place) -> Result<(Input, Verdict), Failure> {
    let input = Input::read(file)?;
    let verdict = Verdict::of(&input.bytes, place);
    let judged = |part| place.judge_range(part, Some(&input.name));
    verdict.part.map_or(Ok(()), judged)?;
    Ok((input, verdict))
}

/// The verdict as lines: a reader who stops after the first has the answer.
fn text(name: &str, verdict: &Verdict) -> String {
    let mut text = String::new();
    let answer = verdict.painted();
    let place = desk::place_words(verdict.part, verdict.range.as_ref());
    // Writing to a string does not fail.
    let _ = writeln!(text, "{answer} {name}: {place}");
    for Question { holds, words, .. } in &verdict.questions {
        let mark = if *holds { "yes" } else { "NO " };
        let _ = writeln!(text, "  {mark}  {words}");
    }
    for line in verdict.notes() {
        let _ = writeln!(text, "  {line}");
    }
    text
}

fn runs(frames: &FrameSet) -> String {
    let pair = |(first, last)| json::list([first, last].map(|frame: u32| frame.to_string()));
    json::list(frames.runs().into_iter().map(pair))
}

fn stop_object(stop: &Stop) -> String {
    json::object(&[
        ("number", stop.number.to_string()),
        ("meaning", json::string(words::meaning(stop.number))),
        ("offset", stop.offset.to_string()),
        ("word", json::string(&format!("{:08X}", stop.word))),
        (
            "passing_word",
            json::optional(
                stop.passing
                    .map(|word| json::string(&format!("{word:08X}"))),
            ),
        ),
    ])
}

fn question_object(question: &Question) -> String {
    json::object(&[
        ("name", json::string(question.name)),
        ("holds", question.holds.to_string()),
        ("words", json::string(&question.words)),
    ])
}

fn action_object(action: &WholePartAction) -> String {
    json::object(&[
        ("what", json::string(&action.what)),
        ("offset", action.offset.to_string()),
        ("count", action.count.to_string()),
    ])
}

/// A file without a verdict keeps its place in the list.
fn error_object(file: &OsStr, message: &Message) -> String {
    json::object(&[
        ("file", json::string(&input::file_name(file))),
        ("verdict", json::optional(None)),
        ("error", json::string(&message.words)),
        (
            "number",
            json::optional(message.number.map(|number| number.to_string())),
        ),
    ])
}

fn range_object(range: &NamedRange) -> String {
    let seat = range.seat.as_deref().map(json::string);
    json::object(&[
        ("seat", json::optional(seat)),
        ("first", range.frames.first.to_string()),
        ("count", range.frames.count.to_string()),
    ])
}

/// The verdict for a program that reads it.
fn object(file: &str, verdict: &Verdict) -> String {
    let effects = &verdict.effects;
    let range = verdict.range.as_ref().map(range_object);
    json::object(&[
        ("file", json::string(file)),
        ("verdict", json::string(verdict.answer())),
        (
            "part",
            json::optional(verdict.part.map(|part| json::string(part.name()))),
        ),
        ("range", json::optional(range)),
        (
            "questions",
            json::list(verdict.questions.iter().map(question_object)),
        ),
        (
            "sync_offset",
            json::optional(effects.sync.map(|offset| offset.to_string())),
        ),
        (
            "stop",
            json::optional(effects.stop.as_ref().map(stop_object)),
        ),
        ("bytes", effects.length.to_string()),
        ("taken", effects.taken.to_string()),
        ("stored", runs(&effects.stored)),
        ("stored_outside", runs(&verdict.outside())),
        (
            "whole_part_actions",
            json::list(effects.whole_part.iter().map(action_object)),
        ),
        ("started", effects.started.to_string()),
    ])
}
