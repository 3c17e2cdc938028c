//! Colours say what the words say: on a terminal, in the picture and on the page.

use crate::common::streams::partial;
use crate::common::Scratch;
use crate::pictures::{drawn, well_formed};

/// A terminal's bold colours, and their end.
const GREEN: &str = "\u{1b}[1;32m";
const RED: &str = "\u{1b}[1;31m";
const CYAN: &str = "\u{1b}[1;36m";
const END: &str = "\u{1b}[0m";

/// The green and the red of pictures and pages.
const GREEN_FILL: &str = "#11693b";
const RED_FILL: &str = "#b3261e";

/// The stream stores frames 3 and 4: all that the first range has, and one outside the second.
const INSIDE: &str = "--part XC3S50 --frames 3:2";
const OUTSIDE: &str = "--part XC3S50 --frames 4:3";

fn scratch(name: &str) -> Scratch {
    let scratch = Scratch::new(name);
    scratch.write("good.bit", &partial(0));
    scratch
}

/// What a run on a terminal writes; none where there is no terminal to be had.
fn on_terminal(scratch: &Scratch, line: &str) -> Option<String> {
    scratch.on_terminal(line, &[]).map(|(_, text)| text)
}

#[test]
fn a_terminal_has_pass_in_green_and_fail_in_red() {
    let scratch = scratch("painted");
    for (line, start) in [
        (format!("check {INSIDE}"), format!("{GREEN}PASS{END} ")),
        (format!("check {OUTSIDE}"), format!("{RED}FAIL{END} ")),
        (format!("map {INSIDE}"), format!("{GREEN}PASS{END} ")),
        (format!("map {OUTSIDE}"), format!("{RED}FAIL{END} ")),
    ] {
        let Some(text) = on_terminal(&scratch, &format!("{line} good.bit")) else {
            return;
        };
        assert!(text.starts_with(&start), "{line}: {text:?}");
    }
}

#[test]
fn a_terminal_has_frames_inside_in_green_and_outside_in_red() {
    let scratch = scratch("painted-frames");
    let line = format!("map {OUTSIDE} good.bit");
    let texts = on_terminal(&scratch, &line).zip(on_terminal(&scratch, "map good.bit"));
    let Some((mut text, without_range)) = texts else {
        return;
    };
    // One more of each stands in the legend.
    for (colour, letter, count) in [(GREEN, "#", 2), (RED, "!", 2), (CYAN, "o", 3)] {
        let painted = format!("{colour}{letter}{END}");
        assert_eq!(text.matches(&painted).count(), count, "{letter}: {text:?}");
        text = text.replace(&painted, letter);
    }
    let bare = text.replace(&format!("{RED}FAIL{END}"), "FAIL");
    assert_eq!(bare, scratch.run(&line).text());
    let written = without_range.matches(&format!("{GREEN}#{END}")).count();
    assert_eq!(written, 3, "without a range: {without_range:?}");
}

/// The words of the badge in a picture, and the colour of the ground that stands before them.
fn badge_of_picture(svg: &str) -> (String, String) {
    let elements = well_formed(svg);
    let is_badge = |place: &usize| elements[*place].attribute("class") == Some("w");
    let badges: Vec<usize> = (0..elements.len()).filter(is_badge).collect();
    assert_eq!(badges.len(), 1, "{badges:?}");
    let (ground, words) = (&elements[badges[0] - 1], &elements[badges[0]]);
    let fill = ground.attribute("fill").expect("the ground has a colour");
    (words.text.clone(), fill.to_string())
}

/// The words and the class of the badge on a page.
fn badge_of_page(html: &str) -> (String, String) {
    let elements = well_formed(html);
    let class = |class: &str| class.strip_prefix("badge ").map(str::to_string);
    let badges = elements
        .iter()
        .filter_map(|it| Some((it.text.clone(), class(it.attribute("class")?)?)));
    let badges: Vec<(String, String)> = badges.collect();
    assert_eq!(badges.len(), 1, "{badges:?}");
    badges[0].clone()
}

/// Asserts that a page has one rule for a class, and its colour.
fn assert_rule(html: &str, class: &str, rule: &str) {
    let start = format!(".{class}{{");
    assert_eq!(html.matches(&start).count(), 1, "{start}");
    assert!(html.contains(&format!("{start}{rule}}}")), "{start}{rule}");
}

#[test]
fn badges_have_pass_in_green_and_fail_in_red() {
    let scratch = scratch("badges");
    for (place, answer, fill) in [(INSIDE, "PASS", GREEN_FILL), (OUTSIDE, "FAIL", RED_FILL)] {
        let arguments: Vec<&str> = place.split(' ').collect();
        let drawn = drawn(&scratch, &partial(0), "good.bit", &arguments);
        let (words, ground) = badge_of_picture(&drawn.svg);
        assert_eq!((words.as_str(), ground.as_str()), (answer, fill));
        let (words, class) = badge_of_page(&drawn.html);
        assert_eq!(words, answer);
        assert_rule(&drawn.html, &class, &format!("background:{fill}"));
    }
}

#[test]
fn answers_on_the_page_have_yes_in_green_and_no_in_red() {
    let scratch = scratch("answers");
    let arguments: Vec<&str> = OUTSIDE.split(' ').collect();
    let html = drawn(&scratch, &partial(0), "good.bit", &arguments).html;
    let elements = well_formed(&html);
    // Of the seven questions one has the answer no: a frame is stored outside the range.
    for (words, count, class, fill) in [
        ("\u{2713} yes", 6, "yes", GREEN_FILL),
        ("\u{2717} NO", 1, "no", RED_FILL),
    ] {
        let answers = elements.iter().filter(|it| it.text == words);
        let classes: Vec<Option<&str>> = answers.map(|it| it.attribute("class")).collect();
        assert_eq!(classes, vec![Some(class); count], "{words}");
        assert_rule(&html, class, &format!("color:{fill}"));
    }
}
