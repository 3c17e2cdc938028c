//! One page with the picture, the verdict and the runs; it asks for nothing beside itself.

use super::markup::escaped;
use super::{svg, Category, Map, Run};
use crate::verdict::{Question, Verdict};
use crate::words::counted;
use std::fmt::Write;

const STYLE: &str = "\
:root{color-scheme:light}
*{box-sizing:border-box}
body{margin:0;background:#f3f5f7;color:#24292f;font:16px/1.5 system-ui,'Segoe UI','Helvetica Neue',Arial,sans-serif}
main{max-width:86rem;margin:0 auto;padding:2rem 1.25rem 3rem}
section,header{background:#fff;border:1px solid #d5dae0;border-radius:10px;padding:1.25rem 1.5rem;margin:0 0 1.25rem}
h1{font-size:1.5rem;line-height:1.3;margin:0;overflow-wrap:anywhere}
h2{font-size:1.1rem;margin:0 0 .75rem}
header p{margin:.5rem 0 0;color:#57606a}
.top{display:flex;gap:1rem;align-items:flex-start}
.badge{flex:none;border-radius:6px;padding:.2rem .8rem;font-weight:700;font-size:1.1rem;color:#fff;letter-spacing:.03em}
.pass{background:#11693b}
.fail{background:#b3261e}
.asked{list-style:none;margin:0;padding:0}
.asked li{display:flex;gap:.75rem;padding:.3rem 0;border-top:1px solid #eceff2;overflow-wrap:anywhere}
.asked li:first-child{border-top:0}
.asked span{flex:none;width:3.6rem;font-weight:700}
.yes{color:#11693b}
.no{color:#b3261e}
.legend{list-style:none;display:flex;flex-wrap:wrap;gap:.4rem 2rem;margin:0 0 1.5rem;padding:0}
.legend li,.what{display:flex;align-items:center;gap:.5rem}
.legend svg{width:18px;height:18px;flex:none}
.what svg{width:14px;height:14px;flex:none}
.scroll{overflow-x:auto}
.scroll:focus-visible{outline:2px solid #0b4a8f}
.scroll svg{display:block}
.hint,.note{color:#57606a;font-size:.9rem;margin:.75rem 0 0}
table{border-collapse:collapse;font-size:.9rem;font-variant-numeric:tabular-nums}
th,td{text-align:left;padding:.3rem 1.25rem .3rem 0;border-bottom:1px solid #eceff2;white-space:nowrap}
th{border-bottom:2px solid #d5dae0}
.r{text-align:right}
@page{size:landscape;margin:12mm}
@media print{
*{-webkit-print-color-adjust:exact;print-color-adjust:exact}
body{background:#fff;font-size:11pt}
main{max-width:none;padding:0}
section,header{border:0;padding:0}
.scroll{overflow:visible}
.scroll .map{max-width:100%;height:auto;break-inside:avoid}
.hint{display:none}
tr{break-inside:avoid}
}
";

/// The page.
pub fn page(map: &Map) -> String {
    let (title, header) = (escaped(&svg::title(map)), header(map));
    let asked = map.verdict.as_ref().map_or(String::new(), questions);
    let (picture, runs) = (picture(map), runs(map));
    format!(
        "<!DOCTYPE html>\n<html lang=\"en\">\n<head>\n<meta charset=\"utf-8\"/>\n\
         <meta name=\"viewport\" content=\"width=device-width, initial-scale=1\"/>\n\
         <title>{title}</title>\n<style>\n{STYLE}</style>\n</head>\n<body>\n<main>\n\
         {header}{asked}{picture}{runs}</main>\n</body>\n</html>\n"
    )
}

fn header(map: &Map) -> String {
    let name = escaped(&map.name);
    let badge = match map.answer() {
        Some(answer) => {
            let class = answer.to_lowercase();
            format!("<span class=\"badge {class}\">{answer}</span>")
        }
        None => String::new(),
    };
    let kind = match map.verdict {
        Some(_) => "Configuration stream, judged for the",
        None => "Memory image of the",
    };
    let (place, frames) = (escaped(&map.place()), map.part.figures.frames);
    let frames = counted(frames.into(), "frame");
    format!(
        "<header>\n<div class=\"top\">{badge}<h1>{name}</h1></div>\n\
         <p>{kind} {place}. The part has {frames}.</p>\n</header>\n"
    )
}

fn questions(verdict: &Verdict) -> String {
    let item = |Question { holds, words, .. }: &Question| {
        let (class, mark) = match holds {
            true => ("yes", "\u{2713} yes"),
            false => ("no", "\u{2717} NO"),
        };
        let words = escaped(words);
        format!("<li><span class=\"{class}\">{mark}</span>{words}</li>\n")
    };
    let items: String = verdict.questions.iter().map(item).collect();
    let note = |words: String| format!("<p class=\"note\">{}</p>\n", escaped(&words));
    let notes: String = verdict.notes().into_iter().map(note).collect();
    format!(
        "<section>\n<h2>May it be loaded?</h2>\n<ul class=\"asked\">\n{items}</ul>\n{notes}</section>\n"
    )
}

fn picture(map: &Map) -> String {
    let item = |&category: &Category| {
        let (swatch, label) = (swatch(category), escaped(map.label(category)));
        let count = map.frames(category).len();
        format!("<li>{swatch}<span><b>{count}</b> {label}</span></li>\n")
    };
    let legend: String = map.categories().iter().map(item).collect();
    let picture = svg::inline(map);
    format!(
        "<section>\n<h2>Frames by column</h2>\n<ul class=\"legend\">\n{legend}</ul>\n\
         <div class=\"scroll\" tabindex=\"0\" role=\"group\" aria-label=\"The picture\">\n\
         {picture}</div>\n<p class=\"hint\">Each square is one frame; point to it for its number, \
         its address and what happens to it. A column of block 1 stands as strips of 19 minors: \
         the number over a strip and the number before a row make the minor.</p>\n</section>\n"
    )
}

/// A cell on its own; its symbol is in the picture.
fn swatch(category: Category) -> String {
    let symbol = svg::symbol(category);
    format!(
        "<svg viewBox=\"0 0 12 12\" width=\"12\" height=\"12\" aria-hidden=\"true\">\
         <use href=\"#{symbol}\"/></svg>"
    )
}

fn runs(map: &Map) -> String {
    let runs = map.runs();
    let (heading, none, what) = match map.verdict {
        Some(_) => ("Written frames", "No frame is written.", "What happens"),
        None => (
            "Frames that are not blank",
            "Every frame is blank.",
            "What it holds",
        ),
    };
    if runs.is_empty() {
        return format!("<section>\n<h2>{heading}</h2>\n<p>{none}</p>\n</section>\n");
    }
    let mut rows = String::new();
    for run in &runs {
        rows.push_str(&row(map, run));
    }
    format!(
        "<section>\n<h2>{heading}</h2>\n<div class=\"scroll\">\n<table>\n<thead><tr>\
         <th scope=\"col\">Column</th><th scope=\"col\" class=\"r\">Block</th>\
         <th scope=\"col\" class=\"r\">Major</th><th scope=\"col\">Minors</th>\
         <th scope=\"col\">Frames</th><th scope=\"col\">Addresses</th>\
         <th scope=\"col\" class=\"r\">Count</th><th scope=\"col\">{what}</th>\
         </tr></thead>\n<tbody>\n{rows}</tbody>\n</table>\n</div>\n</section>\n"
    )
}

fn row(map: &Map, run: &Run) -> String {
    let (first, last) = (run.first, run.last);
    let (from, to) = (first.fields, last.fields);
    let minors = span(&from.minor.to_string(), &to.minor.to_string());
    let frames = span(&first.number.to_string(), &last.number.to_string());
    let address = |address: u32| format!("{address:08X}");
    let addresses = span(&address(first.address), &address(last.address));
    let count = u64::from(last.number - first.number) + 1;
    let (name, swatch) = (escaped(first.column), swatch(run.category));
    let (label, of) = (escaped(map.label(run.category)), run.of);
    let mut row = String::from("<tr>");
    // Writing to a string does not fail.
    let _ = write!(row, "<td>{name}</td><td class=\"r\">{}</td>", from.block);
    let _ = write!(row, "<td class=\"r\">{}</td><td>{minors}</td>", from.major);
    let _ = write!(row, "<td>{frames}</td><td>{addresses}</td>");
    let _ = write!(row, "<td class=\"r\">{count} of {of}</td>");
    let _ = writeln!(
        row,
        "<td><span class=\"what\">{swatch}{label}</span></td></tr>"
    );
    row
}

/// From one to another, or one alone.
fn span(first: &str, last: &str) -> String {
    match first == last {
        true => first.to_string(),
        false => format!("{first}\u{2013}{last}"),
    }
}
