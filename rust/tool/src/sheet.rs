//! A page of all frames, to look through in a browser: one file that needs no other. What frames and files are called is text in
//! it, and nothing of it runs: the page allows no script but its own.

use crate::form::{Decoded, Picture};
use crate::picture::{self, Image, tinted};
use crate::queue::summary;
use crate::verdict::{Status, Verdict, grouped, percent};
use image::ColorType;
use image::codecs::jpeg::JpegEncoder;
use std::collections::BTreeMap;
use std::fmt::Write;

/// The longest side of a picture in a sheet, and how well it is kept, in per cent.
const SIDE: usize = 1_024;
const QUALITY: u8 = 82;
/// How much a tint covers, of 255.
const COVER: u8 = 200;

const STYLE: &str = include_str!("sheet.css");
const SCRIPT: &str = include_str!("sheet.js");
/// The script's SHA-256, by which the page allows it. `tests/sheet` says when it isn't the script's.
const SCRIPT_HASH: &str = include_str!("sheet.js.sha256");

/// A frame's part of the page.
pub fn card(name: &str, verdict: &Verdict, decoded: Option<Decoded>, how: Picture) -> String {
    let (name, why) = (text(name), text(&verdict.why));
    let status = key(verdict.status);
    let shown = decoded.filter(|decoded| !decoded.samples.is_empty());
    let picture = shown.map(|decoded| pictures(decoded, how)).unwrap_or_else(|| "<span>no picture</span>".into());
    let counts = decoded.map(counts).unwrap_or_default();
    format!(
        "<article class=\"{status}\" data-status=\"{status}\">\n<button type=\"button\" class=\"frame\" \
         title=\"show large\">{picture}</button>\n<h2>{name}</h2>\n<p class=\"verdict\"><b>{}</b> {why}</p>\n{counts}</article>\n",
        verdict.status.word()
    )
}

/// The frame as it is, and its marks to lay over it.
fn pictures(decoded: Decoded, how: Picture) -> String {
    let small = picture::marked(decoded, how, Vec::new()).shrunk(SIDE);
    let Image { width, ref pixels } = small.image;
    let height = small.image.height();
    let mut file = Vec::new();
    let encoded = JpegEncoder::new_with_quality(&mut file, QUALITY).encode(
        pixels.as_flattened(),
        width as u32,
        height as u32,
        ColorType::Rgb8,
    );
    encoded.expect("sides fit, and memory takes all");
    let mut text = format!("<img alt=\"\" src=\"data:image/jpeg;base64,{}\">", base64::encode(file));
    if small.marks.iter().any(|&mark| mark != 0) {
        let marks = base64::encode(overlay(&small.marks, width));
        write!(text, "<img class=\"marks\" alt=\"marks\" src=\"data:image/png;base64,{marks}\">").expect("a string");
    }
    text
}

/// The tints of the marks, and nothing where there is none.
fn overlay(marks: &[u8], width: usize) -> Vec<u8> {
    let mut file = Vec::new();
    let mut encoder = png::Encoder::new(&mut file, width as u32, (marks.len() / width) as u32);
    encoder.set_color(png::ColorType::Indexed);
    encoder.set_depth(png::BitDepth::Eight);
    encoder.set_palette((0..4).flat_map(|mark| tinted(150, mark)).collect::<Vec<u8>>());
    encoder.set_trns([0, COVER, COVER, COVER].as_slice());
    let written = encoder.write_header().and_then(|mut writer| writer.write_image_data(marks));
    written.expect("sizes fit, and memory takes all");
    file
}

fn counts(decoded: Decoded) -> String {
    let Decoded { coded, marks, width, height, .. } = decoded;
    let all = marks.bytes().len();
    let mut text = format!("<p>{} {} by {}", coded.coding, grouped(width), grouped(height));
    for (name, count) in [("of another picture", marks.count_old()), ("missing", marks.count_filler())] {
        if count > 0 {
            write!(text, "; {} samples {name} ({})", grouped(count), percent(count, all)).expect("a string");
        }
    }
    text + "</p>\n"
}

/// The whole page.
pub fn page(cards: &[String], counts: &BTreeMap<Status, usize>) -> String {
    let mut buttons = String::new();
    for status in Status::ALL {
        if let Some(&count) = counts.get(&status) {
            let word = status.word().to_lowercase();
            writeln!(
                buttons,
                "<button type=\"button\" data-show=\"{}\" aria-pressed=\"false\">{word} ({count})</button>",
                key(status)
            )
            .expect("a string");
        }
    }
    let hash = SCRIPT_HASH.trim();
    format!(
        "<!DOCTYPE html>\n<html lang=\"en\">\n<head>\n<meta charset=\"utf-8\">\n<meta http-equiv=\"Content-Security-Policy\" \
         content=\"default-src 'none'; img-src data:; style-src 'unsafe-inline'; script-src 'sha256-{hash}'\">\n\
         <meta name=\"viewport\" content=\"width=device-width\">\n<title>Contact sheet</title>\n<style>\n{STYLE}</style>\n</head>\n\
         <body>\n<header>\n<h1>Contact sheet</h1>\n<p>{}</p>\n<nav>\n<button type=\"button\" data-show=\"\" \
         aria-pressed=\"true\">all ({})</button>\n{buttons}<label><input type=\"checkbox\" id=\"marks\" checked> marks</label>\n\
         <span class=\"legend\"><i class=\"old\"></i> of another picture <i class=\"filler\"></i> missing \
         <i class=\"both\"></i> both</span>\n</nav>\n</header>\n<main>\n{}</main>\n<dialog>\n<div></div>\n<p></p>\n\
         <form method=\"dialog\"><button>close</button></form>\n</dialog>\n<script>{SCRIPT}</script>\n</body>\n</html>\n",
        text(summary(counts, 0).trim_end()),
        cards.len(),
        cards.concat()
    )
}

/// A status as JSON has it.
fn key(status: Status) -> String {
    status.word().to_lowercase().replace(' ', "_")
}

/// A text as it stands in a page.
fn text(text: &str) -> String {
    let mut safe = String::new();
    for c in text.chars() {
        match c {
            '&' => safe += "&amp;",
            '<' => safe += "&lt;",
            '>' => safe += "&gt;",
            '"' => safe += "&quot;",
            '\'' => safe += "&#39;",
            c => safe.push(c),
        }
    }
    safe
}

#[cfg(test)]
mod tests {
    use super::*;

    #[test]
    fn names_are_text() {
        let verdict = Verdict::new(Status::Unreadable, "a <b>");
        let card = card("<script>\"'&", &verdict, None, Picture::default());
        assert!(card.contains("<h2>&lt;script&gt;&quot;&#39;&amp;</h2>") && card.contains("a &lt;b&gt;"), "{card}");
        let page = page(&[card], &BTreeMap::from([(Status::Unreadable, 1)]));
        assert_eq!(page.matches("<script>").count(), 1);
        assert!(page.contains("data-show=\"unreadable\""));
    }
}
