//! The title and the legend, in plain words.

use crate::layout::{LARGE, MARGIN, NORMAL, WIDTH};
use crate::marks::{mark, name, INK};
use crate::page::{Method, Page};
use crate::svg::{placed, text_width, Svg};

pub const TITLE: &str = "Calibration coefficients of a water-quality sonde";
const LINE: f64 = 17.0;
const PARAGRAPH: f64 = 5.0;

/// Draws it from the top on, and hands back where it ends.
pub fn draw(svg: &mut Svg, page: &Page) -> f64 {
    let mut y = 34.0;
    svg.open("g", &[("class", "legend".to_string())]);
    let mut title = placed(MARGIN, y, "start", 20.0);
    title.push(("font-weight", "bold".to_string()));
    svg.text("text", &title, TITLE);
    y += 26.0;
    marks(svg, y);
    y += LINE + PARAGRAPH;
    for paragraph in paragraphs(page) {
        for line in wrapped(&paragraph) {
            svg.text("text", &placed(MARGIN, y, "start", NORMAL), &line);
            y += LINE;
        }
        y += PARAGRAPH;
    }
    svg.close("g");
    y
}

/// One mark of each kind with its name.
fn marks(svg: &mut Svg, y: f64) {
    let mut x = MARGIN + 6.0;
    for method in [Method::Opening, Method::Direct, Method::OnePoint, Method::TwoPoints] {
        svg.empty(
            "path",
            &[&mark(method, x, y - 4.0, 5.0)[..], &[("stroke", INK.to_string())]].concat(),
        );
        svg.text("text", &placed(x + 12.0, y, "start", NORMAL), name(method));
        x += 12.0 + text_width(name(method), NORMAL) + LARGE;
    }
}

fn counted(count: usize, one: &str, more: &str) -> String {
    match count {
        0 => format!("no {one}"),
        1 => format!("1 {one}"),
        _ => format!("{count} {more}"),
    }
}

fn paragraphs(page: &Page) -> Vec<String> {
    let entries = counted(page.entries(), "entry", "entries");
    let mut all = vec![
        format!(
            "Drawn from the page that the journal printer writes of one volume, and from nothing else; this page has {entries}. The page has each \
             coefficient as 8 hexadecimal digits, an IEEE 754 binary32; the decimals here are the shortest that read back to the same digits."
        ),
        "A point is an accepted calibration, an entry of the journal, and its shape is the method. A diamond in the column at the left is the opening: what \
         was in force when the volume was begun, with the time of the sensor's last calibration before that; time 0 means never."
            .to_string(),
        "The line joins the points in the order in which they were accepted: a coefficient stays in force up to the next entry. Times are what the clock said; \
         they may be equal or go back, and then the line goes back with them. Dotted: what was left in force at the end."
            .to_string(),
        "A label such as 17 by 1234 is entry 17 by technician 1234; 17 alone means that no number was given. Where points are crowded only some have \
         labels. Every point has a title, which a browser shows under the pointer: entry, technician, method, time, value and digits."
            .to_string(),
        "The light band is what the limits allow, both ends included; grey is outside, and a dashed line is a limit. A panel is as large as its points allow. \
         The narrow gauge at its right is all that the limits allow, and the black part of it is what the panel shows."
            .to_string(),
        "Times are seconds of the clock of the sonde's host. The volume doesn't hold what the clock's zero is: the dates in the second row are UTC if zero is \
         1970-01-01 00:00:00, and otherwise wrong. Where // cuts an axis, a range without points is left out; the scale is the same on both sides of a cut."
            .to_string(),
        "Coefficient 3 of sensors 1, 2 and 4 is always +0 and has no panel.".to_string(),
    ];
    if page.others > 0 {
        all.push(format!(
            "{} of methods that have no part in these coefficients: not drawn.",
            counted(page.others, "line", "lines")
        ));
    }
    all
}

/// Lines that fit the picture. Letters of a sentence are narrower than digits, by which `text_width` goes.
fn wrapped(text: &str) -> Vec<String> {
    let most = 1.2 * (WIDTH - 2.0 * MARGIN);
    let mut lines: Vec<String> = Vec::new();
    for word in text.split(' ') {
        match lines.last_mut() {
            Some(line) if text_width(&format!("{line} {word}"), NORMAL) <= most => {
                line.push(' ');
                line.push_str(word);
            }
            _ => lines.push(word.to_string()),
        }
    }
    lines
}
