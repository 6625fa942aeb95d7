//! The picture: the legend, then for each sensor its panels and the axis of times below them.

use crate::calendar::date;
use crate::layout::*;
use crate::legend;
use crate::marks::{cut, INK};
use crate::page::{History, Page};
use crate::panel::Panel;
use crate::sensors::SENSORS;
use crate::svg::{placed, px, Svg};
use crate::time_axis::{Tick, TimeAxis};

/// The SVG of a page.
pub fn draw(page: &Page) -> String {
    let axis = TimeAxis::new(page.times(), PLOT_LEFT, PLOT_RIGHT, SMALL);
    let mut body = Svg::default();
    let mut y = legend::draw(&mut body, page) + 8.0;
    for (number, history) in page.histories.iter().enumerate() {
        y = sensor(&mut body, number + 1, history, axis.as_ref(), y);
    }
    let mut svg = Svg::default();
    svg.open(
        "svg",
        &[
            ("xmlns", "http://www.w3.org/2000/svg".to_string()),
            ("width", px(WIDTH)),
            ("height", px(y)),
            ("viewBox", format!("0 0 {} {}", px(WIDTH), px(y))),
            ("font-family", "DejaVu Sans, Arial, Helvetica, sans-serif".to_string()),
            ("fill", INK.to_string()),
        ],
    );
    svg.text("title", &[], legend::TITLE);
    svg.empty("rect", &[("width", px(WIDTH)), ("height", px(y)), ("fill", "#fff".to_string())]);
    let mut text = svg.into_text();
    text.insert_str(0, "<?xml version=\"1.0\" encoding=\"UTF-8\"?>\n");
    text.push_str(&body.into_text());
    text.push_str("</svg>\n");
    text
}

/// Draws a sensor from `y` on, and hands back where it ends.
fn sensor(svg: &mut Svg, sensor: usize, history: &History, axis: Option<&TimeAxis>, y: f64) -> f64 {
    svg.open("g", &[("class", "sensor".to_string()), ("data-sensor", sensor.to_string())]);
    heading(svg, sensor, history, y);
    let mut y = y + SENSOR;
    for coefficient in 1..=SENSORS[sensor - 1].coefficients.len() {
        Panel::new(sensor, coefficient, history, axis, y).draw(svg);
        y += PANEL;
    }
    times(svg, history, axis, y - PANEL + HEADING + PLOT);
    svg.close("g");
    y + AXIS
}

fn heading(svg: &mut Svg, sensor: usize, history: &History, y: f64) {
    let path = format!("M{} {}H{}", px(MARGIN), px(y), px(WIDTH - MARGIN));
    svg.empty("path", &[("d", path), ("stroke", INK.to_string())]);
    let entries = match history.entries.len() {
        0 => "no entry in this volume, so the opening stayed in force".to_string(),
        1 => "1 entry".to_string(),
        count => format!("{count} entries"),
    };
    let mut attributes = placed(MARGIN, y + 20.0, "start", LARGE);
    attributes.push(("font-weight", "bold".to_string()));
    svg.text(
        "text",
        &attributes,
        &format!("Sensor {sensor}, {}: {entries}", SENSORS[sensor - 1].name),
    );
}

/// The axis of times below the panels of a sensor, and the time of its opening.
fn times(svg: &mut Svg, history: &History, axis: Option<&TimeAxis>, y: f64) {
    svg.open("g", &[("class", "times".to_string())]);
    for (row, text) in ["seconds", "UTC if 0 is 1970"].into_iter().enumerate() {
        svg.text("text", &placed(CAPTIONS, y + 15.0 + 18.0 * row as f64, "end", SMALL), text);
    }
    let time = history.opening.time;
    let day = if time == 0 {
        "never calibrated".to_string()
    } else {
        date(time, 10)
    };
    let middle = (OPENING_LEFT + OPENING_RIGHT) / 2.0;
    for (row, text) in [time.to_string(), day, "opening".to_string()].iter().enumerate() {
        svg.text("text", &placed(middle, y + 15.0 + 18.0 * row as f64, "middle", SMALL), text);
    }
    match axis {
        None => svg.text(
            "text",
            &placed((PLOT_LEFT + PLOT_RIGHT) / 2.0, y + 15.0, "middle", SMALL),
            "no entry, so no times",
        ),
        Some(axis) => time_rows(svg, axis, y),
    }
    svg.close("g");
}

fn time_rows(svg: &mut Svg, axis: &TimeAxis, y: f64) {
    cut(svg, (OPENING_RIGHT + PLOT_LEFT) / 2.0, y);
    for pair in axis.parts.windows(2) {
        cut(svg, (pair[0].right + pair[1].left) / 2.0, y);
    }
    for part in &axis.parts {
        let attributes = [
            ("class", "part".to_string()),
            ("d", format!("M{} {}H{}", px(part.left), px(y), px(part.right))),
            ("stroke", INK.to_string()),
            ("data-first", part.first.to_string()),
            ("data-last", part.last.to_string()),
            ("data-first-x", part.first_x.to_string()),
            ("data-seconds-per-pixel", part.scale.to_string()),
        ];
        svg.empty("path", &attributes);
    }
    row(svg, "seconds", &axis.seconds(), y);
    row(svg, "dates", &axis.dates(), y + 18.0);
    let middle = (PLOT_LEFT + PLOT_RIGHT) / 2.0;
    svg.text("text", &placed(middle, y + 51.0, "middle", SMALL), "time of the calibration");
}

fn row(svg: &mut Svg, class: &str, ticks: &[Tick], y: f64) {
    svg.open(
        "g",
        &[
            ("class", class.to_string()),
            ("text-anchor", "middle".to_string()),
            ("font-size", px(SMALL)),
        ],
    );
    let path: String = ticks.iter().map(|tick| format!("M{} {}v4", px(tick.x), px(y))).collect();
    svg.empty("path", &[("d", path), ("stroke", INK.to_string())]);
    for tick in ticks {
        svg.text("text", &[("x", px(tick.x)), ("y", px(y + 15.0))], &tick.text);
    }
    svg.close("g");
}
