//! A panel: one coefficient of one sensor, the opening and the entries as points that are joined by steps.

use crate::calendar::moment;
use crate::labels::{Area, Room};
use crate::layout::*;
use crate::marks::{mark, name, INK};
use crate::page::{History, Line, Method};
use crate::sensors::{limits, SENSORS};
use crate::svg::{placed, px, text_width, Svg};
use crate::time_axis::TimeAxis;
use crate::value_axis::ValueAxis;
use serve::fault::decimal;

const LABEL_HEIGHT: f64 = 11.0;

pub struct Panel<'a> {
    sensor: usize,
    coefficient: usize,
    history: &'a History,
    pub(crate) times: Option<&'a TimeAxis>,
    pub(crate) values: ValueAxis,
    pub(crate) limits: [f64; 2],
}

impl<'a> Panel<'a> {
    /// Sensor and coefficient count from 1; the heading begins at `top`.
    pub fn new(sensor: usize, coefficient: usize, history: &'a History, times: Option<&'a TimeAxis>, top: f64) -> Panel<'a> {
        let lines = std::iter::once(&history.opening).chain(&history.entries);
        let shown: Vec<f32> = lines.map(|line| line.coefficients[coefficient - 1]).collect();
        let limits = limits(sensor, coefficient);
        Panel {
            sensor,
            coefficient,
            history,
            times,
            values: ValueAxis::new(&shown, limits, top + HEADING, top + HEADING + PLOT),
            limits: limits.map(f64::from),
        }
    }

    pub fn draw(&self, svg: &mut Svg) {
        let names = [
            ("data-sensor", self.sensor.to_string()),
            ("data-coefficient", self.coefficient.to_string()),
        ];
        svg.open("g", &[&[("class", "panel".to_string())][..], &names].concat());
        self.heading(svg);
        self.ground(svg);
        self.value_ticks(svg);
        self.gauge(svg);
        self.steps(svg);
        self.points(svg);
        self.labels(svg);
        svg.close("g");
    }

    fn value(&self, line: &Line) -> f32 {
        line.coefficients[self.coefficient - 1]
    }

    fn heading(&self, svg: &mut Svg) {
        let y = self.values.top - 7.0;
        let name = SENSORS[self.sensor - 1].coefficients[self.coefficient - 1];
        let mut attributes = placed(MARGIN, y, "start", NORMAL);
        attributes.push(("font-weight", "bold".to_string()));
        svg.text("text", &attributes, &format!("Coefficient {}: {name}", self.coefficient));
        let opening = spelled(self.value(&self.history.opening));
        let said = match self.history.entries.last() {
            None => format!("opening {opening}, no entry"),
            Some(last) => format!("opening {opening}; last {}, entry {}", spelled(self.value(last)), last.index),
        };
        svg.text("text", &placed(PLOT_RIGHT, y, "end", SMALL), &said);
    }

    fn place(&self, line: &Line) -> (f64, f64) {
        let x = match (line.method, self.times) {
            (Method::Opening, _) | (_, None) => (OPENING_LEFT + OPENING_RIGHT) / 2.0,
            (_, Some(axis)) => axis.x(line.time),
        };
        (x, self.values.y(self.value(line).into()))
    }

    /// The corners of the line that joins the points.
    fn corners(&self) -> Vec<(f64, f64)> {
        let mut corners = vec![self.place(&self.history.opening)];
        for entry in &self.history.entries {
            let (x, y) = self.place(entry);
            let before = corners[corners.len() - 1].1;
            corners.extend([(x, before), (x, y)]);
        }
        corners
    }

    fn steps(&self, svg: &mut Svg) {
        let corners = self.corners();
        let (first, last) = (corners[0], corners[corners.len() - 1]);
        let mut path = format!("M{} {}", px(first.0), px(first.1));
        for pair in corners[1..].chunks_exact(2) {
            path.push_str(&format!("H{}V{}", px(pair[0].0), px(pair[1].1)));
        }
        let line = |class: &str, path: String| {
            [
                ("class", class.to_string()),
                ("d", path),
                ("fill", "none".to_string()),
                ("stroke", "#444".to_string()),
            ]
        };
        svg.empty("path", &line("steps", path));
        let path = format!("M{} {}H{}", px(last.0), px(last.1), px(PLOT_RIGHT));
        svg.empty(
            "path",
            &[&line("rest", path)[..], &[("stroke-dasharray", "1 3".to_string())]].concat(),
        );
    }

    /// Entries have smaller marks where there are many.
    fn radius(&self, method: Method) -> f64 {
        match self.history.entries.len() {
            _ if method == Method::Opening => 4.0,
            0..=40 => 4.0,
            41..=120 => 3.2,
            _ => 2.5,
        }
    }

    fn points(&self, svg: &mut Svg) {
        let width = if self.radius(Method::Direct) < 4.0 { "0.6" } else { "1" };
        svg.open(
            "g",
            &[
                ("class", "points".to_string()),
                ("stroke", INK.to_string()),
                ("stroke-width", width.to_string()),
            ],
        );
        for line in std::iter::once(&self.history.opening).chain(&self.history.entries) {
            let (x, y) = self.place(line);
            svg.titled_path(&mark(line.method, x, y, self.radius(line.method)), &self.title(line));
        }
        svg.close("g");
    }

    fn title(&self, line: &Line) -> String {
        let who = match line.method {
            Method::Opening => format!("opening of sensor {}", line.sensor),
            method => format!("entry {}, technician {}, {}", line.index, line.technician, name(method)),
        };
        format!(
            "{who}, time {} ({} UTC if 0 is 1970): {}",
            line.time,
            moment(line.time),
            spelled(self.value(line))
        )
    }

    /// The last entry and the first are labelled before the others.
    fn labels(&self, svg: &mut Svg) {
        let mut room = self.room();
        let entries = &self.history.entries;
        let count = entries.len();
        let order = (count.max(1) - 1..count).chain(0..count.max(1) - 1);
        let size = [("text-anchor", "middle".to_string()), ("font-size", px(SMALL))];
        svg.open("g", &[&[("class", "labels".to_string())][..], &size].concat());
        for entry in order.map(|at| &entries[at]) {
            let text = label(entry);
            if let Some(area) = room.beside(&self.around(entry), text_width(&text, SMALL), LABEL_HEIGHT) {
                let at = [("x", px((area.left + area.right) / 2.0)), ("y", px(area.bottom - 2.5))];
                svg.text("text", &at, &text);
            }
        }
        svg.close("g");
    }

    /// What marks and lines leave for labels.
    fn room(&self) -> Room {
        let mut room = Room::new(Area::new(PLOT_LEFT, self.values.top, PLOT_RIGHT, self.values.bottom));
        self.history.entries.iter().for_each(|entry| room.take(self.around(entry)));
        let corners = self.corners();
        corners.windows(2).for_each(|pair| room.take(Area::around(pair[0], pair[1], 0.5)));
        let last = corners[corners.len() - 1];
        room.take(Area::around(last, (PLOT_RIGHT, last.1), 0.5));
        for part in &self.values.parts {
            for limit in self.limits.into_iter().filter(|limit| part.shows(*limit)) {
                room.take(Area::around((PLOT_LEFT, part.y(limit)), (PLOT_RIGHT, part.y(limit)), 1.0));
            }
        }
        for pair in self.values.parts.windows(2) {
            room.take(Area::new(PLOT_LEFT, pair[1].bottom - 1.0, PLOT_RIGHT, pair[0].top + 1.0));
        }
        for pair in self.frames().windows(2) {
            room.take(Area::new(pair[0].1 - 1.0, self.values.top, pair[1].0 + 1.0, self.values.bottom));
        }
        room
    }

    /// The mark of a line, and a little more.
    fn around(&self, line: &Line) -> Area {
        let place = self.place(line);
        Area::around(place, place, 1.3 * self.radius(line.method) + 1.0)
    }
}

fn label(entry: &Line) -> String {
    match entry.technician {
        0 => entry.index.to_string(),
        technician => format!("{} by {technician}", entry.index),
    }
}

/// A coefficient as the shortest decimal that reads back to it, and as its 8 digits.
fn spelled(value: f32) -> String {
    format!("{} ({:08X})", decimal(value), value.to_bits())
}
