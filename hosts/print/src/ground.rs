//! What lies below the points of a panel: the band between the limits, the grid, the axis of values and the gauge.

use crate::layout::*;
use crate::marks::{cut, INK};
use crate::panel::Panel;
use crate::svg::{placed, px, Svg};
use crate::time_axis::TimeAxis;
use crate::value_axis::ValuePart;
use serve::fault::decimal;

impl Panel<'_> {
    /// The left and right edges of the column of the opening, and of each part of the time axis.
    pub(crate) fn frames(&self) -> Vec<(f64, f64)> {
        let parts = self.times.map_or(vec![(PLOT_LEFT, PLOT_RIGHT)], |axis| {
            axis.parts.iter().map(|part| (part.left, part.right)).collect()
        });
        std::iter::once((OPENING_LEFT, OPENING_RIGHT)).chain(parts).collect()
    }

    /// The ground of each part of the axis of values, and the cut between two.
    pub(crate) fn ground(&self, svg: &mut Svg) {
        for part in &self.values.parts {
            let stated = [("data-low", part.low.to_string()), ("data-high", part.high.to_string())];
            let place = [("data-top", part.top.to_string()), ("data-bottom", part.bottom.to_string())];
            svg.open("g", &[&[("class", "ground".to_string())][..], &stated, &place].concat());
            for (left, right) in self.frames() {
                self.frame(svg, part, left, right);
            }
            svg.close("g");
        }
        for pair in self.values.parts.windows(2) {
            cut(svg, OPENING_LEFT, (pair[0].top + pair[1].bottom) / 2.0);
        }
    }

    /// Grey outside the limits, light in the band between them, with a dashed line at each limit that is in view.
    fn frame(&self, svg: &mut Svg, part: &ValuePart, left: f64, right: f64) {
        let area = |top: f64, bottom: f64| {
            [
                ("x", px(left)),
                ("y", px(top)),
                ("width", px(right - left)),
                ("height", px(bottom - top)),
            ]
        };
        let [low, high] = self.limits;
        svg.empty(
            "rect",
            &[&area(part.top, part.bottom)[..], &[("fill", "#bbb".to_string())]].concat(),
        );
        if low <= part.high && part.low <= high {
            let band = [("class", "band".to_string()), ("fill", "#f4f7f2".to_string())];
            svg.empty("rect", &[&area(part.y_in_view(high), part.y_in_view(low))[..], &band].concat());
        }
        self.grid(svg, part, left, right);
        for limit in self.limits.into_iter().filter(|limit| part.shows(*limit)) {
            let path = format!("M{} {}H{}", px(left), px(part.y(limit)), px(right));
            let line = [("stroke", INK.to_string()), ("stroke-dasharray", "6 3".to_string())];
            svg.empty("path", &[&[("class", "limit".to_string()), ("d", path)][..], &line].concat());
        }
        let frame = [("fill", "none".to_string()), ("stroke", "#777".to_string())];
        svg.empty("rect", &[&area(part.top, part.bottom)[..], &frame].concat());
    }

    fn grid(&self, svg: &mut Svg, part: &ValuePart, left: f64, right: f64) {
        let values = self.values.ticks();
        let rows = values.iter().filter(|tick| (part.top..=part.bottom).contains(&tick.y));
        let rows = rows.map(|tick| format!("M{} {}H{}", px(left), px(tick.y), px(right)));
        let times = self.times.map_or(Vec::new(), TimeAxis::seconds);
        let columns = times.iter().filter(|tick| (left..=right).contains(&tick.x));
        let columns = columns.map(|tick| format!("M{} {}V{}", px(tick.x), px(part.top), px(part.bottom)));
        let path: String = rows.chain(columns).collect();
        if !path.is_empty() {
            svg.empty(
                "path",
                &[("d", path), ("stroke", "#d9ddd6".to_string()), ("fill", "none".to_string())],
            );
        }
    }

    pub(crate) fn value_ticks(&self, svg: &mut Svg) {
        svg.open("g", &[("class", "values".to_string())]);
        for tick in self.values.ticks() {
            let path = format!("M{} {}h4", px(OPENING_LEFT - 4.0), px(tick.y));
            svg.empty("path", &[("d", path), ("stroke", "#777".to_string())]);
            let inside = tick.y.clamp(self.values.top + 4.0, self.values.bottom - 2.0);
            svg.text("text", &placed(CAPTIONS, inside + 3.5, "end", SMALL), &tick.text);
        }
        svg.close("g");
    }

    /// The whole range between the limits, and in black what of it is in view.
    pub(crate) fn gauge(&self, svg: &mut Svg) {
        let [low, high] = self.limits;
        let (top, bottom) = (self.values.top, self.values.bottom);
        let whole = ValuePart { low, high, top, bottom };
        let area = |top: f64, height: f64| {
            [
                ("x", px(GAUGE_LEFT)),
                ("y", px(top)),
                ("width", px(GAUGE_RIGHT - GAUGE_LEFT)),
                ("height", px(height)),
            ]
        };
        svg.open("g", &[("class", "gauge".to_string())]);
        let colours = [("fill", "#f4f7f2".to_string()), ("stroke", "#777".to_string())];
        svg.empty("rect", &[&area(top, bottom - top)[..], &colours].concat());
        for part in &self.values.parts {
            let (from, to) = (whole.y_in_view(part.high), whole.y_in_view(part.low));
            let height = (to - from).max(2.0);
            svg.empty(
                "rect",
                &[&area(from.min(bottom - height), height)[..], &[("fill", INK.to_string())]].concat(),
            );
        }
        for (limit, y) in [(high, top + 8.0), (low, bottom)] {
            svg.text(
                "text",
                &placed(GAUGE_TEXT, y, "start", SMALL),
                &format!("limit {}", decimal(limit as f32)),
            );
        }
        svg.close("g");
    }
}
