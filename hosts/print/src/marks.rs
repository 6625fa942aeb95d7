//! The marks of points: the method is told by the shape as well as by the colour.

use crate::page::Method;
use crate::svg::{px, Attribute, Svg};

/// The colour of lines, letters and outlines.
pub const INK: &str = "#111";

/// What a method is called.
pub fn name(method: Method) -> &'static str {
    match method {
        Method::Opening => "opening",
        Method::Direct => "method 0, direct",
        Method::OnePoint => "method 1, one point",
        Method::TwoPoints => "method 2, two points",
    }
}

/// The attributes of a mark around a place, from which its path begins.
pub fn mark(method: Method, x: f64, y: f64, radius: f64) -> [Attribute<'static>; 2] {
    let r = |factor: f64| px(factor * radius);
    let (shape, fill) = match method {
        Method::Opening => (format!("m0 {}l{1} {1} {2} {1} {2} {2}z", r(-1.3), r(1.3), r(-1.3)), "#fff"),
        Method::Direct => (format!("m{0} {0}h{1}v{1}h{2}z", r(-0.9), r(1.8), r(-1.8)), "#1b6ca8"),
        Method::OnePoint => (
            format!("m{0} 0a{1} {1} 0 1 0 {2} 0 {1} {1} 0 1 0 {3} 0z", r(-1.0), r(1.0), r(2.0), r(-2.0)),
            "#5fbf77",
        ),
        Method::TwoPoints => (format!("m0 {}l{} {}h{}z", r(-1.2), r(1.2), r(2.2), r(-2.4)), "#f5a623"),
    };
    [("d", format!("M{} {}{shape}", px(x), px(y))), ("fill", fill.to_string())]
}

/// Two slanted strokes where an axis is cut.
pub fn cut(svg: &mut Svg, x: f64, y: f64) {
    let path = format!("M{} {}l4 -10M{} {}l4 -10", px(x - 4.0), px(y + 5.0), px(x), px(y + 5.0));
    svg.empty("path", &[("class", "cut".to_string()), ("d", path), ("stroke", INK.to_string())]);
}
