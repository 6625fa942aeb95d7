//! Where the parts of the picture stand, in pixels.

/// A browser that prints shrinks a wide picture to the paper, but not without limit: this width fits A4 and Letter.
pub const WIDTH: f64 = 1060.0;
pub const MARGIN: f64 = 14.0;
/// The right ends of the texts at the left of the panels.
pub const CAPTIONS: f64 = 112.0;
/// The column of the openings.
pub const OPENING_LEFT: f64 = 118.0;
pub const OPENING_RIGHT: f64 = 222.0;
/// What has a time.
pub const PLOT_LEFT: f64 = 236.0;
pub const PLOT_RIGHT: f64 = 942.0;
/// The whole range between the limits of a coefficient.
pub const GAUGE_LEFT: f64 = 956.0;
pub const GAUGE_RIGHT: f64 = 966.0;
pub const GAUGE_TEXT: f64 = 971.0;

/// A panel's heading, its plot, and the room below.
pub const HEADING: f64 = 22.0;
pub const PLOT: f64 = 130.0;
pub const PANEL: f64 = HEADING + PLOT + 12.0;
/// A sensor's heading, and the axis below its panels.
pub const SENSOR: f64 = 34.0;
pub const AXIS: f64 = 62.0;

/// Sizes of letters.
pub const SMALL: f64 = 10.0;
pub const NORMAL: f64 = 12.0;
pub const LARGE: f64 = 15.0;
