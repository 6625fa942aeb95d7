//! The journal on paper: the host behind `./print`. The page is the proved program's; this host hands it on, names the fault of a volume that the
//! program refuses, and draws the page as an SVG. The picture is made of the page and of nothing else.

pub mod calendar;
pub mod ground;
pub mod labels;
pub mod layout;
pub mod legend;
pub mod marks;
pub mod page;
pub mod panel;
pub mod picture;
pub mod printer;
pub mod refusal;
pub mod sensors;
pub mod svg;
pub mod ticks;
pub mod time_axis;
pub mod value_axis;
