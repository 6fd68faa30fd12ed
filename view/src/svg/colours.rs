//! Colours of all but costs.

pub const INK: &str = "#24292f";
pub const FAINT: &str = "#57606a";
pub const PAPER: &str = "#ffffff";
pub const WALL: &str = "#3d434b";
pub const CLOSED: &str = "url(#closed)";
pub const WINDOW: &str = "#00786f";
pub const STEP_WINDOW: &str = "#7c3aed";
pub const ROUTE: &str = "#c2185b";
pub const END: &str = "#1a4fa0";
pub const REACHED: &str = "#d6e4f7";
pub const CLOSING: &str = "#d1242f";
pub const CHANGED: &str = "#0091ff";
