//! A second, plain reading of document 01, and of document 02 as far as it has
//! landed: portal routes over a sectored trolley floor. Each module holds one
//! subject of 01, or a request of 02.
#![forbid(unsafe_code)]

pub mod build;
pub mod cells;
pub mod change;
pub mod directions;
pub mod file;
pub mod floor;
pub mod lines;
pub mod marks;
pub mod plan;
pub mod portals;
pub mod program;
pub mod refusal;
pub mod route;
pub mod scaling;
pub mod store;
pub mod windows;
pub mod written;

pub use build::build;
pub use cells::moves;
pub use change::change;
pub use file::{read_file, FileAnswer};
pub use floor::Floor;
pub use marks::marks_of;
pub use plan::{plan, PlanAnswer};
pub use portals::{graph, Graph, Portal};
pub use program::hallroute;
pub use route::{route, route_on, RouteAnswer, Step};
pub use scaling::scaled_costs;
pub use store::check_store;
pub use windows::{windows, Window, WindowsAnswer};
pub use written::{write_file, WrittenAnswer};
