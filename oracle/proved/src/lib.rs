//! The proved library, by the calls on bytes of the package `hall`, and the proved program `hallroute`.

mod program;

pub use hall::bytes::{
    FileAnswer, MeasuresAnswer, RouteAnswer, WindowsAnswer, build, change, check_store, plan,
    read_file, route, windows, write_file,
};
pub use program::hallroute;
