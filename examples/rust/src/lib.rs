//! Portal routes over a sectored trolley floor: the calls of document 01 (docs/01-scope.md) with requests 1 and 2 of document
//! 02 (docs/02-change-requests.md), as libhall.a has them.
//!
//! What each call does stands in include/hall.h. Here a lent list is a slice, a number other than 0 is a [`Refusal`], which
//! says what it means, and a [`Store`] owns its bytes. As in C, nothing is allocated but by [`Store::build`]. The module
//! [`bytes`] has the calls as C has them.

pub mod bytes;
mod calls;
mod declared;
mod entries;
mod store;
mod texts;

use std::error::Error;
use std::fmt;

pub use calls::{build, change, check_store, plan, read_file, route, windows, write_file};
pub use entries::{NO_WINDOW, Step, Window};
pub use store::Store;

/// The version of include/hall.h that this package declares; [`version`] is that of the library.
pub const VERSION: u32 = 3;
/// No route has more steps: a list with this room is never refused.
pub const MOST_STEPS: usize = 1_001;
/// No sector has more windows.
pub const MOST_WINDOWS: usize = 20;
/// No hall file has more bytes.
pub const MOST_FILE_BYTES: usize = 30_005;
/// A stack of this size is enough for a thread that makes any of the calls.
pub const STACK_BYTES: usize = 512 * 1024;
/// The cost of a blocked cell.
pub const BLOCKED: u8 = 255;

/// The version of the library: where it is not [`VERSION`], package and library do not belong together.
pub fn version() -> u32 {
    declared::hall_version()
}

/// The number of a refused call, 1 to 29. Nothing that was lent has altered.
#[derive(Clone, Copy, PartialEq, Eq, Debug)]
pub struct Refusal(pub u8);

impl Refusal {
    /// What the number means, in the words of documents 01 and 02.
    pub fn text(self) -> &'static str {
        texts::text(self.0)
    }
}

/// The number and what it means.
impl fmt::Display for Refusal {
    fn fmt(&self, out: &mut fmt::Formatter) -> fmt::Result {
        write!(out, "no {}, {}", self.0, self.text())
    }
}

impl Error for Refusal {}

/// A hall's sizes, the length of a cell, and the trolley's radius.
#[derive(Clone, Copy, PartialEq, Debug)]
pub struct Dimensions {
    pub size_x: f32,
    pub size_y: f32,
    pub unit: f32,
    pub radius: f32,
}

/// A hall's columns and rows of sectors, and the trolley's scale.
#[derive(Clone, Copy, PartialEq, Eq, Debug)]
pub struct Measures {
    pub columns: u8,
    pub rows: u8,
    pub scale: u8,
}

impl Measures {
    /// How many base costs the hall has.
    pub fn cells(self) -> usize {
        100 * usize::from(self.columns) * usize::from(self.rows)
    }

    /// How many bytes its store has.
    pub fn store_size(self) -> usize {
        4 + 208 * usize::from(self.columns) * usize::from(self.rows)
    }
}

/// What an accepted route call finds; the steps are the front of the lent list.
#[derive(Clone, Copy, PartialEq, Eq, Debug)]
pub enum Routed<'a> {
    Route {
        steps: &'a [Step],
        leg: u32,
        run: u32,
    },
    NoRoute,
}
