//! Stands in for the part of bevy that docs/src names.

pub mod reflect {
    pub use bevy_derive::Reflect;
}

pub mod prelude {
    pub use crate::error;
    pub use bevy_derive::Reflect;
}

/// Bevy's log: none of the calls compared here gets to it.
#[macro_export]
macro_rules! error {
    ($($text:tt)*) => {
        eprintln!($($text)*)
    };
}
