//! The modules of docs/src that the calls of document 01 need.

pub mod dimensions;
pub mod fields;
pub mod portal;
pub mod route;
pub mod sectors;
pub mod utilities;
