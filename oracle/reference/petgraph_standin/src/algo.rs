//! The search.

pub mod astar;

pub use astar::astar;
