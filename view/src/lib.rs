//! Floors as planners draw them, hall files, and pictures of a floor with its windows and
//! a route's card. Scaled costs, windows and the card come from the proved library.
#![forbid(unsafe_code)]

pub mod card;
pub mod changes;
pub mod characters;
pub mod drawing;
pub mod floor;
pub mod gaps;
pub mod hall;
pub mod hall_file;
pub mod no_route;
pub mod plan;
pub mod problem;
pub mod repeats;
pub mod scene;
pub mod svg;
pub mod symbols;
pub mod table;
pub mod terminal;
pub mod walk;
pub mod words;
