//! Seeded cases. Every case follows from its seed and its number alone, and the
//! first entries of a list do not depend on how many are asked for.

pub mod changes;
pub mod damage;
pub mod draw;
pub mod files;
pub mod floor;
pub mod halls;
pub mod inputs;
pub mod kinds;
pub mod pairs;
pub mod plans;
pub mod repeats;
pub mod stores;
pub mod written;
