//! What a picture shows.

use crate::card::Card;
use crate::changes::Moment;
use crate::hall::Hall;

/// A hall, a card on it, and what is said of where they come from.
#[derive(Clone, Copy)]
pub struct Scene<'a> {
    pub hall: &'a Hall,
    pub card: Option<&'a Card>,
    pub moment: Moment<'a>,
    /// The name of the floor's file.
    pub name: Option<&'a str>,
    /// What was planned in metres.
    pub planned: Option<&'a str>,
    /// What is to be warned of.
    pub warnings: &'a [String],
}

impl<'a> Scene<'a> {
    /// A hall and its card alone.
    pub fn of(hall: &'a Hall, card: Option<&'a Card>) -> Scene<'a> {
        Scene {
            hall,
            card,
            moment: Moment::Only,
            name: None,
            planned: None,
            warnings: &[],
        }
    }
}
