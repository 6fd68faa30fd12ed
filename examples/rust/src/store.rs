//! A hall in bytes of its own.

use crate::{Measures, Refusal, Routed, Step, Window, calls};

/// A store that the store check accepts.
#[derive(Clone, PartialEq, Eq, Debug)]
pub struct Store(Vec<u8>);

impl Store {
    /// Builds a hall.
    pub fn build(measures: Measures, base: &[u8]) -> Result<Store, Refusal> {
        let mut bytes = vec![0; measures.store_size()];
        calls::build(measures, base, &mut bytes)?;
        Ok(Store(bytes))
    }

    /// A store from elsewhere, as [`Store::bytes`] gave it.
    pub fn from_bytes(bytes: Vec<u8>) -> Result<Store, Refusal> {
        calls::check_store(&bytes)?;
        Ok(Store(bytes))
    }

    pub fn bytes(&self) -> &[u8] {
        &self.0
    }

    /// Gives a cell a base cost.
    pub fn change(&mut self, floor_number: usize, cost: u8) -> Result<(), Refusal> {
        calls::change(&mut self.0, floor_number, cost)
    }

    /// Finds the route from one cell to another.
    pub fn route<'a>(
        &self,
        source: usize,
        goal: usize,
        list: &'a mut [Step],
    ) -> Result<Routed<'a>, Refusal> {
        calls::route(&self.0, source, goal, list)
    }

    /// Lists the windows of a sector, N, E, S, W.
    pub fn windows<'a>(
        &self,
        sector: usize,
        list: &'a mut [Window],
    ) -> Result<&'a [Window], Refusal> {
        calls::windows(&self.0, sector, list)
    }

    /// Writes the hall file of its floor, and gives it as the front of the lent bytes.
    pub fn write_file<'a>(&self, file: &'a mut [u8]) -> Result<&'a [u8], Refusal> {
        calls::write_file(&self.0, file)
    }
}
