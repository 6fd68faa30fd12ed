//! The calls of documents 01 and 02 with plain answers, whoever gives them.

pub mod best;

use std::any::Any;

/// First cell, last cell and side (0 N, 1 E, 2 S, 3 W) of a window.
#[derive(Clone, Copy, PartialEq, Eq, Debug, Default)]
pub struct Window {
    pub first: u8,
    pub last: u8,
    pub side: u8,
}

/// One step of a route.
#[derive(Clone, Copy, PartialEq, Eq, Debug, Default)]
pub struct Step {
    pub column: u8,
    pub row: u8,
    pub goal: u8,
    pub window: Option<Window>,
}

impl Window {
    pub fn from_bytes([first, last, side]: [u8; 3]) -> Window {
        Window { first, last, side }
    }

    pub fn bytes(&self) -> [u8; 3] {
        [self.first, self.last, self.side]
    }
}

impl Step {
    /// No window is 4, 0, 0, and nothing else: any other bytes come back as they were.
    pub fn from_bytes([column, row, goal, side, first, last]: [u8; 6]) -> Step {
        let none = [side, first, last] == [4, 0, 0];
        Step {
            column,
            row,
            goal,
            window: (!none).then_some(Window { first, last, side }),
        }
    }

    pub fn bytes(&self) -> [u8; 6] {
        let window = self.window.map_or([4, 0, 0], |w| [w.side, w.first, w.last]);
        let [side, first, last] = window;
        [self.column, self.row, self.goal, side, first, last]
    }
}

/// What plan and read file answer.
#[derive(Clone, Copy, PartialEq, Eq, Debug, Default)]
pub struct Measures {
    pub number: u8,
    pub columns: u8,
    pub rows: u8,
    pub scale: u8,
}

/// What windows answers.
#[derive(Clone, Copy, PartialEq, Eq, Debug, Default)]
pub struct Counted {
    pub number: u8,
    pub count: u8,
}

/// What route answers; "none" has number 0 and 0 steps.
#[derive(Clone, Copy, PartialEq, Eq, Debug, Default)]
pub struct Routed {
    pub number: u8,
    pub steps: u32,
    pub leg: u32,
    pub run: u32,
}

/// What write file answers; a refusal has length 0.
#[derive(Clone, Copy, PartialEq, Eq, Debug, Default)]
pub struct Written {
    pub number: u8,
    pub length: u32,
}

/// Whoever answers the calls on lent memory.
pub trait Router: Sync {
    fn plan(&self, values: [f32; 4]) -> Measures;
    fn read_file(&self, file: &[u8], base: &mut [u8]) -> Measures;
    /// The store check, which opens the calls on a store.
    fn check_store(&self, store: &[u8]) -> u8;
    fn build(&self, measures: [u8; 3], base: &[u8], store: &mut [u8]) -> u8;
    fn change(&self, store: &mut [u8], floor_number: usize, cost: u8) -> u8;
    fn windows(&self, store: &[u8], sector: usize, list: &mut [Window]) -> Counted;
    fn route(&self, store: &[u8], source: usize, goal: usize, list: &mut [Step]) -> Routed;
    /// The store's floor as a hall file, at the front of the lent output.
    fn write_file(&self, store: &[u8], file: &mut [u8]) -> Written;
    fn hallroute(&self, input: &[u8]) -> Vec<u8>;
}

/// A portal of the Rust: its sector number, its window and its midpoint's index.
#[derive(Clone, Copy, PartialEq, Eq, Debug)]
pub struct Portal {
    pub sector: usize,
    pub window: Window,
    pub midpoint: u8,
}

/// The Rust's portal graph: portals by sector, then N, E, S, W, then place;
/// for each portal its neighbours and the weights.
#[derive(Clone, PartialEq, Eq, Debug)]
pub struct PortalGraph {
    pub portals: Vec<Portal>,
    pub edges: Vec<Vec<(usize, u32)>>,
}

/// What the Rust answers to a plan: columns, rows, scale, or why it panicked.
pub type RustPlan = Result<(usize, usize, u32), String>;

/// The Rust in docs/src, with whichever search it was built.
pub trait Judge: Clone {
    fn plan(values: [f32; 4]) -> RustPlan;
    /// The hall built from base costs alone.
    fn build(measures: [u8; 3], base: &[u8]) -> Self;
    /// The hall whose whole state is this store; the store passes 01's check.
    fn from_store(store: &[u8]) -> Self;
    /// The store that 01 lays out for the present state.
    fn store(&self) -> Vec<u8>;
    /// Changes a cost; false if the Rust panicked, and then nothing is changed.
    fn change(&mut self, floor_number: usize, cost: u8) -> bool;
    fn windows(&self, sector: usize) -> Vec<Window>;
    fn route(&self, source: usize, goal: usize) -> Option<Vec<Step>>;
    fn portal_graph(&self) -> PortalGraph;
    /// Fewest moves between two cells of one sector, by the Rust's own graph and search.
    fn moves(&self, sector: usize, from: usize, to: usize) -> Option<u32>;
}

/// What a panic says.
pub fn panic_text(panic: &(dyn Any + Send)) -> String {
    let text = panic.downcast_ref::<String>().cloned();
    text.or_else(|| panic.downcast_ref::<&str>().map(|text| text.to_string()))
        .unwrap_or_default()
}
