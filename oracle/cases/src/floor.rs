//! Costs on a plain floor, addressed by x and y.

/// A floor of columns by rows sectors with its costs by floor number.
#[derive(Clone)]
pub struct Floor {
    pub columns: usize,
    pub rows: usize,
    pub costs: Vec<u8>,
}

impl Floor {
    /// All cells at cost 1.
    pub fn open(columns: usize, rows: usize) -> Self {
        let costs = vec![1; columns * rows * 100];
        Floor {
            columns,
            rows,
            costs,
        }
    }

    pub fn width(&self) -> usize {
        self.columns * 10
    }

    pub fn height(&self) -> usize {
        self.rows * 10
    }

    /// The floor number of the cell at x, y.
    pub fn number(&self, x: usize, y: usize) -> usize {
        let sector = x / 10 * self.rows + y / 10;
        sector * 100 + y % 10 * 10 + x % 10
    }

    pub fn set(&mut self, x: usize, y: usize, cost: u8) {
        let number = self.number(x, y);
        self.costs[number] = cost;
    }

    pub fn block(&mut self, x: usize, y: usize) {
        self.set(x, y, 255);
    }

    pub fn is_open(&self, x: usize, y: usize) -> bool {
        self.costs[self.number(x, y)] != 255
    }
}
