//! The second reading as a router.

use calls::{Counted, Measures, Routed, Router, Step, Window, Written};

pub struct Second;

impl Router for Second {
    fn plan(&self, [size_x, size_y, unit, radius]: [f32; 4]) -> Measures {
        let answer = second::plan(size_x, size_y, unit, radius);
        Measures {
            number: answer.number,
            columns: answer.columns,
            rows: answer.rows,
            scale: answer.scale,
        }
    }

    fn read_file(&self, file: &[u8], base: &mut [u8]) -> Measures {
        let answer = second::read_file(file, base);
        Measures {
            number: answer.number,
            columns: answer.columns,
            rows: answer.rows,
            scale: answer.scale,
        }
    }

    fn check_store(&self, store: &[u8]) -> u8 {
        second::check_store(store)
    }

    fn build(&self, [columns, rows, scale]: [u8; 3], base: &[u8], store: &mut [u8]) -> u8 {
        second::build(columns, rows, scale, base, store)
    }

    fn change(&self, store: &mut [u8], floor_number: usize, cost: u8) -> u8 {
        second::change(store, floor_number, cost)
    }

    fn windows(&self, store: &[u8], sector: usize, list: &mut [Window]) -> Counted {
        let mut lent: Vec<second::Window> = list.iter().map(lend_window).collect();
        let answer = second::windows(store, sector, &mut lent);
        for (entry, written) in list.iter_mut().zip(&lent) {
            *entry = window(written);
        }
        Counted {
            number: answer.number,
            count: answer.count,
        }
    }

    fn route(&self, store: &[u8], source: usize, goal: usize, list: &mut [Step]) -> Routed {
        let mut lent: Vec<second::Step> = list.iter().map(lend_step).collect();
        let answer = second::route(store, source, goal, &mut lent);
        for (entry, written) in list.iter_mut().zip(&lent) {
            *entry = step(written);
        }
        Routed {
            number: answer.number,
            steps: answer.steps,
            leg: answer.leg,
            run: answer.run,
        }
    }

    fn write_file(&self, store: &[u8], file: &mut [u8]) -> Written {
        let answer = second::write_file(store, file);
        Written {
            number: answer.number,
            length: answer.length,
        }
    }

    fn hallroute(&self, input: &[u8]) -> Vec<u8> {
        second::hallroute(input)
    }
}

fn window(from: &second::Window) -> Window {
    Window {
        first: from.first,
        last: from.last,
        side: from.side,
    }
}

fn lend_window(from: &Window) -> second::Window {
    second::Window {
        first: from.first,
        last: from.last,
        side: from.side,
    }
}

fn step(from: &second::Step) -> Step {
    Step {
        column: from.column,
        row: from.row,
        goal: from.goal,
        window: from.window.as_ref().map(window),
    }
}

fn lend_step(from: &Step) -> second::Step {
    second::Step {
        column: from.column,
        row: from.row,
        goal: from.goal,
        window: from.window.as_ref().map(lend_window),
    }
}
