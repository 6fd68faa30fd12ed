//! Damaged files and stores, and arguments out of range: each number of 01, 28 and 29 of
//! document 02, and nothing altered by a refusal.

use std::panic::{AssertUnwindSafe, catch_unwind};

use calls::{Counted, Judge, Measures, Routed, Router, Step, Window, Written};
use cases::draw::{Draw, Use};
use cases::{damage, files, halls, pairs, repeats, stores};
use reference_standin::Hall as Standin;

use crate::options::Options;
use crate::refusals::{self, outcome, two_bytes};
use crate::report::{Difference, Report};
use crate::routes::OLD_STEP;
use crate::text;
use crate::trial::OLD_WINDOW;

/// One case with its stream of numbers.
struct Damaged<'a> {
    router: &'a dyn Router,
    seed: u64,
    case: u64,
    draw: Draw,
}

pub fn compare(router: &dyn Router, options: &Options, case: u64, report: &mut Report) {
    let mut damaged = Damaged {
        router,
        seed: options.seed,
        case,
        draw: Draw::new(options.seed, case, Use::Damage),
    };
    report.count("damaged cases", 1);
    damaged.file(report);
    damaged.build(report);
    damaged.store(report);
    damaged.program(report);
}

impl Damaged<'_> {
    fn hall(&self) -> halls::Hall {
        halls::hall(self.seed, self.case)
    }

    fn differ(&self, text: String, report: &mut Report) {
        report.differences.push(Difference {
            sectors: self.hall().sectors(),
            case: self.case,
            changes: 0,
            routes: 0,
            text,
        });
    }

    /// Counts the answer owed and reports another one.
    fn check<T: PartialEq + std::fmt::Debug>(
        &self,
        call: &str,
        number: u8,
        (given, owed): (T, T),
        report: &mut Report,
    ) {
        report.count(format!("{call} {}", outcome(number)), 1);
        if given != owed {
            self.differ(format!("{call}: {given:?}, owed {owed:?}"), report);
        }
    }

    /// A hall's file, now and then with a cell twice.
    fn hall_file(&mut self, hall: &halls::Hall) -> Vec<u8> {
        let mut bytes = files::file(hall, &mut self.draw);
        if self.draw.percent(30) {
            repeats::repeat(&mut bytes, &mut self.draw);
        }
        bytes
    }

    /// Read file, into a list of the right length or another.
    fn file(&mut self, report: &mut Report) {
        let hall = self.hall();
        let mut bytes = self.hall_file(&hall);
        damage::damage(&mut bytes, &mut self.draw);
        let cells = hall.floor.costs.len();
        let length = self
            .draw
            .pick(&[cells, cells, cells, cells, cells - 1, cells + 1, 0]);
        let mut base = vec![77; length];
        let owed = match refusals::file(&bytes, length) {
            Ok(accepted) => accepted,
            Err(number) => (
                Measures {
                    number,
                    ..Measures::default()
                },
                base.clone(),
            ),
        };
        let answer = self.router.read_file(&bytes, &mut base);
        self.check("read file", owed.0.number, ((answer, base), owed), report);
    }

    /// Build with measures, lists and stores that may not fit.
    fn build(&mut self, report: &mut Report) {
        let hall = self.hall();
        let mut measures = hall.measures();
        if self.draw.percent(40) {
            measures[self.draw.below(3)] = self.draw.pick(&[0, 1, 9, 10, 11, 200, 255]);
        }
        let mut base = hall.floor.costs.clone();
        if self.draw.percent(20) {
            base.resize(self.draw.pick(&[0, base.len() - 1, base.len() + 1, 100]), 1);
        }
        let sectors = usize::from(measures[0]) * usize::from(measures[1]);
        let size = 4 + 208 * sectors;
        let length = self.draw.pick(&[size, size, size + 9, size - 1, 0, 3]);
        let mut store = vec![77; length];
        let mut owed = (0, store.clone());
        match refusals::build(measures, base.len(), length) {
            Ok(()) => owed.1[..size].copy_from_slice(&Standin::build(measures, &base).store()),
            Err(number) => owed.0 = number,
        }
        let number = self.router.build(measures, &base, &mut store);
        self.check("build", owed.0, ((number, store), owed), report);
    }

    /// The calls that open with the store check.
    fn store(&mut self, report: &mut Report) {
        let (mut store, floor) = stores::store(self.seed, self.case);
        damage::damage_store(&mut store, floor.costs.len() / 100, &mut self.draw);
        let checked = refusals::store(&store);
        let sectors = checked.unwrap_or(1);
        let past = [0, 1, 99, 65_536].map(|past| 100 * sectors + past);
        self.change(&store, checked.err(), self.draw_of(&past), report);
        self.windows(&store, checked.err(), sectors, report);
        self.route(&store, checked, report);
        self.write(&store, report);
    }

    fn draw_of(&self, list: &[usize]) -> usize {
        list[self.case as usize % list.len()]
    }

    /// A change with a floor number too large.
    fn change(&self, store: &[u8], refused: Option<u8>, cell: usize, report: &mut Report) {
        let owed = refused.unwrap_or(21);
        let mut lent = store.to_vec();
        let number = self.router.change(&mut lent, cell, 255);
        self.check("change", owed, ((number, &lent[..]), (owed, store)), report);
    }

    /// Windows of a sector too large.
    fn windows(&self, store: &[u8], refused: Option<u8>, sector: usize, report: &mut Report) {
        let owed = refused.unwrap_or(26);
        let mut list: [Window; 20] = [OLD_WINDOW; 20];
        let answer = self.router.windows(store, sector, &mut list);
        let refusal = Counted {
            number: owed,
            count: 0,
        };
        let pair = ((answer, list), (refusal, [OLD_WINDOW; 20]));
        self.check("windows", owed, pair, report);
    }

    /// A route with source or goal too large, or inside one cell without room.
    fn route(&mut self, store: &[u8], checked: Result<usize, u8>, report: &mut Report) {
        let cells = 100 * checked.unwrap_or(1);
        let inside = self.draw.below(cells);
        let outside = cells + self.draw.pick(&[0, 1, 100, 65_536]);
        let (source, goal, room, number) = self.draw.pick(&[
            (outside, inside, 3, 23),
            (outside, outside, 3, 23),
            (inside, outside, 3, 24),
            (inside, outside, 0, 24),
            (inside, inside, 0, 25),
        ]);
        if checked.is_ok() && number != 25 && !rust_panics(store, source, goal) {
            self.differ(format!("{source} to {goal}: the Rust answers"), report);
        }
        let number = checked.err().unwrap_or(number);
        let mut list: Vec<Step> = vec![OLD_STEP; room];
        let answer = self.router.route(store, source, goal, &mut list);
        let refusal = Routed {
            number,
            ..Routed::default()
        };
        let pair = ((answer, list), (refusal, vec![OLD_STEP; room]));
        self.check("route", number, pair, report);
    }

    /// The store's floor as a file, to an output that has room for none, some or all of them.
    fn write(&self, store: &[u8], report: &mut Report) {
        let room = self.draw_of(&[0, 5, 50, 500, 5_000, 30_005]);
        let mut owed = (Written::default(), vec![77; room]);
        match refusals::written(store, room) {
            Ok(file) => {
                owed.0.length = file.len() as u32;
                owed.1[..file.len()].copy_from_slice(&file);
            }
            Err(number) => owed.0.number = number,
        }
        let mut lent = vec![77; room];
        let answer = self.router.write_file(store, &mut lent);
        self.check("write file", owed.0.number, ((answer, lent), owed), report);
    }

    /// The program on a damaged file with pairs behind it.
    fn program(&mut self, report: &mut Report) {
        let hall = self.hall();
        let mut input = self.hall_file(&hall);
        for _ in 0..self.draw.below(3) {
            pairs::put(pairs::pair(&hall.floor, &mut self.draw), &mut input);
        }
        damage::damage(&mut input, &mut self.draw);
        if self.draw.percent(3) {
            input.resize(65_535 + self.draw.below(4), 0);
        }
        let (number, owed) = program_text(&input);
        let given = self.router.hallroute(&input);
        let given = String::from_utf8_lossy(&given).into_owned();
        self.check("program", number, (given, owed), report);
    }
}

/// Where 01 says 23 or 24 the Rust panics.
fn rust_panics(store: &[u8], source: usize, goal: usize) -> bool {
    let hall = Standin::from_store(store);
    catch_unwind(AssertUnwindSafe(|| hall.route(source, goal))).is_err()
}

/// The number of the hall file, and what the program prints.
fn program_text(input: &[u8]) -> (u8, String) {
    if input.len() > 65_536 {
        return (0, "too long\n".into());
    }
    let count = input.get(3..5).map_or(0, two_bytes);
    let (file, pairs) = input.split_at(input.len().min(5 + 3 * count));
    let columns = usize::from(*file.first().unwrap_or(&0));
    let rows = usize::from(*file.get(1).unwrap_or(&0));
    match refusals::file(file, columns * rows * 100) {
        Err(number) => (number, format!("hall refused {number}\n")),
        Ok((measures, base)) => {
            let measures = [measures.columns, measures.rows, measures.scale];
            let hall = Standin::build(measures, &base);
            let asked: Vec<_> = pairs
                .chunks_exact(4)
                .map(|pair| (two_bytes(pair), two_bytes(&pair[2..])))
                .collect();
            (
                0,
                text::lines(&hall, columns * rows, &asked, pairs.len() % 4),
            )
        }
    }
}
