//! Damaged stores, call for call against the second reading: each answer and every byte
//! that was lent.

use calls::{Router, Window};
use cases::draw::{Draw, Use};
use cases::floor::Floor;
use cases::{changes, damage, halls, pairs, stores};

use crate::options::Options;
use crate::report::{Difference, Report};
use crate::routes::OLD_STEP;
use crate::second_router::Second;
use crate::trial::OLD_WINDOW;

/// One case with its stream of numbers.
struct Bytes<'a> {
    router: &'a dyn Router,
    seed: u64,
    case: u64,
    draw: Draw,
}

pub fn compare(router: &dyn Router, options: &Options, case: u64, report: &mut Report) {
    let mut bytes = Bytes {
        router,
        seed: options.seed,
        case,
        draw: Draw::new(options.seed, case, Use::Bytes),
    };
    report.count("damaged stores", 1);
    bytes.store(report);
}

impl Bytes<'_> {
    /// Reports answers or lent bytes that differ.
    fn check<T: PartialEq + std::fmt::Debug>(
        &self,
        call: &str,
        number: u8,
        (given, owed): (T, T),
        report: &mut Report,
    ) {
        report.count(format!("{call} with number {number}"), 1);
        if given != owed {
            report.differences.push(Difference {
                sectors: halls::hall(self.seed, self.case).sectors(),
                case: self.case,
                changes: 0,
                routes: 0,
                text: format!("{call}: {given:?}, second {owed:?}"),
            });
        }
    }

    fn store(&mut self, report: &mut Report) {
        let (mut store, floor) = stores::store(self.seed, self.case);
        let sectors = floor.costs.len() / 100;
        damage::damage_store(&mut store, sectors, &mut self.draw);
        let pair = (self.router.check_store(&store), Second.check_store(&store));
        self.check("store check", pair.1, pair, report);
        for sector in 0..=sectors {
            let room = self.draw.below(21);
            self.windows(&store, sector, room, report);
        }
        self.windows(&store, usize::MAX, 20, report);
        self.routes(&store, &floor, report);
        self.changes(&store, &floor, report);
    }

    /// Some routes with any room, now and then of a floor number too large.
    fn routes(&mut self, store: &[u8], floor: &Floor, report: &mut Report) {
        for _ in 0..4 {
            let (mut source, mut goal) = pairs::pair(floor, &mut self.draw);
            let past = self.draw.pick(&[floor.costs.len(), 65_536, usize::MAX]);
            match self.draw.below(20) {
                0 => source = past,
                1 => goal = past,
                _ => {}
            }
            let room = self.draw.pick(&[0, 1, 2, 3, 5, 1001]);
            let mut lent = [vec![OLD_STEP; room], vec![OLD_STEP; room]];
            let given = self.router.route(store, source, goal, &mut lent[0]);
            let owed = Second.route(store, source, goal, &mut lent[1]);
            let pair = ((given, &lent[0]), (owed, &lent[1]));
            self.check("route", owed.number, pair, report);
        }
    }

    /// Some changes in turn, now and then of a floor number too large.
    fn changes(&mut self, store: &[u8], floor: &Floor, report: &mut Report) {
        let mut lent = [store.to_vec(), store.to_vec()];
        for _ in 0..4 {
            let (cell, cost) = changes::change(floor, &mut self.draw);
            let given = self.router.change(&mut lent[0], cell, cost);
            let owed = Second.change(&mut lent[1], cell, cost);
            let pair = ((given, &lent[0]), (owed, &lent[1]));
            self.check("change", owed, pair, report);
        }
    }

    fn windows(&self, store: &[u8], sector: usize, room: usize, report: &mut Report) {
        let mut lent: [Vec<Window>; 2] = [vec![OLD_WINDOW; room], vec![OLD_WINDOW; room]];
        let given = self.router.windows(store, sector, &mut lent[0]);
        let owed = Second.windows(store, sector, &mut lent[1]);
        let pair = ((given, &lent[0]), (owed, &lent[1]));
        self.check("windows", owed.number, pair, report);
    }
}
