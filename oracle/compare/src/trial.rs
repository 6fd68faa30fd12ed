//! One hall held by the router and by both builds of the Rust.

use calls::{Judge, Router, Window};
use reference_petgraph::Hall as Petgraph;
use reference_standin::Hall as Standin;

use crate::report::{Difference, Report};

/// Bytes behind a store's size: they must stay.
pub const TAIL: [u8; 5] = [0xa5; 5];

/// What a lent list of windows holds before a call.
pub const OLD_WINDOW: Window = Window {
    first: 201,
    last: 202,
    side: 203,
};

pub struct Trial<'a> {
    pub router: &'a dyn Router,
    /// The router's store, with the tail.
    pub store: Vec<u8>,
    /// The Rust with 01's stand-in for the search.
    pub standin: Standin,
    /// The Rust with the real petgraph.
    pub petgraph: Petgraph,
    pub case: u64,
    /// How many changes and routes this trial has made.
    pub changes: usize,
    pub routes: usize,
}

impl Trial<'_> {
    pub fn sectors(&self) -> usize {
        usize::from(self.store[0]) * usize::from(self.store[1])
    }

    pub fn rows(&self) -> usize {
        self.store[1].into()
    }

    pub fn size_name(&self) -> &'static str {
        match self.sectors() {
            1 => "1 sector",
            2..=4 => "2 to 4 sectors",
            5..=9 => "5 to 9 sectors",
            10..=25 => "10 to 25 sectors",
            26..=99 => "26 to 99 sectors",
            _ => "100 sectors",
        }
    }

    pub fn differ(&self, text: String, report: &mut Report) {
        report.differences.push(Difference {
            sectors: self.sectors(),
            case: self.case,
            changes: self.changes,
            routes: self.routes,
            text,
        });
    }

    /// The whole store, byte for byte, and the bytes behind it.
    pub fn compare_store(&self, report: &mut Report) {
        let owed = self.standin.store();
        report.count("stores compared", 1);
        report.count("bytes of stores compared", owed.len());
        if let Some(at) = first_difference(&[&owed[..], &TAIL].concat(), &self.store) {
            self.differ(format!("store byte {at}"), report);
        }
        if owed != self.petgraph.store() {
            self.differ("stores of the two builds of the Rust".into(), report);
        }
    }

    /// The windows of every sector, and the two refusals beside them.
    pub fn compare_windows(&self, report: &mut Report) {
        for sector in 0..self.sectors() {
            let owed = self.standin.windows(sector);
            if owed != self.petgraph.windows(sector) {
                self.differ(format!("windows of sector {sector}, two builds"), report);
            }
            report.count("sectors whose windows were compared", 1);
            report.count("windows compared", owed.len());
            self.compare_window_list(sector, &owed, owed.len() + 2, report);
            self.compare_window_list(sector, &owed, owed.len(), report);
            if !owed.is_empty() {
                self.compare_window_list(sector, &owed, owed.len() - 1, report);
            }
        }
        self.compare_window_list(self.sectors(), &[], 20, report);
    }

    /// One call with a lent list of this length.
    fn compare_window_list(
        &self,
        sector: usize,
        owed: &[Window],
        length: usize,
        report: &mut Report,
    ) {
        let mut list = vec![OLD_WINDOW; length];
        let mut owed_list = list.clone();
        let number = match sector >= self.sectors() {
            true => 26,
            false if owed.len() > length => 27,
            false => 0,
        };
        if number == 0 {
            owed_list[..owed.len()].copy_from_slice(owed);
        } else {
            report.count(format!("windows refused {number}"), 1);
        }
        let count = if number == 0 { owed.len() } else { 0 };
        let answer = self.router.windows(&self.store, sector, &mut list);
        if (answer.number, usize::from(answer.count)) != (number, count) || list != owed_list {
            let text = format!("windows of sector {sector}, room {length}: {answer:?} {list:?}");
            self.differ(format!("{text}, owed {number} {owed_list:?}"), report);
        }
    }

    /// Makes a change on all sides. The Rust panics where 01 says 21 or 22.
    pub fn compare_change(&mut self, floor_number: usize, cost: u8, report: &mut Report) {
        self.changes += 1;
        let before = self.store.clone();
        let number = self.router.change(&mut self.store, floor_number, cost);
        let changed = self.standin.change(floor_number, cost);
        if changed != self.petgraph.change(floor_number, cost) {
            self.differ("panics of the two builds of the Rust".into(), report);
        }
        let owed = match (changed, floor_number < self.sectors() * 100) {
            (true, _) => 0,
            (false, true) => 22,
            (false, false) => 21,
        };
        let what = if owed == 0 {
            "accepted".into()
        } else {
            format!("refused {owed}")
        };
        report.count("changes", 1);
        report.count(format!("changes {what}"), 1);
        if number != owed {
            let text = format!("change {floor_number} to {cost}: {number}, owed {owed}");
            self.differ(text, report);
        } else if owed != 0 && before != self.store {
            self.differ(format!("change refused {owed} alters the store"), report);
        }
        self.compare_store(report);
    }

    /// Base costs, scaled costs and marks are the whole state of the Rust: a hall
    /// made anew from them has the same portal graph.
    pub fn compare_graphs(&self, report: &mut Report) {
        let graph = self.standin.portal_graph();
        report.count("portal graphs compared", 1);
        report.count("portals compared", graph.portals.len());
        if graph != self.petgraph.portal_graph() {
            self.differ("portal graphs of the two builds of the Rust".into(), report);
        }
        if graph != Standin::from_store(&self.standin.store()).portal_graph() {
            self.differ("portal graph of the Rust's own store".into(), report);
        }
    }
}

/// The first place at which two lists are not alike.
pub fn first_difference(owed: &[u8], given: &[u8]) -> Option<usize> {
    if owed.len() != given.len() {
        return Some(owed.len().min(given.len()));
    }
    owed.iter()
        .zip(given)
        .position(|(owed, given)| owed != given)
}
