//! Floors written back as hall files, against the second reading: the answer and every byte
//! of the output; and what a written file owes: it is read back, and no other floor has it.

use calls::Router;
use cases::draw::Draw;
use cases::written::{self, Drawn, Made, OTHERS};

use crate::options::Options;
use crate::refusals::outcome;
use crate::report::{Difference, Report};
use crate::second_router::Second;
use crate::trial::{TAIL, first_difference};

/// The longest file: 10,000 entries.
const LONGEST: usize = 5 + 3 * 10_000;

/// One case.
struct Writing<'a> {
    router: &'a dyn Router,
    case: u64,
    sectors: usize,
    /// How the store is made.
    kind: &'static str,
    /// What lent bytes hold before a call: not the same in every case, so that a byte which
    /// is left unwritten shows.
    old: u8,
}

pub fn compare(router: &dyn Router, options: &Options, case: u64, report: &mut Report) {
    let mut drawn = written::drawn(options.seed, case);
    let writing = Writing {
        router,
        case,
        sectors: drawn.hall.sectors(),
        kind: drawn.kind,
        old: drawn.draw.bits() as u8,
    };
    let store = writing.store(&drawn, report);
    let length = length(&store, &drawn);
    let (output, room) = written::output(length, &mut drawn.draw);
    let (number, file) = writing.written(&store, room, report);
    count(&drawn, number, (output, room), report);
    if number == 0 {
        report.greatest("greatest length of a written file", length);
        report.count("files of 30,005 bytes", usize::from(length == LONGEST));
        writing.read_back(&store, &file, report);
        writing.others(&store, &file, &mut drawn.draw, report);
    }
}

/// How long the file is, or for a store that is refused, how long that of its floor is.
fn length(store: &[u8], drawn: &Drawn) -> usize {
    let answer = Second.write_file(store, &mut [0; LONGEST]);
    let named = drawn.hall.floor.costs.iter().filter(|cost| **cost != 1);
    match answer.number {
        0 => answer.length as usize,
        _ => 5 + 3 * named.count(),
    }
}

/// Counts a store by how it was made, its costs, its output and the number that is owed.
fn count(drawn: &Drawn, number: u8, (output, room): (&str, usize), report: &mut Report) {
    let outcome = outcome(number);
    report.count("stores to be written", 1);
    report.count(format!("stores {}", drawn.kind), 1);
    report.count(format!("base costs {}", drawn.costs), 1);
    report.count(format!("write file {outcome}"), 1);
    report.count(format!("outputs {output}"), 1);
    report.count(format!("outputs {output} and {outcome}"), 1);
    report.count("bytes of these outputs", room);
}

impl Writing<'_> {
    fn differ(&self, text: String, report: &mut Report) {
        report.differences.push(Difference {
            sectors: self.sectors,
            case: self.case,
            changes: 0,
            routes: 0,
            text: format!("store {}: {text}", self.kind),
        });
    }

    /// The store, by the router's own build and change unless it is lent. A change that is
    /// refused leaves it as it was.
    fn store(&self, drawn: &Drawn, report: &mut Report) -> Vec<u8> {
        let changes = match &drawn.made {
            Made::Lent(store) => return store.clone(),
            Made::Built(changes) => changes,
        };
        let mut store = self.built(drawn.hall.measures(), &drawn.hall.floor.costs);
        for (cell, cost) in changes {
            let number = self.router.change(&mut store, *cell, *cost);
            report.count(format!("changes before {}", outcome(number)), 1);
        }
        store
    }

    fn built(&self, measures: [u8; 3], base: &[u8]) -> Vec<u8> {
        let mut store = vec![self.old; 4 + 208 * (base.len() / 100)];
        let number = self.router.build(measures, base, &mut store);
        assert!(number == 0, "build is refused {number}");
        store
    }

    /// The number owed for an output of this length, and the file that the router writes. Its
    /// answer and every byte of the output are held to the second reading's.
    fn written(&self, store: &[u8], room: usize, report: &mut Report) -> (u8, Vec<u8>) {
        let mut lent = [vec![self.old; room], vec![self.old; room]];
        let given = self.router.write_file(store, &mut lent[0]);
        let owed = Second.write_file(store, &mut lent[1]);
        report.count("files asked for", 1);
        report.count("bytes of outputs compared", room);
        let byte = first_difference(&lent[1], &lent[0]);
        if given != owed || byte.is_some() {
            let text = format!("room {room}: {given:?}, second {owed:?}");
            self.differ(format!("{text}, first other byte {byte:?}"), report);
        }
        let [mut file, _] = lent;
        file.truncate(given.length as usize);
        (owed.number, file)
    }

    /// The file gives sizes, scale and base costs back, and the hall that is built from these
    /// has the same file.
    fn read_back(&self, store: &[u8], file: &[u8], report: &mut Report) {
        let cells = 100 * usize::from(store[0]) * usize::from(store[1]);
        let mut base = vec![self.old; cells];
        let read = self.router.read_file(file, &mut base);
        let measures = [read.columns, read.rows, read.scale];
        report.count("files read back", 1);
        if read.number != 0 || measures != store[..3] || base != store[4..4 + cells] {
            return self.differ(format!("read back: {read:?}"), report);
        }
        let again = self.built(measures, &base);
        report.count("halls built again", 1);
        if self.written(&again, file.len(), report).1 != file {
            self.differ("the hall built again has another file".into(), report);
        }
    }

    /// Two stores have the same file if and only if sizes, scale and base costs are equal.
    fn others(&self, store: &[u8], file: &[u8], draw: &mut Draw, report: &mut Report) {
        for (name, turn, same) in OTHERS {
            let mut other = [store, &TAIL].concat();
            if !turn(&mut other, draw) {
                continue;
            }
            let (_, of_other) = self.written(&other, file.len() + 3, report);
            let files = if same { "the same file" } else { "other files" };
            report.count(format!("pairs with {files}"), 1);
            report.count(format!("pairs with {files}: {name}"), 1);
            if (of_other == file) != same {
                self.differ(format!("{name}: not {files}"), report);
            }
        }
    }
}
