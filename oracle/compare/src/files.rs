//! Hall files, whole and damaged, read against the second reading: the answer and every
//! byte of the list.

use calls::Router;
use cases::files::{self, Drawn};
use cases::repeats;

use crate::options::Options;
use crate::refusals::outcome;
use crate::report::{Difference, Report};
use crate::second_router::Second;
use crate::trial::first_difference;

pub fn compare(router: &dyn Router, options: &Options, case: u64, report: &mut Report) {
    let file = files::drawn(options.seed, case);
    let mut lent = [vec![77; file.list], vec![77; file.list]];
    let given = router.read_file(&file.bytes, &mut lent[0]);
    let owed = Second.read_file(&file.bytes, &mut lent[1]);
    count(&file, owed.number, report);
    let byte = first_difference(&lent[1], &lent[0]);
    if given != owed || byte.is_some() {
        let Drawn { kind, repeat, .. } = file;
        let text = format!("file {kind}, a cell twice: {repeat}: {given:?}, second {owed:?}");
        report.differences.push(Difference {
            sectors: file.cells / 100,
            case,
            changes: 0,
            routes: 0,
            text: format!("{text}, first other byte of the list {byte:?}"),
        });
    }
}

/// Counts a file by how it was made and by the number that is owed.
fn count(file: &Drawn, number: u8, report: &mut Report) {
    let outcome = outcome(number);
    report.count("hall files", 1);
    report.count(format!("files {}", file.kind), 1);
    report.count(format!("files {outcome}"), 1);
    report.count(format!("a cell twice: {}", file.repeat), 1);
    if file.repeat != repeats::NONE {
        report.count(format!("a cell twice and {outcome}"), 1);
    }
    if file.list != file.cells {
        report.count(format!("list of another length and {outcome}"), 1);
    }
    if file.bytes.len() == 5 + 3 * 10_000 {
        report.count(format!("10,000 entries and {outcome}"), 1);
    }
}
