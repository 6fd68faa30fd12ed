//! The floors that document 01 lists, and a few that readers of 01 and 02 stumble over:
//! what is written there, what the Rust gives and what the router gives.

use calls::{Judge, Measures, Router};
use reference_standin::Hall as Standin;

use crate::plans;
use crate::refusals;
use crate::report::{Difference, Report};
use crate::text;

/// Columns, rows, scale, and the cells of cost 255.
type Floor = ([u8; 3], &'static [usize]);

/// What is asked of a floor, and the answer that is written down.
enum Asked {
    /// Sizes, unit and radius: number, columns, rows, scale.
    Plan([f32; 4], [u8; 4]),
    /// The cells that scaling adds.
    Scaled(Floor, &'static [usize]),
    /// A change of one cell: the number.
    Change(Floor, (usize, u8), u8),
    /// Windows of a sector: first cell, last cell, midpoint.
    Windows(Floor, usize, &'static [(u8, u8, u8)]),
    /// A source, a goal, the program's line.
    Route(Floor, (usize, usize), &'static str),
    /// A hall file of one sector: the number of its refusal.
    File(&'static [u8], u8),
    /// An output of so many bytes: the number and the file.
    Written(Floor, usize, u8, &'static [u8]),
}

use Asked::{Change, File, Plan, Route, Scaled, Windows, Written};

const FLOORS: [Asked; 28] = [
    Plan([20.0, 10.0, 1.0, 1.0], [0, 2, 1, 1]),
    Plan([20.0, 10.0, 1.0, 9.0], [0, 2, 1, 9]),
    Plan([20.0, 10.0, 1.0, 9.5], [7, 0, 0, 0]),
    Plan([20.0, 10.0, 1.0, 10.0], [6, 0, 0, 0]),
    Plan([2.0, 2.0, 0.1, 0.3], [0, 2, 2, 3]),
    Plan([109.0, 10.0, 1.0, 1.0], [0, 10, 1, 1]),
    Plan([110.0, 10.0, 1.0, 1.0], [9, 0, 0, 0]),
    Plan([2.1, 2.1, 0.07, 0.07], [0, 3, 3, 1]),
    Scaled(([1, 1, 2], &[51]), &[40, 50, 60]),
    Scaled(([1, 1, 2], &[52]), &[]),
    Scaled(([2, 1, 2], &[59, 151]), &[50, 150]),
    Scaled(([3, 1, 2], &[48, 68, 150]), &[58, 159]),
    Change(([3, 1, 2], &[48, 150]), (68, 255), 22),
    Change(([3, 1, 2], &[109, 129, 211]), (211, 255), 22),
    Change(([2, 1, 2], &[18, 130]), (130, 255), 0),
    Change(([2, 1, 2], &[]), (200, 255), 21),
    Windows(
        ([2, 1, 1], &[29, 49, 59, 69, 79, 89, 99]),
        0,
        &[(9, 19, 9), (39, 39, 39)],
    ),
    Windows(([2, 1, 1], &[]), 0, &[(9, 99, 49)]),
    Windows(([1, 2, 1], &[]), 1, &[(0, 9, 4)]),
    Route(
        ([2, 1, 1], &[]),
        (0, 100),
        "0 100 2 13 5 0,0:49E9-99 1,0:0-\n",
    ),
    Route(([1, 1, 1], &[0]), (0, 0), "0 0 1 0 0 0,0:0-\n"),
    Route(([2, 1, 1], &[0]), (0, 100), "0 100 none\n"),
    Route(
        (
            [2, 2, 1],
            &[
                301, 302, 303, 304, 305, 306, 307, 308, 309, 310, 320, 330, 340, 350, 360, 370,
                380, 390,
            ],
        ),
        (300, 109),
        "300 109 2 0 1 1,1:0N0-0 0,1:9-\n",
    ),
    // Equal costs are 28 too, and 15 is asked of every entry before 28.
    File(&[1, 1, 1, 2, 0, 7, 0, 7, 0, 5, 5], 28),
    File(&[1, 1, 1, 3, 0, 0, 0, 0, 0, 100, 0, 1, 1, 1], 15),
    // One byte too few; just enough; and what scaling closes is not in the file.
    Written(([1, 1, 1], &[5]), 7, 29, &[]),
    Written(([1, 1, 1], &[5]), 8, 0, &[1, 1, 1, 1, 0, 5, 0, 255]),
    Written(([1, 1, 2], &[51]), 9, 0, &[1, 1, 2, 1, 0, 51, 0, 255]),
];

pub fn compare(router: &dyn Router, case: u64, report: &mut Report) {
    let Some(asked) = FLOORS.get(case as usize) else {
        return;
    };
    let written = match asked {
        Plan(values, owed) => plan(router, *values, *owed),
        Scaled(floor, owed) => scaled(router, *floor, owed),
        Change(floor, change, owed) => changed(router, *floor, *change, *owed),
        Windows(floor, sector, owed) => windows(router, *floor, *sector, owed),
        Route(floor, pair, owed) => route(router, *floor, *pair, owed),
        File(bytes, owed) => refused(router, bytes, *owed),
        Written(floor, room, number, file) => written(router, *floor, *room, (*number, file)),
    };
    report.count("floors compared", 1);
    if !written {
        report.differences.push(Difference {
            sectors: 0,
            case,
            changes: 0,
            routes: 0,
            text: "another answer than the one written down".into(),
        });
    }
}

fn base(([columns, rows, _], blocked): Floor) -> Vec<u8> {
    let mut base = vec![1; usize::from(columns) * usize::from(rows) * 100];
    for cell in blocked {
        base[*cell] = 255;
    }
    base
}

/// The hall by the Rust and the router's store, if both are alike.
fn built(router: &dyn Router, floor: Floor) -> Option<(Standin, Vec<u8>)> {
    let base = base(floor);
    let hall = Standin::build(floor.0, &base);
    let mut store = vec![0; 4 + 208 * (base.len() / 100)];
    let number = router.build(floor.0, &base, &mut store);
    (number == 0 && store == hall.store()).then_some((hall, store))
}

fn plan(router: &dyn Router, values: [f32; 4], [number, columns, rows, scale]: [u8; 4]) -> bool {
    let owed = Measures {
        number,
        columns,
        rows,
        scale,
    };
    router.plan(values) == owed && plans::owed(values) == owed
}

fn scaled(router: &dyn Router, floor: Floor, owed: &[usize]) -> bool {
    let cells = base(floor).len();
    built(router, floor).is_some_and(|(_, store)| {
        let (base, scaled) = (&store[4..4 + cells], &store[4 + cells..4 + 2 * cells]);
        let added = (0..cells).filter(|cell| base[*cell] != scaled[*cell]);
        added.eq(owed.iter().copied())
    })
}

fn changed(router: &dyn Router, floor: Floor, (cell, cost): (usize, u8), owed: u8) -> bool {
    built(router, floor).is_some_and(|(mut hall, mut store)| {
        let number = router.change(&mut store, cell, cost);
        number == owed && hall.change(cell, cost) == (owed == 0) && store == hall.store()
    })
}

fn windows(router: &dyn Router, floor: Floor, sector: usize, owed: &[(u8, u8, u8)]) -> bool {
    built(router, floor).is_some_and(|(hall, store)| {
        let mut list = vec![calls::Window::default(); owed.len()];
        let answer = router.windows(&store, sector, &mut list);
        let graph = hall.portal_graph();
        let portals = graph
            .portals
            .iter()
            .filter(|portal| portal.sector == sector);
        let cells =
            portals.map(|portal| (portal.window.first, portal.window.last, portal.midpoint));
        usize::from(answer.count) == owed.len()
            && list == hall.windows(sector)
            && cells.eq(owed.iter().copied())
    })
}

fn route(router: &dyn Router, floor: Floor, pair: (usize, usize), owed: &str) -> bool {
    let ([columns, rows, _], blocked) = floor;
    let entries: Vec<(usize, u8)> = blocked.iter().map(|cell| (*cell, 255)).collect();
    let mut input = cases::files::encode(floor.0, &entries);
    cases::pairs::put(pair, &mut input);
    built(router, floor).is_some_and(|(hall, _)| {
        let sectors = usize::from(columns) * usize::from(rows);
        router.hallroute(&input) == owed.as_bytes()
            && text::lines(&hall, sectors, &[pair], 0) == owed
    })
}

/// The Rust has no hall file: 01's and 02's refusals stand for it.
fn refused(router: &dyn Router, file: &[u8], owed: u8) -> bool {
    let mut base = [77; 100];
    let line = format!("hall refused {owed}\n");
    router.read_file(file, &mut base).number == owed
        && base == [77; 100]
        && refusals::file(file, base.len()).err() == Some(owed)
        && router.hallroute(file) == line.as_bytes()
}

/// The output after the call is the file and the bytes that were lent behind it; 02's words
/// stand for the Rust here too.
fn written(router: &dyn Router, floor: Floor, room: usize, (number, file): (u8, &[u8])) -> bool {
    let mut output = vec![77; room];
    let mut owed = output.clone();
    owed[..file.len()].copy_from_slice(file);
    built(router, floor).is_some_and(|(_, store)| {
        let answer = router.write_file(&store, &mut output);
        let by_words = refusals::written(&store, room);
        (answer.number, answer.length as usize) == (number, file.len())
            && output == owed
            && by_words.as_ref().err() == (number != 0).then_some(&number)
            && by_words.unwrap_or_default() == file
    })
}
