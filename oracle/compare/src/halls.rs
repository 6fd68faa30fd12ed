//! Built halls and lent stores: windows, routes, changes, and routes again.

use calls::{Judge, Router};
use cases::draw::{Draw, Use};
use cases::floor::Floor;
use cases::{changes, files, halls, pairs, stores};
use reference_petgraph::Hall as Petgraph;
use reference_standin::Hall as Standin;

use crate::options::Options;
use crate::report::Report;
use crate::text;
use crate::trial::{TAIL, Trial};

/// A hall built by all sides from the same base costs.
pub fn built(router: &dyn Router, options: &Options, case: u64, report: &mut Report) {
    let hall = halls::hall(options.seed, case);
    if hall.sectors() < options.sectors {
        return;
    }
    let (measures, base) = (hall.measures(), &hall.floor.costs);
    let mut store = vec![0x5a; 4 + 208 * hall.sectors()];
    store[..2].copy_from_slice(&measures[..2]);
    store.extend(TAIL);
    let number = router.build(measures, base, &mut store);
    let mut trial = Trial {
        router,
        store,
        standin: Standin::build(measures, base),
        petgraph: Petgraph::build(measures, base),
        case,
        changes: 0,
        routes: 0,
    };
    report.count("halls", 1);
    report.count(format!("halls of scale {}", hall.scale), 1);
    report.count(format!("halls of {}", trial.size_name()), 1);
    report.count(format!("halls of kind {:?}", hall.kind), 1);
    report.see("sizes of halls", &measures[..2]);
    report.see("sizes of halls with scales", &measures);
    if number != 0 {
        trial.differ(format!("build {number}, owed 0"), report);
    }
    trial.compare_store(report);
    trial.routes = options.routes;
    compare_program(&trial, options, &hall, report);
    trial.routes = 0;
    calls_in_turn(&mut trial, options, &hall.floor, report);
}

/// A lent store whose costs and marks may disagree, taken in by all sides.
pub fn lent(router: &dyn Router, options: &Options, case: u64, report: &mut Report) {
    if halls::hall(options.seed, case).sectors() < options.sectors {
        return;
    }
    let (mut store, floor) = stores::store(options.seed, case);
    let standin = Standin::from_store(&store);
    let petgraph = Petgraph::from_store(&store);
    store.extend(TAIL);
    let mut trial = Trial {
        router,
        store,
        standin,
        petgraph,
        case,
        changes: 0,
        routes: 0,
    };
    report.count("lent stores", 1);
    trial.compare_store(report);
    calls_in_turn(&mut trial, options, &floor, report);
}

/// Windows and routes, then changes, then windows and routes again.
fn calls_in_turn(trial: &mut Trial, options: &Options, floor: &Floor, report: &mut Report) {
    trial.compare_windows(report);
    some_routes(trial, options, floor, Use::Pairs, report);
    if options.changes == 0 {
        return;
    }
    let mut draw = Draw::new(options.seed, trial.case, Use::Changes);
    for _ in 0..options.changes {
        let (floor_number, cost) = changes::change(floor, &mut draw);
        trial.compare_change(floor_number, cost, report);
    }
    trial.routes = 0;
    trial.compare_windows(report);
    trial.compare_graphs(report);
    some_routes(trial, options, floor, Use::LaterPairs, report);
}

fn some_routes(trial: &mut Trial, options: &Options, floor: &Floor, of: Use, report: &mut Report) {
    let graph = trial.standin.portal_graph();
    let mut draw = Draw::new(options.seed, trial.case, of);
    let after = trial.changes > 0;
    let when = if after {
        "after changes"
    } else {
        "before changes"
    };
    report.count(format!("routes {when}"), options.routes);
    report.count(format!("routes on {}", trial.size_name()), options.routes);
    for _ in 0..options.routes {
        let pair = pairs::pair(floor, &mut draw);
        trial.compare_route(&graph, pair, report);
    }
}

/// The hall's file with pairs behind it, through the program.
fn compare_program(trial: &Trial, options: &Options, hall: &halls::Hall, report: &mut Report) {
    let mut draw = Draw::new(options.seed, trial.case, Use::File);
    let mut input = files::file(hall, &mut draw);
    let mut asked = vec![];
    for _ in 0..options.routes {
        let pair = pairs::pair(&hall.floor, &mut draw);
        asked.push(pair);
        pairs::put(pair, &mut input);
    }
    let spare = draw.below(4);
    input.extend(&[7; 3][..spare]);
    let owed = text::lines(&trial.standin, hall.sectors(), &asked, spare);
    let given = trial.router.hallroute(&input);
    report.count("runs of the program compared", 1);
    report.count("lines of the program compared", owed.lines().count());
    if given != owed.as_bytes() {
        let given = String::from_utf8_lossy(&given);
        trial.differ(format!("program: {given:?}, owed {owed:?}"), report);
    }
}
