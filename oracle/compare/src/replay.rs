//! The list that the program `floors` replays, and the lines that it owes: the floor
//! of 01 that is not starred, then seeded plans and halls, each with the Rust's answers.

use std::fs;
use std::path::Path;

use calls::{Judge, Measures, Step};
use cases::draw::{Draw, Use};
use cases::floor::Floor;
use cases::{changes, damage, files, halls, pairs, repeats};
use reference_standin::Hall as Standin;

use crate::options::Options;
use crate::plans;
use crate::refusals;
use crate::routes;

/// 01: "Unit 1, radius 1: size 109 gives 10 columns, 110 is 9".
const NOT_STARRED: [[f32; 4]; 2] = [[109.0, 10.0, 1.0, 1.0], [110.0, 10.0, 1.0, 1.0]];

/// The most sectors of a hall that is replayed.
const SECTORS: usize = 6;

/// The changes of a hall, and its routes before them and after them.
const CHANGES: usize = 6;
const ROUTES: usize = 5;

/// The steps that the list of a route has room for.
const ROOM: usize = 3;

/// The largest prime below 2 to the 32nd.
const PRIME: u64 = 4_294_967_291;

/// What is asked, as bytes, the lines owed, and the store that the program keeps.
struct Replay {
    asked: Vec<u8>,
    owed: String,
    store: Vec<u8>,
}

/// Writes the list as `stdin` and the lines as `stdout`; good if both could be written.
pub fn write(options: &Options) -> bool {
    let mut replay = Replay {
        asked: vec![],
        owed: String::new(),
        store: vec![0; 4 + 208 * 100],
    };
    for values in NOT_STARRED {
        replay.plan(values);
    }
    let plans = (0..).map(|case| cases::plans::plan(options.seed, case));
    let given = plans.filter(|values| values.iter().all(|value| quotient(*value).is_some()));
    for values in given.take(options.count as usize) {
        replay.plan(values);
    }
    let small = (0..).filter(|case| halls::hall(options.seed, *case).sectors() <= SECTORS);
    for case in small.take(options.count as usize / 5) {
        replay.hall(options.seed, case);
    }
    let folder = Path::new(&options.into);
    println!(
        "replay, seed {}: {} lines",
        options.seed,
        replay.owed.lines().count()
    );
    fs::write(folder.join("stdin"), replay.asked).is_ok()
        && fs::write(folder.join("stdout"), replay.owed).is_ok()
}

impl Replay {
    fn plan(&mut self, values: [f32; 4]) {
        self.asked.push(b'p');
        self.owed.push_str("plan");
        for (over, under) in values.into_iter().filter_map(quotient) {
            self.asked.extend(over.to_le_bytes());
            self.asked.extend(under.to_le_bytes());
            self.owed.push_str(&format!(" {over}/{under}"));
        }
        self.owed.push_str(&measured(plans::owed(values)));
        self.owed.push('\n');
    }

    /// A hall's file, now and then damaged or with a cell twice, and the list of base costs.
    fn hall(&mut self, seed: u64, case: u64) {
        let mut draw = Draw::new(seed, case, Use::File);
        let mut file = files::file(&halls::hall(seed, case), &mut draw);
        match draw.below(10) {
            0..3 => damage::damage(&mut file, &mut draw),
            3 => {
                repeats::repeat(&mut file, &mut draw);
            }
            _ => {}
        }
        self.asked.push(b'f');
        self.asked.extend((file.len() as u16).to_le_bytes());
        self.asked.extend(&file);
        let room = room(&file);
        let (answer, base) = match refusals::file(&file, room) {
            Ok(accepted) => accepted,
            Err(number) => (refused(number), vec![7; room]),
        };
        let (length, text, lent) = (file.len(), measured(answer), sum(&base));
        let line = format!("file of {length} bytes{text}, lent {lent}\n");
        self.owed.push_str(&line);
        if answer.number == 0 {
            let measures = [answer.columns, answer.rows, answer.scale];
            let mut hall = Standin::build(measures, &base);
            self.keep(&hall);
            let line = format!("build is 0, lent {}\n", sum(&self.store));
            self.owed.push_str(&line);
            let sectors = base.len() / 100;
            self.windows(&hall, sectors);
            self.routes(&hall, sectors, &mut Draw::new(seed, case, Use::Pairs));
            self.changes(&mut hall, sectors, &mut draw);
            self.windows(&hall, sectors);
            self.routes(&hall, sectors, &mut Draw::new(seed, case, Use::LaterPairs));
        }
    }

    /// Some changes. The Rust panics where 01 has 21 or 22.
    fn changes(&mut self, hall: &mut Standin, sectors: usize, draw: &mut Draw) {
        for _ in 0..CHANGES {
            let (number, cost) = changes::change(&self.floor(sectors), draw);
            let number = number.min(65_535);
            self.asked.push(b'c');
            self.asked.extend((number as u16).to_le_bytes());
            self.asked.push(cost);
            let owed = match (hall.change(number, cost), number < 100 * sectors) {
                (true, _) => 0,
                (false, true) => 22,
                (false, false) => 21,
            };
            self.keep(hall);
            let lent = sum(&self.store);
            let line = format!("change of {number} to {cost} is {owed}, lent {lent}\n");
            self.owed.push_str(&line);
        }
    }

    /// Some routes, now and then of a floor number too large.
    fn routes(&mut self, hall: &Standin, sectors: usize, draw: &mut Draw) {
        for _ in 0..ROUTES {
            let mut pair = pairs::pair(&self.floor(sectors), draw);
            match draw.below(20) {
                0 => pair.0 += 100 * sectors,
                1 => pair.1 += 100 * sectors,
                _ => {}
            }
            self.asked.push(b'r');
            pairs::put(pair, &mut self.asked);
            let (answer, list) = routed(hall, 100 * sectors, pair);
            let ((source, goal), lent) = (pair, sum(&list));
            let line = format!("route of {source} to {goal} {answer}, lent {lent}\n");
            self.owed.push_str(&line);
        }
    }

    /// The present base costs as a floor.
    fn floor(&self, sectors: usize) -> Floor {
        Floor {
            columns: self.store[0].into(),
            rows: self.store[1].into(),
            costs: self.store[4..4 + 100 * sectors].to_vec(),
        }
    }

    /// The Rust's store, and behind it what stood there.
    fn keep(&mut self, hall: &Standin) {
        let store = hall.store();
        self.store[..store.len()].copy_from_slice(&store);
    }

    /// The windows of each sector, and of one too large.
    fn windows(&mut self, hall: &Standin, sectors: usize) {
        for sector in 0..=sectors {
            self.asked.extend([b'w', sector as u8]);
            let mut list = vec![7; 60];
            let answer = if sector < sectors {
                let windows = hall.windows(sector);
                let flat = windows.iter().flat_map(|w| [w.first, w.last, w.side]);
                list.splice(..3 * windows.len(), flat);
                format!("gives {}", windows.len())
            } else {
                "is 26".into()
            };
            let line = format!("windows of {sector} {answer}, lent {}\n", sum(&list));
            self.owed.push_str(&line);
        }
    }
}

/// How many base costs a file asks for, by its first two bytes, and at most as many as a floor has.
fn room(file: &[u8]) -> usize {
    match file {
        [columns, rows, ..] => (100 * usize::from(*columns) * usize::from(*rows)).min(10_000),
        _ => 0,
    }
}

/// What is owed for a route, and the lent list after it, six bytes a step.
fn routed(hall: &Standin, cells: usize, pair: (usize, usize)) -> (String, Vec<u8>) {
    let mut list = vec![7; 6 * ROOM];
    let answer = match routes::owed(hall, &hall.portal_graph(), cells, pair) {
        Err(number) => format!("is {number}"),
        Ok(None) => "is none".into(),
        Ok(Some((steps, _))) if steps.len() > ROOM => "is 25".into(),
        Ok(Some((steps, best))) => {
            list.splice(..6 * steps.len(), steps.iter().flat_map(Step::bytes));
            format!("gives {} {} {}", steps.len(), best.leg, best.run)
        }
    };
    (answer, list)
}

/// All bytes of a list as one number.
fn sum(bytes: &[u8]) -> u64 {
    let mixed = |sum, byte: &u8| (sum * 65_537 + u64::from(*byte)) % PRIME;
    bytes.iter().fold(0, mixed)
}

fn refused(number: u8) -> Measures {
    Measures {
        number,
        ..Measures::default()
    }
}

fn measured(answer: Measures) -> String {
    match answer.number {
        0 => format!(" gives {} {} {}", answer.columns, answer.rows, answer.scale),
        number => format!(" is {number}"),
    }
}

/// A float as one whole number over another, if it is one: 0 over 0 is a NaN, 1 over 0 infinite.
fn quotient(value: f32) -> Option<(u32, u32)> {
    if value.is_nan() {
        return Some((0, 0));
    }
    if value == f32::INFINITY {
        return Some((1, 0));
    }
    let over = |power: u32| f64::from(value) * f64::from(1_u32 << power);
    let whole = |over: f64| over.fract() == 0.0 && over <= f64::from(u32::MAX);
    let power = (0..32).find(|power| whole(over(*power)))?;
    value
        .is_sign_positive()
        .then_some((over(power) as u32, 1 << power))
}
