//! Answers spoiled on purpose, to show that each kind of difference is reported.

use calls::{Counted, Judge, Measures, Routed, Router, Step, Window, Written};
use cases::files;
use reference_petgraph::Hall as Petgraph;

use crate::options::{Command, Options};

/// What is spoiled.
#[derive(Clone, Copy, PartialEq, Eq, Debug)]
pub enum Sabotage {
    Tie,
    Midpoint,
    Target,
    Mark,
    Windows,
    Leg,
    Run,
    None,
    Tail,
    Refused,
    File,
    Plan,
    Program,
    Check,
    Spare,
    Room,
    Behind,
    Long,
    Repeat,
    Past,
    Ones,
    Order,
    Scaled,
    Length,
    Partial,
    Exact,
    Early,
}

const KINDS: [(&str, Sabotage, Command); 27] = [
    ("tie", Sabotage::Tie, Command::Halls),
    ("midpoint", Sabotage::Midpoint, Command::Halls),
    ("target", Sabotage::Target, Command::Halls),
    ("mark", Sabotage::Mark, Command::Halls),
    ("windows", Sabotage::Windows, Command::Lent),
    ("leg", Sabotage::Leg, Command::Lent),
    ("run", Sabotage::Run, Command::Lent),
    ("none", Sabotage::None, Command::Halls),
    ("tail", Sabotage::Tail, Command::Halls),
    ("refused", Sabotage::Refused, Command::Lent),
    ("file", Sabotage::File, Command::Damaged),
    ("plan", Sabotage::Plan, Command::Plans),
    ("program", Sabotage::Program, Command::Damaged),
    ("check", Sabotage::Check, Command::Bytes),
    ("spare", Sabotage::Spare, Command::Bytes),
    ("room", Sabotage::Room, Command::Halls),
    ("behind", Sabotage::Behind, Command::Lent),
    ("long", Sabotage::Long, Command::Program),
    ("repeat", Sabotage::Repeat, Command::Files),
    ("past", Sabotage::Past, Command::Written),
    ("ones", Sabotage::Ones, Command::Written),
    ("order", Sabotage::Order, Command::Written),
    ("scaled", Sabotage::Scaled, Command::Written),
    ("length", Sabotage::Length, Command::Written),
    ("partial", Sabotage::Partial, Command::Written),
    ("exact", Sabotage::Exact, Command::Written),
    ("early", Sabotage::Early, Command::Written),
];

impl Sabotage {
    pub fn named(name: &str) -> Result<Self, String> {
        let kind = KINDS.iter().find(|kind| kind.0 == name);
        Ok(kind.ok_or(format!("no sabotage {name}"))?.1)
    }
}

/// Cases that are enough to meet every sabotage: of damage few come to the number that is spoiled.
fn cases(command: Command) -> u64 {
    match command {
        Command::Damaged | Command::Bytes | Command::Program => 300,
        Command::Written => 10,
        _ => 40,
    }
}

/// Runs each sabotage; good if every one is reported.
pub fn selfcheck(options: &Options) -> bool {
    let mut reported = 0;
    for (name, kind, command) in KINDS {
        let mut options = options.part(command, cases(command));
        options.sabotage = Some(kind);
        let differences = crate::run(&options).differences.len();
        println!(
            "  {name} spoiled in {}: {differences} differences",
            options.name()
        );
        reported += usize::from(differences > 0);
    }
    println!(
        "selfcheck: {reported} of {} sabotages reported",
        KINDS.len()
    );
    reported == KINDS.len()
}

/// A router with one kind of answer spoiled.
pub struct Sabotaged<'a> {
    pub kind: Sabotage,
    pub router: &'a dyn Router,
}

impl Router for Sabotaged<'_> {
    fn plan(&self, values: [f32; 4]) -> Measures {
        let mut answer = self.router.plan(values);
        // The exact quotient rounded up, in place of the rounded one.
        let exact = (f64::from(values[3]) / f64::from(values[2])).ceil();
        if self.kind == Sabotage::Plan && answer.number == 0 {
            answer.scale = exact as u8;
        }
        answer
    }

    fn read_file(&self, file: &[u8], base: &mut [u8]) -> Measures {
        let mut answer = self.router.read_file(file, base);
        match (self.kind, answer.number) {
            (Sabotage::File, 15) => base.fill(1),
            (Sabotage::Repeat, 28) => answer.number = 0,
            _ => {}
        }
        answer
    }

    fn check_store(&self, store: &[u8]) -> u8 {
        match self.router.check_store(store) {
            20 if self.kind == Sabotage::Check => 0,
            number => number,
        }
    }

    fn build(&self, measures: [u8; 3], base: &[u8], store: &mut [u8]) -> u8 {
        let number = self.router.build(measures, base, store);
        let (scaled, marks) = (4 + base.len(), 4 + 2 * base.len());
        if number != 0 {
            return number;
        }
        match self.kind {
            Sabotage::Target => move_write(base, &mut store[scaled..marks]),
            Sabotage::Mark => store[marks + 4] ^= 1,
            Sabotage::Tail => *store.last_mut().expect("a store has bytes") = 0,
            _ => {}
        }
        number
    }

    fn change(&self, store: &mut [u8], floor_number: usize, cost: u8) -> u8 {
        let number = self.router.change(store, floor_number, cost);
        if self.kind == Sabotage::Refused && number == 22 {
            store[4 + floor_number] = cost;
        }
        number
    }

    fn windows(&self, store: &[u8], sector: usize, list: &mut [Window]) -> Counted {
        let answer = self.router.windows(store, sector, list);
        match (self.kind, usize::from(answer.count)) {
            (Sabotage::Windows, 2..) => list.swap(0, 1),
            (Sabotage::Spare, count) if count < list.len() => list[count] = Window::default(),
            _ => {}
        }
        answer
    }

    fn route(&self, store: &[u8], source: usize, goal: usize, list: &mut [Step]) -> Routed {
        let mut answer = self.router.route(store, source, goal, list);
        let (length, over_portals) = (answer.steps as usize, answer.steps > 1);
        match self.kind {
            Sabotage::Tie if over_portals => {
                let steps = Petgraph::from_store(store).route(source, goal);
                list[..length].copy_from_slice(&steps.expect("a route")[..length]);
            }
            Sabotage::Midpoint if over_portals => round_up(&mut list[0]),
            Sabotage::Leg if over_portals => answer.leg += 1,
            Sabotage::Run if over_portals => answer.run += answer.leg,
            Sabotage::None if length > 4 => answer = Routed::default(),
            Sabotage::Room if over_portals && length == list.len() => answer.number = 25,
            Sabotage::Behind if length < list.len() => list[length] = Step::default(),
            _ => {}
        }
        answer
    }

    fn write_file(&self, store: &[u8], file: &mut [u8]) -> Written {
        let mut answer = self.router.write_file(store, file);
        let (number, length) = (answer.number, answer.length as usize);
        match self.kind {
            Sabotage::Past if length < file.len() => file[length] ^= 1,
            Sabotage::Ones | Sabotage::Order | Sabotage::Scaled if number == 0 => {
                let other = other_file(self.kind, store);
                if let Some(room) = file.get_mut(..other.len()) {
                    room.copy_from_slice(&other);
                    answer.length = other.len() as u32;
                }
            }
            Sabotage::Length if number == 29 => answer.length = 5,
            Sabotage::Partial if number == 29 && !file.is_empty() => file[0] = store[0],
            Sabotage::Exact if length == file.len() => answer.number = 29,
            Sabotage::Early if number != 0 && file.len() < 100 => answer.number = 29,
            _ => {}
        }
        answer
    }

    fn hallroute(&self, input: &[u8]) -> Vec<u8> {
        // What is too long is cut instead of refused.
        let most = match self.kind {
            Sabotage::Long => 65_536,
            _ => usize::MAX,
        };
        let mut lines = self.router.hallroute(&input[..input.len().min(most)]);
        if self.kind == Sabotage::Program && lines.ends_with(b"cut\n") {
            lines.truncate(lines.len() - 4);
        }
        lines
    }
}

/// The file of a store with an entry of cost 1, its entries downwards, or its scaled costs.
fn other_file(kind: Sabotage, store: &[u8]) -> Vec<u8> {
    let cells = 100 * usize::from(store[0]) * usize::from(store[1]);
    let part = if kind == Sabotage::Scaled { 1 } else { 0 };
    let costs = &store[4 + part * cells..][..cells];
    let one = costs.iter().position(|cost| *cost == 1);
    let named = |cell: &usize| costs[*cell] != 1 || kind == Sabotage::Ones && one == Some(*cell);
    let cells = (0..cells).filter(named);
    let mut entries: Vec<(usize, u8)> = cells.map(|cell| (cell, costs[cell])).collect();
    if kind == Sabotage::Order {
        entries.reverse();
    }
    files::encode([store[0], store[1], store[2]], &entries)
}

/// Moves one write of scaling to the same place of the next sector.
fn move_write(base: &[u8], scaled: &mut [u8]) {
    let written = (0..scaled.len()).find(|cell| scaled[*cell] == 255 && base[*cell] != 255);
    if let Some(cell) = written.filter(|cell| cell + 100 < scaled.len()) {
        scaled[cell] = base[cell];
        scaled[cell + 100] = 255;
    }
}

/// The midpoint cut up instead of down.
fn round_up(step: &mut Step) {
    if let Some(window) = step.window {
        let stride = if window.side % 2 == 0 { 1 } else { 10 };
        let places = (window.last - window.first) / stride;
        step.goal = window.first + places.div_ceil(2) * stride;
    }
}
