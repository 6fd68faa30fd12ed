//! The command line.

use crate::sabotage::Sabotage;

pub const USAGE: &str = "\
compare halls     built halls: stores, windows, changes, routes, program
compare lent      lent stores: windows, changes, routes
compare plans     plans
compare damaged   damaged files and stores, and every argument out of range
compare bytes     damaged stores, every lent byte against the second reading
compare files     hall files, whole and damaged, every lent byte against the second reading
compare written   floors written back as files, every lent byte against the second reading
compare program   inputs of the program, whole and damaged, against the second reading
compare floors    the floors that document 01 lists, and a few more
compare selfcheck every sabotage is reported
compare all       all of these, with one last line
compare replay    writes the list that the program floors replays, and the lines it owes
compare answer    answers calls, a line for each line of its input (conformance/README.md)
compare hallroute answers as the program hallroute does
  --router R    who answers: second, proved, or for the last two also rust (second)
  --seed S      the seed (1)
  --first N     the first case (0)
  --count N     how many cases (100)
  --routes M    routes on each hall before its changes, and again after them (5)
  --changes K   changes of each hall (5)
  --sectors N   halls and lent: leaves out cases of fewer sectors (1)
  --threads T   1 or 2 (1)
  --into FOLDER where replay writes stdin and stdout (.)
  --sabotage K  spoils the answers on purpose: tie, midpoint, target, mark, windows,
                leg, run, none, tail, refused, file, plan, program, check, spare,
                room, behind, long, repeat, past, ones, order, scaled, length, partial,
                exact, early";

/// What is compared.
#[derive(Clone, Copy, PartialEq, Eq)]
pub enum Command {
    Halls,
    Lent,
    Plans,
    Damaged,
    Bytes,
    Files,
    Written,
    Program,
    Floors,
    Selfcheck,
    All,
    Replay,
    Answer,
    Hallroute,
}

/// Who answers 01's calls: the second reading, the proved library, or the Rust of docs/src.
#[derive(Clone, Copy, PartialEq, Eq)]
pub enum Answering {
    Second,
    Proved,
    Rust,
}

const COMMANDS: [(&str, Command); 14] = [
    ("halls", Command::Halls),
    ("lent", Command::Lent),
    ("plans", Command::Plans),
    ("damaged", Command::Damaged),
    ("bytes", Command::Bytes),
    ("files", Command::Files),
    ("written", Command::Written),
    ("program", Command::Program),
    ("floors", Command::Floors),
    ("selfcheck", Command::Selfcheck),
    ("all", Command::All),
    ("replay", Command::Replay),
    ("answer", Command::Answer),
    ("hallroute", Command::Hallroute),
];

#[derive(Clone)]
pub struct Options {
    pub command: Command,
    pub router: Answering,
    pub seed: u64,
    pub first: u64,
    pub count: u64,
    pub routes: usize,
    pub changes: usize,
    pub sectors: usize,
    pub threads: usize,
    pub sabotage: Option<Sabotage>,
    pub into: String,
}

impl Options {
    fn new(command: Command) -> Self {
        Options {
            command,
            router: Answering::Second,
            seed: 1,
            first: 0,
            count: 100,
            routes: 5,
            changes: 5,
            sectors: 1,
            threads: 1,
            sabotage: None,
            into: ".".into(),
        }
    }

    /// A command, then names with values.
    pub fn parse(arguments: &[String]) -> Result<Self, String> {
        let (name, rest) = arguments.split_first().ok_or("no command")?;
        let command = COMMANDS.iter().find(|command| command.0 == name);
        let mut options = Options::new(command.ok_or(format!("no command {name}"))?.1);
        for pair in rest.chunks(2) {
            match pair {
                [name, value] => options.set(name, value)?,
                _ => return Err(format!("{} has no value", pair[0])),
            }
        }
        Ok(options)
    }

    fn set(&mut self, name: &str, value: &str) -> Result<(), String> {
        let number = || value.parse::<u64>().map_err(|_| format!("{name} {value}"));
        match name {
            "--router" => self.router = Answering::named(value)?,
            "--seed" => self.seed = number()?,
            "--first" => self.first = number()?,
            "--count" => self.count = number()?,
            "--routes" => self.routes = number()? as usize,
            "--changes" => self.changes = number()? as usize,
            "--sectors" => self.sectors = number()? as usize,
            "--threads" => self.threads = number()?.max(1) as usize,
            "--into" => self.into = value.into(),
            "--sabotage" => self.sabotage = Some(Sabotage::named(value)?),
            _ => return Err(format!("no option {name}")),
        }
        Ok(())
    }

    /// The same options for another command. Plans, hall files, read and written, and listed
    /// floors are so small that a hundred of them stand for one case.
    pub fn part(&self, command: Command, count: u64) -> Self {
        let times = match command {
            Command::Plans | Command::Files | Command::Written | Command::Floors => 100,
            _ => 1,
        };
        Options {
            command,
            count: count * times,
            ..self.clone()
        }
    }

    /// The command's name.
    pub fn name(&self) -> &'static str {
        let command = COMMANDS.iter().find(|command| command.1 == self.command);
        command.map_or("", |command| command.0)
    }
}

impl Answering {
    fn named(name: &str) -> Result<Self, String> {
        match name {
            "second" => Ok(Answering::Second),
            "proved" => Ok(Answering::Proved),
            "rust" => Ok(Answering::Rust),
            _ => Err(format!("no router {name}")),
        }
    }

    pub fn name(self) -> &'static str {
        match self {
            Answering::Second => "second",
            Answering::Proved => "proved",
            Answering::Rust => "rust",
        }
    }
}
