//! Holds a router against the Rust of docs/src, on seeded cases.

mod answer;
mod bytes;
mod damaged;
mod files;
mod floors;
mod halls;
mod options;
mod plans;
mod program;
mod proved_router;
mod refusals;
mod replay;
mod report;
mod routes;
mod rust_router;
mod sabotage;
mod second_router;
mod text;
mod trial;
mod written;

use std::process::ExitCode;

use calls::Router;
use options::{Answering, Command, Options};
use proved_router::Proved;
use report::Report;
use rust_router::Rust;
use sabotage::Sabotaged;
use second_router::Second;

fn main() -> ExitCode {
    // A panic is an answer of the Rust here, or else reported as a difference.
    std::panic::set_hook(Box::new(|_| {}));
    let arguments: Vec<String> = std::env::args().skip(1).collect();
    let options = match Options::parse(&arguments) {
        Ok(options) => options,
        Err(error) => {
            eprintln!("{error}\n{}", options::USAGE);
            return ExitCode::from(2);
        }
    };
    exit(match options.command {
        Command::All => all(&options),
        Command::Selfcheck => sabotage::selfcheck(&options),
        Command::Replay => replay::write(&options),
        Command::Answer => answer::lines(router(&options)).is_ok(),
        Command::Hallroute => answer::hallroute(router(&options)).is_ok(),
        _ => {
            let report = run(&options);
            report.print(&options);
            report.differences.is_empty()
        }
    })
}

/// The parts of a whole comparison.
const PARTS: [Command; 9] = [
    Command::Floors,
    Command::Halls,
    Command::Lent,
    Command::Plans,
    Command::Damaged,
    Command::Bytes,
    Command::Files,
    Command::Written,
    Command::Program,
];

/// The parts that hold a router against the second reading.
const BY_SECOND: [Command; 4] = [
    Command::Bytes,
    Command::Files,
    Command::Written,
    Command::Program,
];

/// Runs every part and the self-check, with one line about all of it at the end.
fn all(options: &Options) -> bool {
    let mut whole = Report::default();
    for command in PARTS {
        // The second reading is not held against itself.
        if BY_SECOND.contains(&command) && options.router == Answering::Second {
            continue;
        }
        let part = options.part(command, options.count);
        let report = run(&part);
        report.print(&part);
        whole.take_in(report);
    }
    let checked = sabotage::selfcheck(options);
    println!(
        "compare all, router {}: {}",
        options.router.name(),
        whole.line()
    );
    checked && whole.differences.is_empty()
}

/// Whoever the options ask to answer.
fn router(options: &Options) -> &'static dyn Router {
    match options.router {
        Answering::Second => &Second,
        Answering::Proved => &Proved,
        Answering::Rust => &Rust,
    }
}

/// Runs all cases that the options ask for.
fn run(options: &Options) -> Report {
    let router = router(options);
    match options.sabotage {
        Some(kind) => run_with(&Sabotaged { kind, router }, options),
        None => run_with(router, options),
    }
}

fn run_with(router: &dyn Router, options: &Options) -> Report {
    report::run_cases(options, |case, report| match options.command {
        Command::Halls => halls::built(router, options, case, report),
        Command::Lent => halls::lent(router, options, case, report),
        Command::Plans => plans::compare(router, options, case, report),
        Command::Damaged => damaged::compare(router, options, case, report),
        Command::Bytes => bytes::compare(router, options, case, report),
        Command::Files => files::compare(router, options, case, report),
        Command::Written => written::compare(router, options, case, report),
        Command::Program => program::compare(router, options, case, report),
        Command::Floors => floors::compare(router, case, report),
        Command::Selfcheck
        | Command::All
        | Command::Replay
        | Command::Answer
        | Command::Hallroute => {
            unreachable!("these have no cases of their own")
        }
    })
}

fn exit(good: bool) -> ExitCode {
    if good {
        ExitCode::SUCCESS
    } else {
        ExitCode::FAILURE
    }
}
