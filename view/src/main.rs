//! Program `hallview`: a drawing or a hall file in; pictures, hall file and drawing out.

mod asked;
mod input;
mod options;
mod output;

use std::env;
use std::process::ExitCode;

use asked::Asked;
use options::{Options, Task};

fn main() -> ExitCode {
    let done = options::read(env::args_os().skip(1)).and_then(|task| match task {
        Task::Help(usage) => output::print(format!("{usage}\n").as_bytes()),
        Task::Draw(options) => run(&options),
    });
    match done {
        Ok(()) => ExitCode::SUCCESS,
        Err(text) => {
            eprintln!("{text}");
            ExitCode::FAILURE
        }
    }
}

fn run(options: &Options) -> Result<(), String> {
    let asked = Asked::of(options, input::read(&options.floor)?)?;
    for warning in &asked.warnings {
        eprintln!("{}: warning: {warning}", input::shown_name(&options.floor));
    }
    output::write(&options.floor, &asked.outputs(options))
}
