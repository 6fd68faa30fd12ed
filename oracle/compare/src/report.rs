//! Counts and differences of a run.

use std::collections::{BTreeMap, BTreeSet};
use std::panic::{AssertUnwindSafe, catch_unwind};
use std::sync::Mutex;
use std::sync::atomic::{AtomicU64, Ordering};

use calls::panic_text;

use crate::options::Options;

/// Something that differs, and the least part of its case that shows it.
pub struct Difference {
    /// Sectors of the hall, to name the smallest case.
    pub sectors: usize,
    pub case: u64,
    pub changes: usize,
    pub routes: usize,
    pub text: String,
}

#[derive(Default)]
pub struct Report {
    counts: BTreeMap<String, u64>,
    seen: BTreeMap<&'static str, BTreeSet<Vec<u8>>>,
    pub differences: Vec<Difference>,
}

impl Report {
    pub fn count(&mut self, what: impl Into<String>, more: usize) {
        *self.counts.entry(what.into()).or_default() += more as u64;
    }

    /// Counts how many different values there are.
    pub fn see(&mut self, what: &'static str, value: &[u8]) {
        self.seen.entry(what).or_default().insert(value.to_vec());
    }

    /// Keeps the greatest value seen.
    pub fn greatest(&mut self, what: &str, value: usize) {
        let seen = self.counts.entry(what.into()).or_default();
        *seen = (*seen).max(value as u64);
    }

    pub fn take_in(&mut self, other: Report) {
        for (what, number) in other.counts {
            match what.starts_with("greatest") {
                true => self.greatest(&what, number as usize),
                false => self.count(what, number as usize),
            }
        }
        for (what, values) in other.seen {
            self.seen.entry(what).or_default().extend(values);
        }
        self.differences.extend(other.differences);
    }

    /// The greatest counts and the differences in one line.
    pub fn line(&self) -> String {
        let mut line = String::new();
        for what in [
            "halls",
            "lent stores",
            "changes",
            "routes asked",
            "plans",
            "damaged cases",
            "damaged stores",
            "hall files",
            "stores to be written",
            "inputs of the program",
        ] {
            let number = self.counts.get(what).unwrap_or(&0);
            line.push_str(&format!("{number} {what}, "));
        }
        format!("{line}{} differences", self.differences.len())
    }

    /// Counts, differences, and the command that shows the smallest difference.
    pub fn print(&self, options: &Options) {
        let (name, router, seed) = (options.name(), options.router.name(), options.seed);
        println!(
            "{name}, router {router}, seed {seed}, cases {} from {}",
            options.count, options.first
        );
        for (what, number) in &self.counts {
            println!("  {what}: {number}");
        }
        for (what, values) in &self.seen {
            println!("  {what}: {}", values.len());
        }
        for difference in self.differences.iter().take(10) {
            println!("  case {}: {}", difference.case, difference.text);
        }
        let smallest = self
            .differences
            .iter()
            .min_by_key(|difference| (difference.sectors, difference.changes, difference.routes));
        if let Some(smallest) = smallest {
            let Difference {
                case,
                changes,
                routes,
                ..
            } = smallest;
            println!("  smallest: case {case}: {}", smallest.text);
            print!("  to see it: compare {name} --router {router} --seed {seed}");
            print!(" --first {case} --count 1");
            println!(" --routes {routes} --changes {changes}");
        }
        println!("{name}: {} differences", self.differences.len());
    }
}

/// Runs every case on one or two threads; a panic in a case is a difference too.
pub fn run_cases(options: &Options, run: impl Fn(u64, &mut Report) + Sync) -> Report {
    let next = AtomicU64::new(options.first);
    let whole = Mutex::new(Report::default());
    let work = || {
        let mut report = Report::default();
        loop {
            let case = next.fetch_add(1, Ordering::Relaxed);
            if case >= options.first + options.count {
                break;
            }
            let run = catch_unwind(AssertUnwindSafe(|| run(case, &mut report)));
            if let Err(panic) = run {
                let text = panic_text(panic.as_ref());
                report.differences.push(Difference {
                    sectors: 0,
                    case,
                    changes: options.changes,
                    routes: options.routes,
                    text: format!("a panic outside the Rust's own: {text}"),
                });
            }
        }
        whole.lock().expect("no thread panicked").take_in(report);
    };
    std::thread::scope(|scope| {
        for _ in 0..options.threads {
            scope.spawn(work);
        }
    });
    whole.into_inner().expect("no thread panicked")
}
