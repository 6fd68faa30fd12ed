//! Plans against `Dimensions::new`.

use calls::{Judge, Measures, Router};
use reference_standin::Hall as Standin;

use crate::options::Options;
use crate::report::{Difference, Report};

/// Why `Dimensions::new` panics, and 01's number for it.
const PANICS: [(&str, u8); 6] = [
    ("Size must be greater", 2),
    ("Actor size cannot be less", 3),
    ("World unit size", 4),
    ("must be an exact factor", 5),
    ("actor_radius cannot be bigger", 6),
    ("Actors cannot be larger", 7),
];

pub fn compare(router: &dyn Router, options: &Options, case: u64, report: &mut Report) {
    let values = cases::plans::plan(options.seed, case);
    let owed = owed(values);
    let what = match owed.number {
        0 => "plans accepted".into(),
        number => format!("plans refused {number}"),
    };
    report.count("plans", 1);
    report.count(what, 1);
    let given = router.plan(values);
    if given != owed {
        report.differences.push(Difference {
            sectors: 0,
            case,
            changes: 0,
            routes: 0,
            text: format!("plan {values:?}: {given:?}, owed {owed:?}"),
        });
    }
}

/// The Rust's answer, and 01's additions: 1 before it, 8 and 9 after it.
pub fn owed(values: [f32; 4]) -> Measures {
    let refused = |number| Measures {
        number,
        ..Measures::default()
    };
    if values.iter().any(|value| !value.is_finite()) {
        return refused(1);
    }
    match Standin::plan(values) {
        Err(text) => {
            let panic = PANICS.iter().find(|panic| text.contains(panic.0));
            refused(panic.expect("a known panic").1)
        }
        Ok((_, _, 0)) => refused(8),
        Ok((columns, rows, _)) if columns > 10 || rows > 10 => refused(9),
        Ok((columns, rows, scale)) => Measures {
            number: 0,
            columns: columns as u8,
            rows: rows as u8,
            scale: scale as u8,
        },
    }
}
