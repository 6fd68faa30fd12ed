//! The calls of 01 and 02 as lines of text, whoever answers them: a line in is one call with
//! the bytes lent to it, the line out has the answer and the bytes as the call left them.
//! conformance/README.md has the form of each line.

/// A call with all that it is lent.
pub enum Call {
    Plan([f32; 4]),
    File {
        file: Vec<u8>,
        base: Vec<u8>,
    },
    Build {
        measures: [u8; 3],
        base: Vec<u8>,
        store: Vec<u8>,
    },
    Change {
        store: Vec<u8>,
        cell: usize,
        cost: u8,
    },
    /// The list has three bytes a window: first cell, last cell, side.
    Windows {
        store: Vec<u8>,
        sector: usize,
        list: Vec<u8>,
    },
    /// The list has six bytes a step: column, row, goal, side or 4, first cell, last cell.
    Route {
        store: Vec<u8>,
        source: usize,
        goal: usize,
        list: Vec<u8>,
    },
    /// The file is the lent output.
    Write {
        store: Vec<u8>,
        file: Vec<u8>,
    },
}

impl Call {
    /// The call of a line, or none if it is no call.
    pub fn of(line: &str) -> Option<Call> {
        let words: Vec<&str> = line.split(' ').collect();
        Some(match words[..] {
            ["plan", x, y, unit, radius] => {
                Call::Plan([float(x)?, float(y)?, float(unit)?, float(radius)?])
            }
            ["file", file, base] => Call::File {
                file: bytes(file)?,
                base: bytes(base)?,
            },
            ["build", columns, rows, scale, base, store] => Call::Build {
                measures: [number(columns)?, number(rows)?, number(scale)?],
                base: bytes(base)?,
                store: bytes(store)?,
            },
            ["change", store, cell, cost] => Call::Change {
                store: bytes(store)?,
                cell: number(cell)?,
                cost: number(cost)?,
            },
            ["windows", store, sector, list] => Call::Windows {
                store: bytes(store)?,
                sector: number(sector)?,
                list: bytes(list)?,
            },
            ["route", store, source, goal, list] => Call::Route {
                store: bytes(store)?,
                source: number(source)?,
                goal: number(goal)?,
                list: bytes(list)?,
            },
            ["write", store, file] => Call::Write {
                store: bytes(store)?,
                file: bytes(file)?,
            },
            _ => return None,
        })
    }
}

/// An answer's numbers, in 01's order, the number of the refusal first.
pub fn numbers<T: ToString, const N: usize>(values: [T; N]) -> String {
    values.map(|value| value.to_string()).join(" ")
}

/// The line of an answer to a call that was lent bytes for writing.
pub fn line<T: ToString, const N: usize>(values: [T; N], lent: &[u8]) -> String {
    format!("{} {}", numbers(values), hex(lent))
}

fn number<T: std::str::FromStr>(text: &str) -> Option<T> {
    text.parse().ok()
}

/// A float by its bits.
fn float(text: &str) -> Option<f32> {
    u32::from_str_radix(text, 16).ok().map(f32::from_bits)
}

/// Two digits a byte; `-` is no byte at all.
fn bytes(text: &str) -> Option<Vec<u8>> {
    if text == "-" {
        return Some(vec![]);
    }
    let pairs = text.as_bytes().chunks(2);
    pairs
        .map(|pair| u8::from_str_radix(std::str::from_utf8(pair).ok()?, 16).ok())
        .collect()
}

fn hex(bytes: &[u8]) -> String {
    match bytes {
        [] => "-".to_string(),
        _ => bytes.iter().map(|byte| format!("{byte:02x}")).collect(),
    }
}
