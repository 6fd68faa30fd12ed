//! 01's refusals of damaged bytes, which the Rust does not know, and those of document 02,
//! with the files that it has written. Each list of numbers stands in 01's order, 28 after 15
//! and before 16, 29 after the store check.

use calls::Measures;

/// What a hall file gives: its measures and base costs, or a number.
pub fn file(file: &[u8], list: usize) -> Result<(Measures, Vec<u8>), u8> {
    refuse(file.len() < 5, 10)?;
    let [columns, rows, scale] = [file[0], file[1], file[2]];
    measures(columns, rows, scale)?;
    let cells = usize::from(columns) * usize::from(rows) * 100;
    let count = two_bytes(&file[3..]);
    refuse(count > 10_000, 13)?;
    refuse(file.len() != 5 + 3 * count, 14)?;
    let (numbers, costs) = file[5..].split_at(2 * count);
    let numbers: Vec<usize> = numbers.chunks(2).map(two_bytes).collect();
    refuse(numbers.iter().any(|number| *number >= cells), 15)?;
    let mut named = vec![false; cells];
    let mut again = |number: &usize| std::mem::replace(&mut named[*number], true);
    refuse(numbers.iter().any(&mut again), 28)?;
    refuse(list != cells, 16)?;
    let mut base = vec![1; cells];
    for (number, cost) in numbers.into_iter().zip(costs) {
        base[number] = *cost;
    }
    let number = 0;
    Ok((
        Measures {
            number,
            columns,
            rows,
            scale,
        },
        base,
    ))
}

/// Whether build accepts: measures, length of the base list, length of the store.
pub fn build([columns, rows, scale]: [u8; 3], base: usize, store: usize) -> Result<(), u8> {
    measures(columns, rows, scale)?;
    let sectors = usize::from(columns) * usize::from(rows);
    refuse(base != 100 * sectors, 17)?;
    refuse(store < 4 + 208 * sectors, 18)
}

/// The store check; an accepted store gives its number of sectors.
pub fn store(store: &[u8]) -> Result<usize, u8> {
    refuse(store.len() < 4, 18)?;
    let (columns, rows) = (usize::from(store[0]), usize::from(store[1]));
    measures(store[0], store[1], store[2])?;
    refuse(store[3] != 0, 19)?;
    let sectors = columns * rows;
    refuse(store.len() < 4 + 208 * sectors, 18)?;
    let marks = store[4 + 200 * sectors..][..8 * sectors].chunks(2);
    for (place, mark) in marks.map(two_bytes).enumerate() {
        let (column, row) = (place / 4 / rows, place / 4 % rows);
        let neighbour = match place % 4 {
            0 => row > 0,
            1 => column + 1 < columns,
            2 => row + 1 < rows,
            _ => column > 0,
        };
        refuse(mark > 1023 || mark != 0 && !neighbour, 20)?;
    }
    Ok(sectors)
}

/// The hall file of a store's sizes, scale and base costs, if an output of this length has
/// room for it.
pub fn written(bytes: &[u8], room: usize) -> Result<Vec<u8>, u8> {
    let cells = 100 * store(bytes)?;
    let (mut numbers, mut costs) = (vec![], vec![]);
    for (number, cost) in bytes[4..4 + cells].iter().enumerate() {
        if *cost != 1 {
            numbers.extend([(number % 256) as u8, (number / 256) as u8]);
            costs.push(*cost);
        }
    }
    let count = costs.len();
    refuse(room < 5 + 3 * count, 29)?;
    let count = [(count % 256) as u8, (count / 256) as u8];
    Ok([&bytes[..3], &count, &numbers, &costs].concat())
}

fn measures(columns: u8, rows: u8, scale: u8) -> Result<(), u8> {
    let fits = |side| (1..=10).contains(&side);
    refuse(!fits(columns) || !fits(rows), 11)?;
    refuse(!(1..=9).contains(&scale), 12)
}

/// A number as it is counted.
pub fn outcome(number: u8) -> String {
    match number {
        0 => "accepted".into(),
        number => format!("refused {number}"),
    }
}

pub fn refuse(condition: bool, number: u8) -> Result<(), u8> {
    if condition { Err(number) } else { Ok(()) }
}

/// The first two bytes as a number, low byte first.
pub fn two_bytes(bytes: &[u8]) -> usize {
    u16::from_le_bytes([bytes[0], bytes[1]]).into()
}
