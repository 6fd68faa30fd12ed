//! Reading of the floor: a drawing or a hall file, of a length that one can have.

use std::fs::File;
use std::io::{self, Read};

use hallview::characters::shown;
use hallview::drawing::{self, Drawn};
use hallview::words::counted;
use hallview::{hall_file, repeats};

/// The most bytes of a drawing. The largest floor with all its rulings has a tenth of it.
const MOST_DRAWN: u64 = 1 << 20;
/// The most bytes that `hallroute` reads.
const MOST_HALL_FILE: u64 = 65_536;

/// A floor, and the pairs that come with it.
pub fn read(name: &str) -> Result<Drawn, String> {
    let of_file = |text: String| format!("{}: {text}", shown_name(name));
    if name.ends_with(".hall") {
        let bytes = bytes(name, MOST_HALL_FILE).map_err(of_file)?;
        return hall_in(name, &bytes).map_err(of_file);
    }
    let bytes = bytes(name, MOST_DRAWN).map_err(of_file)?;
    drawing::read(&bytes).map_err(|problem| of_file(problem.to_string()))
}

/// The name of a file in messages.
pub fn shown_name(name: &str) -> String {
    match name {
        "-" => "standard input".to_string(),
        _ => shown(name),
    }
}

/// All bytes of a file, unless it has more than it may; - is standard input.
fn bytes(name: &str, most: u64) -> Result<Vec<u8>, String> {
    let file: Box<dyn Read> = match name {
        "-" => Box::new(io::stdin()),
        _ => Box::new(File::open(name).map_err(|error| error.to_string())?),
    };
    let mut bytes = vec![];
    let read = file.take(most + 1).read_to_end(&mut bytes);
    match read.map_err(|error| error.to_string())? as u64 {
        length if length > most => Err(format!("too long: more than {most} bytes")),
        _ => Ok(bytes),
    }
}

/// Spare bytes are told, as `hallroute` does; the hall is drawn all the same.
fn hall_in(name: &str, bytes: &[u8]) -> Result<Drawn, String> {
    let read = hall_file::read(bytes)
        .map_err(|number| format!("refused {number}, {}", reason(number, bytes)))?;
    if read.spare > 0 {
        let spare = counted(read.spare, "spare byte");
        let name = shown_name(name);
        eprintln!("{name}: cut: {spare} behind the pairs; a pair has 4 bytes");
    }
    Ok(Drawn::plain(read.floor, read.pairs))
}

/// Why the read call refuses a hall file. What is refused with 28 has the form of one, and is
/// no drawing by mistake.
fn reason(number: u8, bytes: &[u8]) -> String {
    if number == 28 {
        return repeats::told(bytes);
    }
    let meaning = hall_file::meaning(number);
    format!("{meaning} (a name that ends in .hall is read as a hall file)")
}
