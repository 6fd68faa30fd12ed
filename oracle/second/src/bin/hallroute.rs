//! Program `hallroute`: standard input to standard output.

use second::program::MOST_BYTES;
use std::io::{self, Read, Write};

fn main() -> io::Result<()> {
    let mut input = Vec::new();
    // One byte more than the most shows that the input is too long.
    let limit = MOST_BYTES as u64 + 1;
    io::stdin().take(limit).read_to_end(&mut input)?;
    io::stdout().write_all(&second::hallroute(&input))
}
