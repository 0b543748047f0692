//! Reads a run record from standard input and prints its list, by the original.

use std::io::{self, Read, Write};

fn main() -> io::Result<()> {
    let mut record = Vec::new();
    io::stdin().read_to_end(&mut record)?;
    io::stdout().write_all(&oracle::record::list(&record))
}
