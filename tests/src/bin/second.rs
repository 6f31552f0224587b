//! Reads a table from standard input and prints what document 01's program `list` prints.

use std::io::{self, Read, Write};

fn main() -> io::Result<()> {
    let mut input = Vec::new();
    io::stdin().read_to_end(&mut input)?;
    io::stdout().write_all(second::operations::printed(&input).as_bytes())
}
