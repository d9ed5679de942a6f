//! The second program's own sheet program: standard input to standard output.

use second::sheet;
use std::io::{self, Read, Write};

fn main() -> io::Result<()> {
    let mut input = Vec::new();
    io::stdin().read_to_end(&mut input)?;
    io::stdout().write_all(sheet::text(&input).as_bytes())
}
