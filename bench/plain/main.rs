//! Reads a day sheet from standard input and writes its report to standard output.

use std::io::{self, Read, Write};

fn main() -> io::Result<()> {
    let mut sheet = Vec::new();
    io::stdin().read_to_end(&mut sheet)?;
    let report = plain::run_day(&sheet, &mut [0; 128], &mut [0; 1_024]);
    io::stdout().write_all(&report)
}
