//! Reads a tray in the file format of `pack` and prints what `dlx1` is to print, by
//! src/texts.rs.

use std::io::{self, Read, Write};

use oracle::listing::refused;
use oracle::refusals::MALFORMED;
use oracle::texts;
use oracle::tray::{config_of_file, parse};

fn main() -> io::Result<()> {
    let mut file = vec![];
    io::stdin().read_to_end(&mut file)?;
    let text = match parse(&file, config_of_file) {
        None => refused(MALFORMED),
        Some(tray) => texts::of_tray(&tray).unwrap_or_else(refused),
    };
    io::stdout().write_all(text.as_bytes())
}
