//! Reads a tray in the file format of `pack` and prints what `pack` is to print,
//! or the single line `panic` where the original panics. The original is given the
//! grids without their empty outer layers; its answers are put back. It is not asked
//! where no piece is lent: it always panics there. Nor is it where the pieces are of
//! several woods, which it cannot tell apart: the single line `mixed` (model.py knows).

use std::io::{self, Read, Write};

fn main() -> io::Result<()> {
    oracle::listing::silence_panics();
    let mut file = vec![];
    io::stdin().read_to_end(&mut file)?;
    io::stdout().write_all(oracle::listing::of_file(&file).as_bytes())
}
