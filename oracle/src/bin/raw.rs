//! Calls the original's `solve` without any refusal before it, on the grids as they
//! are lent, and prints its list, or the single line `panic`. The file may also name
//! the engines `auto` and `naive`, and `mirrored_only`: mirrored without turned. Of a
//! piece's wood the original hears nothing.
//! `raw stripped` calls it on the grids without their empty outer layers instead, and
//! puts its answers back into the lent box.
//! `raw refusal` prints the refusal of such a call, or `accepted`.

use std::io::{self, Read, Write};
use std::process::ExitCode;

use oracle::{listing, refusals, tray};

fn main() -> io::Result<ExitCode> {
    listing::silence_panics();
    let mut file = vec![];
    io::stdin().read_to_end(&mut file)?;
    let Some(tray) = tray::parse(&file, tray::config_of_raw) else {
        eprintln!("raw: malformed file");
        return Ok(ExitCode::FAILURE);
    };
    let printed = match std::env::args().nth(1).as_deref() {
        Some("refusal") => match refusals::refusal_of_tray(&tray) {
            Some(number) => listing::refused(number),
            None => "accepted\n".to_string(),
        },
        Some("stripped") => listing::of_original(&tray),
        _ => listing::of_original_as_lent(&tray),
    };
    io::stdout().write_all(printed.as_bytes())?;
    Ok(ExitCode::SUCCESS)
}
