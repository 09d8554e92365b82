//! Reads a tray in the file format of `pack` and prints what the original's `solve_knuth`
//! hands to `KnuthAlgorithm::new`, as a text in the form that DLX1 reads: b and a number
//! for each filled board cell, a bar, p and a number for each kind; then a line for each
//! row, its kind and its cells in the order in which they stand there. Kinds without copies
//! are among them: the original has their rows too.
//! The grids are handed over without their empty outer layers. Refusals are those of a
//! listing by Fast with nothing identified. Where no piece is lent the original panics
//! before it has rows: the line `panic`. Several woods, which it cannot tell apart, are the
//! line `mixed`.

use std::fmt::Write as _;
use std::io::{self, Read, Write};
use std::panic;
use std::process;

use oracle::layers::strip_tray;
use oracle::listing::{self, refused, MIXED, PANIC};
use oracle::refusals::{refusal_of_tray, MALFORMED};
use oracle::tray::{self, config_of_file, Grid, Tray};

// The original once more, from the copy that build.rs makes of it.
include!(concat!(env!("OUT_DIR"), "/original/modules.rs"));

use shape::{Coord, Shape};

fn main() -> io::Result<()> {
    listing::silence_panics();
    let mut file = vec![];
    io::stdin().read_to_end(&mut file)?;
    print(&rows_of_file(&file))
}

fn print(text: &str) -> io::Result<()> {
    io::stdout().write_all(text.as_bytes())
}

/// What is printed where the original comes to no rows.
fn rows_of_file(file: &[u8]) -> String {
    let Some(tray) = tray::parse(file, config_of_file) else {
        return refused(MALFORMED);
    };
    let tray = Tray { config: config_of_file(b"fast", b"none").unwrap(), ..tray };
    match refusal_of_tray(&tray) {
        Some(number) => refused(number),
        None if tray.is_mixed() => MIXED.to_string(),
        None => {
            let (stripped, _) = strip_tray(&tray);
            // It returns only if the original has not come to its rows.
            let _ = panic::catch_unwind(|| solve(&stripped));
            PANIC.to_string()
        }
    }
}

fn solve(tray: &Tray) {
    let pieces: Vec<Shape> = tray.pieces.iter().map(|piece| shape_of(&piece.grid)).collect();
    let counts: Vec<u32> = tray.pieces.iter().map(|piece| piece.count).collect();
    let config = solver::Config {
        identify_transformed_answers: false,
        identify_mirrored_answers: false,
        solver: solver::SolverKind::KnuthAlgorithm,
    };
    solver::solve(&pieces, &counts, &shape_of(&tray.board), config);
}

fn shape_of(grid: &Grid) -> Shape {
    let [a, b, c] = grid.sides.map(|side| side as i32);
    Shape::new(grid.cells.iter().map(|&cell| cell == 1).collect(), Coord(a, b, c))
}

/// Called by `solve_knuth` with its rows. The program ends here: nothing is searched.
pub fn print_rows(board_cells: usize, rows: &[(usize, Vec<usize>)], piece_counts: &[u32]) {
    let cells = (0..board_cells).map(|cell| format!("b{cell}"));
    let kinds = (0..piece_counts.len()).map(|kind| format!("p{kind}"));
    let mut text = String::new();
    let items: Vec<String> = cells.chain(["|".to_string()]).chain(kinds).collect();
    writeln!(text, "{}", items.join(" ")).unwrap();
    for (kind, cells) in rows {
        let cells: String = cells.iter().map(|cell| format!(" b{cell}")).collect();
        writeln!(text, "p{kind}{cells}").unwrap();
    }
    process::exit(if print(&text).is_ok() { 0 } else { 1 });
}
