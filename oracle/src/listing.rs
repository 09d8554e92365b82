//! What `pack` prints, with the original's `solve` behind it. The original is given the
//! grids without their empty outer layers, and its answers are put back into the lent box.

use std::fmt::Write;
use std::panic;

use crate::layers::strip_tray;
use crate::placements::{filled_cells, shape};
use crate::refusals::{refusal_of_tray, MALFORMED};
use crate::shape::{Answer, Shape};
use crate::solver::{self, SolverKind};
use crate::tray::{self, Engine, Grid, Tray};

pub const PANIC: &str = "panic\n";
pub const MIXED: &str = "mixed\n";

/// What `pack` is to print for a file, or `panic` where the original panics. With
/// no piece it always does, so it is not asked there. It knows no woods, so where
/// the pieces are of several it is not asked either: `mixed`.
pub fn of_file(file: &[u8]) -> String {
    match tray::parse(file, tray::config_of_file) {
        None => refused(MALFORMED),
        Some(tray) => match refusal_of_tray(&tray) {
            Some(number) => refused(number),
            None if tray.pieces.is_empty() => of_empty_box(&tray.board),
            None if tray.is_mixed() => MIXED.to_string(),
            None => of_original(&tray),
        },
    }
}

pub fn refused(number: u8) -> String {
    format!("refused\t{number}\n")
}

/// The listing of a board with no piece lent: without filled cells it has the one
/// empty packing, any other has none, whatever the engine and the identification.
pub fn of_empty_box(board: &Grid) -> String {
    if filled_cells(board) > 0 {
        return "packings\t0\n".to_string();
    }
    format!("0\t{}\npackings\t1\n", vec!["-"; board.cells.len()].join(" "))
}

/// The listing of what the original's `solve` returns for the stripped tray, put back
/// into the lent box, or `panic`. Woods are left out.
pub fn of_original(tray: &Tray) -> String {
    let (stripped, frame) = strip_tray(tray);
    let listing = || solve(&stripped, |answer| frame.put_back(&answer.data));
    panic::catch_unwind(listing).unwrap_or_else(|_| PANIC.to_string())
}

/// The same for the tray as it is lent, empty layers and all.
pub fn of_original_as_lent(tray: &Tray) -> String {
    let listing = || solve(tray, |answer| answer.data);
    panic::catch_unwind(listing).unwrap_or_else(|_| PANIC.to_string())
}

/// The panic message goes nowhere: the line `panic` stands for it.
pub fn silence_panics() {
    panic::set_hook(Box::new(|_| {}));
}

/// The whole list of the original, built and read entry by entry, and how long it is.
/// The tray is taken as it stands: whoever wants it stripped has that done before.
pub fn count_of_original(tray: &Tray) -> usize {
    let answers = answers(tray);
    (0..answers.len())
        .filter(|&entry| !answers.get(entry).data.is_empty())
        .count()
}

fn answers(tray: &Tray) -> solver::Answers {
    let pieces: Vec<Shape> = tray.pieces.iter().map(|piece| shape(&piece.grid)).collect();
    let counts: Vec<u32> = tray.pieces.iter().map(|piece| piece.count).collect();
    let config = solver::Config {
        identify_transformed_answers: tray.config.turned,
        identify_mirrored_answers: tray.config.mirrored,
        solver: match tray.config.engine {
            Engine::Auto => SolverKind::Auto,
            Engine::Naive => SolverKind::Naive,
            Engine::Fast => SolverKind::Fast,
            Engine::Knuth => SolverKind::KnuthAlgorithm,
        },
    };
    solver::solve(&pieces, &counts, &shape(&tray.board), config)
}

/// An answer's cells: piece and copy, None where the board is unfilled.
type Owners = Vec<Option<(usize, usize)>>;

fn solve(tray: &Tray, in_box: impl Fn(Answer) -> Owners) -> String {
    let answers = answers(tray);
    let mut listing = String::new();
    for entry in 0..answers.len() {
        writeln!(listing, "{entry}\t{}", box_cells(&in_box(answers.get(entry)))).unwrap();
    }
    writeln!(listing, "packings\t{}", answers.len()).unwrap();
    listing
}

fn box_cells(owners: &Owners) -> String {
    let cell = |&owner: &Option<(usize, usize)>| match owner {
        Some((piece, copy)) => format!("{piece}.{copy}"),
        None => "-".to_string(),
    };
    owners.iter().map(cell).collect::<Vec<_>>().join(" ")
}
