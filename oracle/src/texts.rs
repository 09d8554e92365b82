//! The text that Knuth's DLX1 reads (document 02, A2), and the refusals of the call for it.
//! A line's cells are those of the placement in the order of the board's box, x slowest. It
//! is the order of the turned grid, in which the original builds its rows: `dlx1.py` holds
//! the text to these.

use std::fmt::Write;

use crate::layers;
use crate::placements::{filled_cells, kinds, scan_numbers, shape};
use crate::refusals::refusal_of_tray;
use crate::shape::Shape;
use crate::tray::{config_of_file, Piece, Tray};

/// A kind has more than one copy, or the board has no filled cell.
pub const NO_TEXT: u8 = 17;
/// The output is too short for the whole text.
pub const OUTPUT_TOO_SHORT: u8 = 18;

/// The text of a well-formed file's tray, or the refusal, where there is room enough. The
/// file's engine and identification decide nothing.
pub fn of_tray(tray: &Tray) -> Result<String, u8> {
    let plain = Tray { config: config_of_file(b"fast", b"none").unwrap(), ..tray.clone() };
    if let Some(number) = refusal_of_tray(&plain) {
        return Err(number);
    }
    let kinds = kinds(&tray.board, &tray.pieces);
    if filled_cells(&tray.board) == 0 || kinds.iter().any(|kind| kind.copies > 1) {
        return Err(NO_TEXT);
    }

    // The scan numbers of the filled cells, as the cells follow each other in the box.
    let in_box: Vec<u32> = scan_numbers(&layers::strip(&tray.board)).into_iter().flatten().collect();
    let mut text = items(in_box.len(), kinds.iter().map(|kind| kind.copies));
    for (number, kind) in kinds.iter().enumerate().filter(|(_, kind)| kind.copies > 0) {
        for row in &kind.rows {
            write!(text, "p{number}").unwrap();
            for cell in in_box.iter().filter(|&cell| row >> cell & 1 == 1) {
                write!(text, " b{cell}").unwrap();
            }
            text.push('\n');
        }
    }
    Ok(text)
}

/// The first line; without a bar where no kind has copies.
fn items(cells: usize, copies: impl Iterator<Item = u64>) -> String {
    let mut items: Vec<String> = (0..cells).map(|cell| format!("b{cell}")).collect();
    let stocked = copies.enumerate().filter(|&(_, copies)| copies > 0);
    let kinds: Vec<String> = stocked.map(|(kind, _)| format!("p{kind}")).collect();
    if !kinds.is_empty() {
        items.push("|".to_string());
        items.extend(kinds);
    }
    items.join(" ") + "\n"
}

/// The tray with the first copy of each kind alone. No piece may be empty.
pub fn thinned(tray: &Tray) -> Tray {
    let mut met: Vec<(Shape, u8)> = vec![];
    let pieces = tray.pieces.iter().map(|piece| {
        let kind = (shape(&layers::strip(&piece.grid)).normalize(), piece.wood);
        let is_first = piece.count > 0 && !met.contains(&kind);
        if is_first {
            met.push(kind);
        }
        Piece { count: u32::from(is_first), ..piece.clone() }
    });
    Tray { pieces: pieces.collect(), ..tray.clone() }
}

#[cfg(test)]
mod tests {
    use super::*;
    use crate::tray::parse;

    fn of(lines: &str) -> Result<String, u8> {
        of_tray(&tray(lines))
    }

    fn tray(lines: &str) -> Tray {
        let file = format!("config\tknuth\tmirrored\n{}\n", lines.replace(' ', "\t").replace('/', "\n"));
        parse(file.as_bytes(), config_of_file).unwrap()
    }

    fn text(lines: &str) -> Result<String, u8> {
        Ok(lines.replace('/', "\n") + "\n")
    }

    #[test]
    fn texts() {
        assert_eq!(
            of("board 1 1 3 111/piece 1 1 1 1 1/piece 1 1 1 2 11"),
            text("b0 b1 b2 | p0 p1/p0 b0/p0 b1/p0 b2/p1 b0 b1/p1 b1 b2")
        );
        assert_eq!(of("board 1 1 2 11/piece 0 1 1 1 1/piece 1 1 1 2 11"), text("b0 b1 | p1/p1 b0 b1"));
        assert_eq!(of("board 1 1 1 1/piece 0 1 1 1 1"), text("b0"));
        assert_eq!(of("board 1 1 1 1/piece 1 1 1 2 11"), text("b0 | p0"));
        assert_eq!(of("board 1 1 2 11"), text("b0 b1"));
        assert_eq!(of("board 1 2 2 1111/piece 1 1 2 2 1111"), text("b0 b1 b2 b3 | p0/p0 b0 b2 b1 b3"));
        assert_eq!(of("board 1 1 4 0110/piece 1 1 2 2 0011"), text("b0 b1 | p0/p0 b0 b1"));
        assert_eq!(
            of("board 1 1 1 1/piece 1 1 1 1 1/piece 1 1 1 1 1 7"),
            text("b0 | p0 p1/p0 b0/p1 b0")
        );
    }

    #[test]
    fn refusals() {
        assert_eq!(of("board 1 1 2 11/piece 2 1 1 1 1"), Err(NO_TEXT));
        assert_eq!(of("board 1 1 2 11/piece 1 1 1 1 1/piece 1 1 1 1 1"), Err(NO_TEXT));
        assert_eq!(of("board 1 1 2 00/piece 1 1 1 1 1"), Err(NO_TEXT));
        assert_eq!(of("board 1 1 1 0"), Err(NO_TEXT));
        assert_eq!(of("board 1 1 2 00/piece 129 1 1 1 1"), Err(8));
        assert_eq!(of("board 1 1 9 111111111"), Err(3));
        let two = tray("board 1 1 2 11/piece 0 1 1 1 1/piece 2 1 1 1 1/piece 1 1 1 1 1/piece 3 1 1 1 1 7");
        let counts: Vec<u32> = thinned(&two).pieces.iter().map(|piece| piece.count).collect();
        assert_eq!(counts, [0, 1, 0, 1]);
    }
}
