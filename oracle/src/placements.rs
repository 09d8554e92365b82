//! Kinds and their placements, as far as the limits and the cost of a search
//! need them: each placement is the set of board cells that it covers.

use crate::layers;
use crate::shape::{Coord, Shape};
use crate::tray::{Grid, Piece};

/// Sets of board cells have one bit a cell.
pub const MOST_CELLS: usize = 128;

pub struct Kind {
    pub copies: u64,
    pub cells: usize,
    /// Bit n is the filled board cell with scan number n; ascending by (p, j).
    pub rows: Vec<u128>,
}

/// The original's shape of a grid.
pub fn shape(grid: &Grid) -> Shape {
    let [a, b, c] = grid.sides.map(|side| side as i32);
    Shape::new(grid.cells.iter().map(|&cell| cell == 1).collect(), Coord(a, b, c))
}

pub fn filled_cells(grid: &Grid) -> usize {
    grid.cells.iter().filter(|&&cell| cell == 1).count()
}

/// The kinds of the pieces, by smallest grid, then by wood, with their placements
/// on a board of at most `MOST_CELLS` filled cells. Empty outer layers of both are
/// taken off first. No piece may be empty.
pub fn kinds(board: &Grid, pieces: &[Piece]) -> Vec<Kind> {
    let (board, pieces) = (&layers::strip(board), layers::strip_pieces(pieces));
    let numbers = scan_numbers(board);

    let mut lent: Vec<((Shape, u8), u64)> = pieces
        .iter()
        .map(|piece| ((shape(&piece.grid).normalize(), piece.wood), u64::from(piece.count)))
        .collect();
    lent.sort();

    let mut kinds: Vec<Kind> = vec![];
    let mut last: Option<(Shape, u8)> = None;
    for (kind, copies) in lent {
        if last.as_ref() == Some(&kind) {
            kinds.last_mut().unwrap().copies += copies;
            continue;
        }
        let smallest = &kind.0;
        let variants = smallest.enumerate_transforms();
        let mut rows: Vec<u128> =
            variants.iter().flat_map(|variant| rows(board, &numbers, variant)).collect();
        // The origin is the first cell in scan order; the sort keeps variants in order.
        rows.sort_by_key(|row| row.trailing_zeros());
        let cells = smallest.data.iter().filter(|&&cell| cell).count();
        kinds.push(Kind { copies, cells, rows });
        last = Some(kind);
    }
    kinds
}

/// How many placements one piece has on the board, in any of its turns.
pub fn placements_of(board: &Grid, piece: &Grid) -> usize {
    let one = Piece::new(1, piece.clone());
    kinds(board, &[one])[0].rows.len()
}

/// One for each filled board cell, each kind, each row and each cell of a row.
/// Kinds without copies have no rows.
pub fn links(filled: usize, kinds: &[Kind]) -> usize {
    let rows: usize = kinds
        .iter()
        .filter(|kind| kind.copies > 0)
        .map(|kind| kind.rows.len() * (1 + kind.cells))
        .sum();
    filled + kinds.len() + rows
}

fn cell_index(grid: &Grid, cell: [u32; 3]) -> usize {
    ((cell[0] * grid.sides[1] + cell[1]) * grid.sides[2] + cell[2]) as usize
}

/// For each cell of the board's box its number in scan order, unfilled cells None.
pub fn scan_numbers(board: &Grid) -> Vec<Option<u32>> {
    // The longest side is compared first; of equal sides z before y before x.
    let mut axes = [2, 1, 0];
    axes.sort_by_key(|&axis| std::cmp::Reverse(board.sides[axis]));

    let mut filled = vec![];
    for x in 0..board.sides[0] {
        for y in 0..board.sides[1] {
            for z in 0..board.sides[2] {
                if board.cells[cell_index(board, [x, y, z])] == 1 {
                    filled.push([x, y, z]);
                }
            }
        }
    }
    filled.sort_by_key(|cell| axes.map(|axis| cell[axis]));

    let mut numbers = vec![None; board.cells.len()];
    for (number, &cell) in filled.iter().enumerate() {
        numbers[cell_index(board, cell)] = Some(number as u32);
    }
    numbers
}

fn rows(board: &Grid, numbers: &[Option<u32>], variant: &Shape) -> Vec<u128> {
    let Coord(a, b, c) = variant.dims();
    let sides = [a as u32, b as u32, c as u32];
    let offsets: Vec<Coord> = crate::utils::coord_iterator(variant).collect();
    let room = |axis: usize| 0..(board.sides[axis] + 1).saturating_sub(sides[axis]);

    let mut rows = vec![];
    for x in room(0) {
        for y in room(1) {
            for z in room(2) {
                let covered = offsets.iter().try_fold(0u128, |set, offset| {
                    let cell = [x + offset.0 as u32, y + offset.1 as u32, z + offset.2 as u32];
                    numbers[cell_index(board, cell)].map(|number| set | 1 << number)
                });
                rows.extend(covered);
            }
        }
    }
    rows
}
