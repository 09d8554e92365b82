//! Trays at a limit and one beyond it: pieces chosen from a pool until the
//! placements, or the links, come to exactly the wanted number.

use crate::grids;
use crate::placements;
use crate::random::Random;
use crate::refusals::MOST_PIECES;
use crate::tray::{Grid, Piece};

/// A piece of the pool and what it adds to the sum.
struct Choice {
    grid: Grid,
    adds: usize,
}

/// Pieces of different kinds, each of `sizes` cells, that fit on the board.
fn pool(
    random: &mut Random,
    board: &Grid,
    sizes: [u32; 2],
    adds: fn(usize, usize) -> usize,
) -> Vec<Choice> {
    let mut pool: Vec<Choice> = vec![];
    for _ in 0..60 {
        let size = random.between(sizes[0], sizes[1]);
        let hangs_together = !random.one_in(4);
        let within = board.sides.map(|side| side.min(3));
        let grid = grids::piece_within(random, within, size, hangs_together);
        let grid = grids::turned(random, &grid);
        let placements = placements::placements_of(board, &grid);
        if placements > 0 && !pool.iter().any(|known| grids::is_same_kind(&known.grid, &grid)) {
            let adds = adds(placements, placements::filled_cells(&grid));
            pool.push(Choice { grid, adds });
        }
    }
    pool
}

/// Choices that add up to the sum, or fall short of it by no more than `slack`:
/// some at random, the last two searched for.
fn with_sum(
    random: &mut Random,
    mut pool: Vec<Choice>,
    sum: usize,
    slack: usize,
) -> Option<Vec<Grid>> {
    random.shuffle(&mut pool);
    let mut taken = vec![];
    let mut rest = sum;
    while taken.len() + 2 <= MOST_PIECES {
        let near = rest.saturating_sub(slack)..=rest;
        for first in 0..pool.len() {
            for second in 0..first {
                if near.contains(&(pool[first].adds + pool[second].adds)) {
                    taken.push(pool.swap_remove(first).grid);
                    taken.push(pool.swap_remove(second).grid);
                    return Some(taken);
                }
            }
        }
        let next = pool.pop()?;
        rest = rest.checked_sub(next.adds)?;
        taken.push(next.grid);
    }
    None
}

/// Lends the grids behind the pieces, None if one of them is of a kind already lent.
fn with_spares(mut pieces: Vec<Piece>, grids: Vec<Grid>, count: u32) -> Option<Vec<Piece>> {
    for grid in grids {
        if pieces.iter().any(|piece| grids::is_same_kind(&piece.grid, &grid)) {
            return None;
        }
        pieces.push(Piece::new(count, grid));
    }
    Some(pieces)
}

/// A board and pieces with exactly so many placements. The pieces with copies
/// can pack the board; those without bring the placements up to the number.
pub fn with_placements(random: &mut Random, number: usize) -> Option<(Grid, Vec<Piece>)> {
    let sides = *random.pick(&[[4, 4, 4], [3, 5, 5], [2, 6, 6], [4, 5, 3], [8, 4, 2], [1, 8, 8]]);
    let board = grids::with_holes(random, grids::full(sides), 12);
    let filled = placements::filled_cells(&board);
    let pieces = if random.one_in(2) {
        vec![Piece::new(filled as u32, grids::full([1, 1, 1]))]
    } else {
        let grids = grids::cut(random, &board, [8, 20], true);
        grids::lend(random, grids)
    };
    let kinds = placements::kinds(&board, &pieces);
    let placements: usize = kinds.iter().map(|kind| kind.rows.len()).sum();
    let pool = pool(random, &board, [2, 6], |placements, _| placements);
    let spares = with_sum(random, pool, number.checked_sub(placements)?, 0)?;
    let mut pieces = with_spares(pieces, spares, 0)?;
    // Where the search allows it, one of them has a copy after all.
    if random.one_in(2) {
        pieces.last_mut().unwrap().count = 1;
    }
    (pieces.len() <= MOST_PIECES).then_some((board, pieces))
}

/// A board, the pieces it is cut into and spare ones, with exactly so many
/// links: kinds that fit nowhere, each one link, bring them up to the number.
pub fn with_links(random: &mut Random, number: usize) -> Option<(Grid, Vec<Piece>)> {
    let sides = *random.pick(&[[3, 3, 3], [3, 3, 4], [4, 3, 4], [4, 4, 4], [3, 5, 3], [2, 5, 5]]);
    let board = grids::with_holes(random, grids::full(sides), 20);
    let grids = grids::cut(random, &board, [6, 14], true);
    let pieces = grids::lend(random, grids);

    let missing = number.checked_sub(links(&board, &pieces))?;
    // A link for the kind, and for each row one and one for each of its cells.
    let pool = pool(random, &board, [6, 12], |placements, cells| 1 + placements * (1 + cells));
    let spares = with_sum(random, pool, missing, 4)?;
    let mut pieces = with_spares(pieces, spares, 1)?;

    let missing = number - links(&board, &pieces);
    for thickness in 1..=missing as u32 {
        let grid = grids::full([1, thickness, 8]);
        pieces.push(Piece::new(random.between(0, 2), grid));
    }
    (pieces.len() <= MOST_PIECES).then_some((board, pieces))
}

fn links(board: &Grid, pieces: &[Piece]) -> usize {
    placements::links(placements::filled_cells(board), &placements::kinds(board, pieces))
}
