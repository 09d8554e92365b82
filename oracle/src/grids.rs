//! Random grids: boards of many forms, pieces grown, scattered, or cut from a board.

use crate::layers;
use crate::placements::shape;
use crate::random::Random;
use crate::refusals::LONGEST_SIDE;
use crate::shape::{Coord, Shape, MIRROR_TRANSFORMS, TRANSFORMS};
use crate::tray::{Grid, Piece};

pub type Cell = [u32; 3];

pub fn full(sides: [u32; 3]) -> Grid {
    Grid { sides, cells: vec![1; sides.iter().product::<u32>() as usize] }
}

pub fn grid_of(shape: &Shape) -> Grid {
    let Coord(a, b, c) = shape.dims();
    let cells = shape.data.iter().map(|&cell| u8::from(cell)).collect();
    Grid { sides: [a as u32, b as u32, c as u32], cells }
}

pub fn filled(grid: &Grid) -> Vec<Cell> {
    let [_, b, c] = grid.sides;
    let place = |index: u32| [index / (b * c), index / c % b, index % c];
    (0..).zip(&grid.cells).filter(|(_, &cell)| cell == 1).map(|(index, _)| place(index)).collect()
}

/// The grid of these cells without empty outer layers.
pub fn trimmed(cells: &[Cell]) -> Grid {
    let low = [0, 1, 2].map(|axis| cells.iter().map(|cell| cell[axis]).min().unwrap());
    let high = [0, 1, 2].map(|axis| cells.iter().map(|cell| cell[axis]).max().unwrap());
    let sides = [0, 1, 2].map(|axis| high[axis] - low[axis] + 1);
    let mut grid = full(sides);
    grid.cells.fill(0);
    for cell in cells {
        let [x, y, z] = [0, 1, 2].map(|axis| cell[axis] - low[axis]);
        grid.cells[((x * sides[1] + y) * sides[2] + z) as usize] = 1;
    }
    grid
}

fn are_neighbours(one: Cell, other: Cell) -> bool {
    (0..3).map(|axis| one[axis].abs_diff(other[axis])).sum::<u32>() == 1
}

/// Takes up to `size` of the free cells away, each but the first beside another
/// taken one if the piece is to hang together.
fn take(random: &mut Random, free: &mut Vec<Cell>, size: usize, hangs_together: bool) -> Vec<Cell> {
    let mut taken: Vec<Cell> = vec![];
    while taken.len() < size {
        let choices: Vec<usize> = (0..free.len())
            .filter(|&index| {
                let is_beside = |&cell: &Cell| are_neighbours(cell, free[index]);
                taken.is_empty() || !hangs_together || taken.iter().any(is_beside)
            })
            .collect();
        if choices.is_empty() {
            break;
        }
        taken.push(free.swap_remove(*random.pick(&choices)));
    }
    taken
}

/// A piece of at most `size` cells out of a box.
pub fn piece_within(random: &mut Random, sides: [u32; 3], size: u32, hangs_together: bool) -> Grid {
    trimmed(&take(random, &mut filled(&full(sides)), size as usize, hangs_together))
}

/// Cuts the whole board into pieces of the given sizes, each turned at random.
pub fn cut(random: &mut Random, board: &Grid, sizes: [u32; 2], hang_together: bool) -> Vec<Grid> {
    let mut free = filled(board);
    let mut pieces = vec![];
    while !free.is_empty() {
        let size = random.between(sizes[0], sizes[1]) as usize;
        let cells = take(random, &mut free, size, hang_together);
        pieces.push(turned(random, &trimmed(&cells)));
    }
    pieces
}

/// Lends the grids in any order, grids of one kind as copies of one piece.
pub fn lend(random: &mut Random, mut grids: Vec<Grid>) -> Vec<Piece> {
    random.shuffle(&mut grids);
    let mut pieces: Vec<Piece> = vec![];
    for grid in grids {
        match pieces.iter_mut().find(|piece| is_same_kind(&piece.grid, &grid)) {
            Some(piece) => piece.count += 1,
            None => pieces.push(Piece::new(1, grid)),
        }
    }
    pieces
}

pub fn turned(random: &mut Random, grid: &Grid) -> Grid {
    grid_of(random.pick(&shape(grid).enumerate_transforms()))
}

pub fn mirrored(grid: &Grid) -> Grid {
    grid_of(&shape(grid).mirror())
}

/// Whether pieces with these grids are of one kind if their woods agree.
pub fn is_same_kind(one: &Grid, other: &Grid) -> bool {
    let kind = |grid| shape(&layers::strip(grid)).normalize();
    kind(one) == kind(other)
}

pub fn is_handed(grid: &Grid) -> bool {
    !is_same_kind(grid, &mirrored(grid))
}

/// Unfills cells of a board at random, about one in `chances`.
pub fn with_holes(random: &mut Random, mut board: Grid, chances: usize) -> Grid {
    for cell in &mut board.cells {
        if random.one_in(chances) {
            *cell = 0;
        }
    }
    board
}

/// Unfills all that is needed for the board to be brought onto itself by a map
/// chosen at random, a turn or a mirroring.
pub fn made_symmetric(random: &mut Random, board: &Grid, by_mirroring: bool) -> Grid {
    let maps = if by_mirroring { MIRROR_TRANSFORMS } else { TRANSFORMS };
    let mut board = shape(board);
    let keeps_sides = |map: &&_| board.apply_transform(**map).dims() == board.dims();
    let fitting: Vec<_> = maps.iter().filter(keeps_sides).collect();
    let map = **random.pick(&fitting);
    loop {
        let image = board.apply_transform(map);
        if image == board {
            return grid_of(&board);
        }
        for (cell, moved) in board.data.iter_mut().zip(&image.data) {
            *cell &= moved;
        }
    }
}

pub fn has_mirroring(board: &Grid) -> bool {
    !shape(board).compute_mirroring_symmetry().is_empty()
}

/// Sets the grid into a larger box, with empty layers round it.
pub fn in_larger_box(random: &mut Random, grid: &Grid, largest: u32) -> Grid {
    let sides = grid.sides.map(|side| random.between(side, largest.max(side)));
    let shift = [0, 1, 2].map(|axis| random.between(0, sides[axis] - grid.sides[axis]));
    in_box(grid, sides, shift)
}

/// The grid in a box of these sides, its first cell at `shift`.
pub fn in_box(grid: &Grid, sides: [u32; 3], shift: [u32; 3]) -> Grid {
    let mut larger = full(sides);
    larger.cells.fill(0);
    for cell in filled(grid) {
        let [x, y, z] = [0, 1, 2].map(|axis| cell[axis] + shift[axis]);
        larger.cells[((x * sides[1] + y) * sides[2] + z) as usize] = 1;
    }
    larger
}

/// The grid with up to two empty layers on each of its six sides, as far as no side of
/// the box passes 8. (One that is at fault by a side stays as it is.)
pub fn with_layers(random: &mut Random, grid: &Grid) -> Grid {
    if grid.sides.iter().any(|side| !(1..=LONGEST_SIDE).contains(side)) {
        return grid.clone();
    }
    let (mut sides, mut shift) = (grid.sides, [0; 3]);
    for axis in 0..3 {
        let room = LONGEST_SIDE - sides[axis];
        shift[axis] = random.between(0, room.min(2));
        let behind = random.between(0, (room - shift[axis]).min(2));
        sides[axis] += shift[axis] + behind;
    }
    in_box(grid, sides, shift)
}
