//! Corners of grids with empty outer layers, which carry no meaning: turns, scan order,
//! kinds, 14 and 15 are those of the stripped tray, answers are of the lent box. Layers
//! between filled ones stay, and a board with no filled cell keeps its box.

use super::accepted::{
    add_handed, cut_whole, handed, handed_or_partner, has_packings, lent_twice, plain,
    random_piece, rotated, small_board, symmetric, with_copies, with_filled,
};
use super::Parts;
use crate::grids::{self, full, in_box};
use crate::layers::{has_empty_layer, strip, strip_pieces};
use crate::limits;
use crate::placements::{self, shape};
use crate::random::Random;
use crate::refusals::{LONGEST_SIDE, MOST_FILLED, MOST_LINKS, MOST_PLACEMENTS};
use crate::tray::{Grid, Piece};

/// Puts empty layers round the board and round about half of the pieces, as they come.
pub fn add(random: &mut Random, board: &mut Grid, pieces: &mut [Piece]) {
    *board = grids::with_layers(random, board);
    for piece in pieces {
        if random.one_in(2) {
            piece.grid = grids::with_layers(random, &piece.grid);
        }
    }
}

pub const LISTED: &[(&str, fn(&mut Random) -> Option<Parts>)] = &[
    ("layers_board_low_x", |random| on_one_side(random, 0, true)),
    ("layers_board_high_x", |random| on_one_side(random, 0, false)),
    ("layers_board_low_y", |random| on_one_side(random, 1, true)),
    ("layers_board_high_y", |random| on_one_side(random, 1, false)),
    ("layers_board_low_z", |random| on_one_side(random, 2, true)),
    ("layers_board_high_z", |random| on_one_side(random, 2, false)),
    ("layers_board_all_sides", |random| {
        let (board, pieces) = plain(random)?;
        let shift = [0; 3].map(|_: u32| random.between(1, 2));
        let behind = [0; 3].map(|_: u32| random.between(1, 2));
        let sides = [0, 1, 2].map(|axis| board.sides[axis] + shift[axis] + behind[axis]);
        Some((in_box(&board, sides, shift), pieces))
    }),
    ("layers_board_in_longest_box", |random| {
        let (board, pieces) = plain(random)?;
        let shift = board.sides.map(|side| random.between(0, LONGEST_SIDE - side));
        Some((in_box(&board, [LONGEST_SIDE; 3], shift), pieces))
    }),
    ("layers_one_cell_in_any_box", |random| {
        let cell = full([1, 1, 1]);
        let board = grids::in_larger_box(random, &cell, LONGEST_SIDE);
        let grid = grids::in_larger_box(random, &cell, LONGEST_SIDE);
        let pieces = vec![Piece::new(random.between(0, 2), grid)];
        has_empty_layer(&board).then_some((board, pieces))
    }),
    ("layers_pieces", |random| {
        // Most of the drawn boxes do not fit into the board's.
        let (board, pieces) = plain(random)?;
        Some((board, in_layers(random, pieces)?))
    }),
    ("layers_pieces_in_longest_boxes", |random| {
        let (board, mut pieces) = plain(random)?;
        for piece in &mut pieces {
            piece.grid = grids::in_larger_box(random, &piece.grid, LONGEST_SIDE);
        }
        pieces.iter().any(|piece| has_empty_layer(&piece.grid)).then_some((board, pieces))
    }),
    ("layers_board_and_pieces", board_and_pieces),
    ("layers_pieces_fit_with_theirs", |random| {
        // Room for the pieces' layers inside the board's box, on either side of a piece.
        let (board, pieces) = plain(random)?;
        let sides = board.sides.map(|side| side + 2);
        let board = in_box(&board, sides, [1; 3]);
        let mut lent = pieces.clone();
        for piece in &mut lent {
            let axis = random.below(3);
            let (mut sides, mut shift) = (piece.grid.sides, [0; 3]);
            sides[axis] += 1;
            shift[axis] = random.between(0, 1);
            piece.grid = in_box(&piece.grid, sides, shift);
        }
        Some((board, lent))
    }),
    ("layers_lent_again_in_another_box", |random| {
        // A piece as it is and once more in a box of its own: one kind.
        let (board, mut pieces) = lent_twice(random)?;
        let again = random.below(pieces.len());
        let count = random.between(0, pieces[again].count);
        pieces[again].count -= count;
        let grid = boxed(random, &pieces[again].grid);
        let grid = grids::turned(random, &grid);
        pieces.insert(random.below(pieces.len() + 1), Piece::new(count, grid));
        Some((board, pieces))
    }),
    ("layers_cells_in_many_boxes", |random| {
        // One kind in as many grids as there are pieces; only the order tells the copies.
        let board = full(rotated(random, [1, 2, 3]));
        let grids: Vec<Grid> = (0..4).map(|_| boxed(random, &full([1, 1, 1]))).collect();
        let pieces = grids.into_iter().map(|grid| Piece::new(random.between(1, 2), grid));
        Some((board, pieces.collect()))
    }),
    ("layers_order_of_kinds", |random| {
        // The grid that is smallest as lent is not the smallest stripped.
        let (board, mut pieces) = plain(random)?;
        for piece in &mut pieces {
            if random.one_in(2) {
                piece.grid = boxed(random, &piece.grid);
            }
        }
        let first = |pieces: &[Piece]| {
            let kind = |number: &usize| shape(&pieces[*number].grid).normalize();
            (0..pieces.len()).min_by_key(kind)
        };
        let is_other = first(&pieces) != first(&strip_pieces(&pieces));
        (is_other && has_packings(&board, &pieces, 2)).then_some((board, pieces))
    }),
    ("layers_scan_order", |random| {
        // The longest side of the lent box is not that of the stripped one.
        let (board, pieces) = plain(random)?;
        let lent = grids::with_layers(random, &board);
        let is_other = scan_axes(&lent) != scan_axes(&board);
        (is_other && has_packings(&board, &pieces, 2)).then_some((lent, pieces))
    }),
    ("layers_scan_order_of_copies", |random| {
        // One kind: the order of the cells decides which copy lies where.
        let sides = *random.pick(&[[1, 2, 3], [2, 2, 1], [1, 2, 2], [2, 3, 1], [2, 1, 3]]);
        let board = full(sides);
        let lent = grids::with_layers(random, &board);
        let pieces = vec![Piece::new(board.cells.len() as u32, full([1, 1, 1]))];
        (scan_axes(&lent) != scan_axes(&board)).then_some((lent, pieces))
    }),
    ("layers_inner_of_the_board", |random| {
        // A layer between filled ones stays, and so does what lies on either side of it.
        let board = with_gap(random, 5);
        let parts = cut_whole(random, board, [1, 4], true)?;
        with_outer(random, parts)
    }),
    ("layers_inner_of_the_board_bridged", |random| {
        let board = with_gap(random, 4);
        let parts = cut_whole(random, board, [2, 4], false)?;
        with_outer(random, parts)
    }),
    ("layers_inner_of_pieces", |random| {
        // Pieces with a gap, which they would not fit without, or would fit else.
        let (board, mut pieces) = plain(random)?;
        for gap in [1, 2] {
            let mut sides = [1, 1, 2 + gap];
            random.shuffle(&mut sides);
            let mut grid = full(sides);
            let last = grid.cells.len() - 1;
            grid.cells[1..last].fill(0);
            let piece = Piece::new(random.between(1, 2), boxed(random, &grid));
            pieces.insert(random.below(pieces.len() + 1), piece);
        }
        Some((board, pieces))
    }),
    ("layers_inner_alone_no_packing", |random| {
        // Without its gap the piece would fill the board.
        let length = random.between(2, 5);
        let board = full(rotated(random, [1, 1, length]));
        let mut grid = full(rotated(random, [1, 1, length + 1]));
        grid.cells[random.between(1, length - 1) as usize] = 0;
        Some((board, vec![Piece::new(1, boxed(random, &grid))]))
    }),
    ("layers_unfilled_board", |random| {
        let (board, pieces) = board_and_pieces(random)?;
        let mut board = grids::in_larger_box(random, &board, LONGEST_SIDE);
        board.cells.fill(0);
        Some((board, pieces))
    }),
    ("layers_without_copies", |random| {
        let (board, mut pieces) = board_and_pieces(random)?;
        let grid = random_piece(random);
        let grid = boxed(random, &grid);
        pieces.insert(random.below(pieces.len() + 1), Piece::new(0, grid));
        Some((board, pieces))
    }),
    ("layers_handed_pair", |random| {
        let (board, pieces) = handed(random, |random, copies| Some(copies + random.between(0, 1)))?;
        Some((board, in_layers(random, pieces)?))
    }),
    ("layers_spare_copies", |random| {
        let (board, mut pieces) = board_and_pieces(random)?;
        pieces.iter_mut().for_each(|piece| piece.count += random.between(0, 2));
        Some((board, pieces))
    }),
    ("layers_woods", |random| {
        // One shape in two woods, in two boxes: two kinds, by the woods alone.
        let (board, pieces) = lent_twice(random)?;
        let mut pieces = in_layers(random, pieces)?;
        let one = random.between(0, 254) as u8;
        pieces.iter_mut().for_each(|piece| piece.wood = one + u8::from(random.one_in(2)));
        let is_mixed = pieces.iter().any(|piece| piece.wood != pieces[0].wood);
        is_mixed.then_some((board, pieces))
    }),
    ("layers_copies_128", |random| {
        let (board, pieces) = with_copies(random, 128)?;
        Some((board, in_layers(random, pieces)?))
    }),
    ("layers_filled_128", |random| {
        let (board, pieces) = with_filled(random, MOST_FILLED)?;
        let lent = grids::with_layers(random, &board);
        has_empty_layer(&lent).then_some((lent, pieces))
    }),
];

/// Boards with no piece.
pub const BOARDS: &[(&str, fn(&mut Random) -> Option<Grid>)] = &[
    ("empty_box_layers", |random| {
        let board = small_board(random);
        let board = grids::with_layers(random, &board);
        has_empty_layer(&board).then_some(board)
    }),
    ("empty_box_layers_alone", |random| {
        let board = small_board(random);
        let mut board = grids::with_layers(random, &board);
        board.cells.fill(0);
        Some(board)
    }),
];

/// Trays where it matters for the list whose turns are allowed.
pub const WHEN_IDENTIFIED: &[(&str, fn(&mut Random) -> Option<Parts>)] = &[
    ("layers_row_in_a_longer_box", |random| {
        // 1110 with a cell and a domino, and the like, on any axis.
        let (mut sides, axis) = ([1; 3], random.below(3));
        sides[axis] = random.between(2, 6);
        let (board, pieces) = cut_whole(random, full(sides), [1, 3], true)?;
        let lent = one_sided(random, &board, axis);
        turns_differ(&lent, &board, &pieces).then_some((lent, pieces))
    }),
    ("layers_turns_of_the_stripped_board", |random| {
        let (board, pieces) = symmetric(random, false)?;
        let (board, axis) = (strip(&board), random.below(3));
        let lent = one_sided(random, &board, axis);
        turns_differ(&lent, &board, &pieces).then_some((lent, pieces))
    }),
    ("layers_turns_of_a_full_board", |random| {
        let sides = *random.pick(&[[1, 2, 3], [2, 2, 2], [1, 3, 3], [2, 2, 3], [1, 2, 4]]);
        let board = full(rotated(random, sides));
        let (board, pieces) = cut_whole(random, board, [1, 4], true)?;
        let lent = grids::with_layers(random, &board);
        let pieces = in_layers(random, pieces)?;
        turns_differ(&lent, &board, &pieces).then_some((lent, pieces))
    }),
];

pub const WHEN_MIRRORED: &[(&str, fn(&mut Random) -> Option<Parts>)] = &[
    ("layers_handed_or_partner", |random| {
        // The partners in boxes of their own; and the board's mirrorings are its own.
        let sides = *random.pick(&[[2, 2, 2], [2, 2, 3], [2, 3, 2], [3, 2, 2]]);
        let (board, pieces) = handed_or_partner(random, full(sides))?;
        let lent = grids::with_layers(random, &board);
        Some((lent, in_layers(random, pieces)?))
    }),
    ("layers_handed_by_the_box_alone", |random| {
        // To the original a cell off the middle of such a box is handed; the shape is not.
        let (board, mut pieces) = plain(random)?;
        let length = random.between(1, 2);
        let grid = full(rotated(random, [1, 1, length]));
        let sides = [grid.sides[0] + 1, grid.sides[1] + 2, grid.sides[2] + 3];
        let grid = in_box(&grid, sides, [0; 3]);
        let (grid, count) = (grids::turned(random, &grid), random.between(0, 2));
        let is_handed = shape(&grid).mirror().normalize() != shape(&grid).normalize();
        pieces.insert(random.below(pieces.len() + 1), Piece::new(count, grid));
        is_handed.then_some((board, pieces))
    }),
    ("layers_spare_handed_pair", |random| {
        let (board, mut pieces) = plain(random)?;
        let counts = [random.between(0, 2), random.between(0, 2)];
        add_handed(random, &mut pieces, counts[0], Some(counts[1]));
        Some((board, in_layers(random, pieces)?))
    }),
];

/// Trays at the limits of placements and links as the stripped tray has them; and a list
/// of several pages of `pack`, whose answers are as long as the longest box has them.
pub const WITH_LONG_SEARCHES: &[(&str, fn(&mut Random) -> Option<Parts>)] = &[
    ("layers_placements_1024", |random| {
        let (board, pieces) = limits::with_placements(random, MOST_PLACEMENTS)?;
        around(random, board, pieces)
    }),
    ("layers_placements_1024_lent_again", |random| {
        let (board, pieces) = limits::with_placements(random, MOST_PLACEMENTS)?;
        lent_again(random, board, pieces)
    }),
    ("layers_links_4096", |random| {
        let (board, pieces) = limits::with_links(random, MOST_LINKS)?;
        around(random, board, pieces)
    }),
    ("layers_links_4096_lent_again", |random| {
        let (board, pieces) = limits::with_links(random, MOST_LINKS)?;
        lent_again(random, board, pieces)
    }),
    ("layers_long_list_in_longest_box", |random| {
        let sides = *random.pick(&[[1, 4, 4], [2, 2, 4], [2, 3, 3], [1, 4, 5]]);
        let board = full(rotated(random, sides));
        let (board, pieces) = cut_whole(random, board, [1, 4], true)?;
        let kinds = placements::kinds(&board, &pieces);
        let filled = placements::filled_cells(&board);
        let packings = crate::effort::packings(filled, &kinds, super::LONG)?;
        let shift = board.sides.map(|side| random.between(0, LONGEST_SIDE - side));
        let lent = in_box(&board, [LONGEST_SIDE; 3], shift);
        (260..=400).contains(&packings).then_some((lent, pieces))
    }),
];

pub const REFUSED: &[(&str, u8, fn(&mut Random) -> Option<Parts>)] = &[
    ("refused_3_layers_of_a_piece", 3, |random| {
        // Its shape is well within the limit.
        let (board, mut pieces) = plain(random)?;
        let grid = random_piece(random);
        let grid = beyond(random, &grid);
        pieces.insert(random.below(pieces.len() + 1), Piece::new(random.between(0, 1), grid));
        Some((board, pieces))
    }),
    ("refused_3_layers_of_the_board", 3, |random| {
        let (board, pieces) = plain(random)?;
        Some((beyond(random, &board), pieces))
    }),
    ("refused_6_layers_alone", 6, |random| {
        // A piece of empty layers, beside pieces in them.
        let (board, pieces) = plain(random)?;
        let mut pieces = in_layers(random, pieces)?;
        let mut none = boxed(random, &full([1, 1, 1]));
        none.cells.fill(0);
        pieces.insert(random.below(pieces.len() + 1), Piece::new(random.between(0, 2), none));
        Some((board, pieces))
    }),
    ("refused_8_layers_copies_129", 8, |random| {
        let (board, pieces) = with_copies(random, 129)?;
        Some((board, in_layers(random, pieces)?))
    }),
    ("refused_9_layers_filled_129", 9, |random| {
        let (board, pieces) = with_filled(random, MOST_FILLED + 1)?;
        let lent = grids::with_layers(random, &board);
        has_empty_layer(&lent).then_some((lent, pieces))
    }),
    ("refused_14_layers_placements_1025", 14, |random| {
        let (board, pieces) = limits::with_placements(random, MOST_PLACEMENTS + 1)?;
        around(random, board, pieces)
    }),
    ("refused_14_layers_that_fit_nowhere", 14, |random| {
        // With their layers no piece fits into the board's box.
        let (board, mut pieces) = limits::with_placements(random, MOST_PLACEMENTS + 1)?;
        for piece in &mut pieces {
            let longer = |side: u32| (side + 1).max(board.sides[0] + 1).min(LONGEST_SIDE);
            let sides = piece.grid.sides.map(longer);
            piece.grid = in_box(&piece.grid, sides, [0; 3]);
        }
        Some((board, pieces))
    }),
    ("refused_15_layers_links_4097", 15, |random| {
        let (board, pieces) = limits::with_links(random, MOST_LINKS + 1)?;
        around(random, board, pieces)
    }),
];

/// The grid with an empty layer somewhere; the longest box stays as it is.
fn boxed(random: &mut Random, grid: &Grid) -> Grid {
    loop {
        let lent = grids::with_layers(random, grid);
        if lent.sides != grid.sides || grid.sides == [LONGEST_SIDE; 3] {
            return lent;
        }
    }
}

/// The pieces, some in empty layers; None if none is.
fn in_layers(random: &mut Random, mut pieces: Vec<Piece>) -> Option<Vec<Piece>> {
    for piece in &mut pieces {
        if !random.one_in(4) {
            piece.grid = grids::with_layers(random, &piece.grid);
        }
    }
    pieces.iter().any(|piece| has_empty_layer(&piece.grid)).then_some(pieces)
}

fn board_and_pieces(random: &mut Random) -> Option<Parts> {
    let parts = plain(random)?;
    with_outer(random, parts)
}

/// Empty layers round the board, and round some of the pieces.
fn with_outer(random: &mut Random, (board, pieces): Parts) -> Option<Parts> {
    let lent = grids::with_layers(random, &board);
    has_empty_layer(&lent).then_some((lent, in_layers(random, pieces)?))
}

/// A tray at a limit with empty layers: round the board, round the pieces, or both.
fn around(random: &mut Random, board: Grid, pieces: Vec<Piece>) -> Option<Parts> {
    let which = random.below(3);
    let lent = if which == 0 { board } else { boxed(random, &board) };
    let pieces = if which == 1 { pieces } else { in_layers(random, pieces)? };
    Some((lent, pieces))
}

/// One of the pieces once more, without copies, in another box: no further kind.
fn lent_again(random: &mut Random, board: Grid, mut pieces: Vec<Piece>) -> Option<Parts> {
    let again = random.pick(&pieces).grid.clone();
    let grid = boxed(random, &again);
    let grid = grids::turned(random, &grid);
    pieces.insert(random.below(pieces.len() + 1), Piece::new(0, grid));
    (pieces.len() <= 16).then_some((board, pieces))
}

/// One or two empty layers on one side of a board alone.
fn on_one_side(random: &mut Random, axis: usize, is_low: bool) -> Option<Parts> {
    let (board, pieces) = plain(random)?;
    let (mut sides, mut shift, layers) = (board.sides, [0; 3], random.between(1, 2));
    sides[axis] += layers;
    if is_low {
        shift[axis] = layers;
    }
    Some((in_box(&board, sides, shift), pieces))
}

/// The board with more empty layers on one side of the axis than on the other.
fn one_sided(random: &mut Random, board: &Grid, axis: usize) -> Grid {
    let (mut sides, mut shift) = (board.sides, [0; 3]);
    let layers = random.between(1, 2).min(LONGEST_SIDE - sides[axis]);
    sides[axis] += layers;
    if random.one_in(2) {
        shift[axis] = layers;
    }
    in_box(board, sides, shift)
}

/// Whether a turn keeps the board that does not keep the lent box, and there are
/// packings to be identified by it.
fn turns_differ(lent: &Grid, board: &Grid, pieces: &[Piece]) -> bool {
    let turns = |grid: &Grid| shape(grid).compute_symmetry().len();
    turns(lent) < turns(board) && has_packings(board, pieces, 2)
}

/// The axes in the order in which the scan compares them.
fn scan_axes(board: &Grid) -> [usize; 3] {
    let mut axes = [2, 1, 0];
    axes.sort_by_key(|&axis| std::cmp::Reverse(board.sides[axis]));
    axes
}

/// A board with an empty layer between filled ones.
fn with_gap(random: &mut Random, longest: u32) -> Grid {
    let (mut sides, axis) = ([0; 3].map(|_: u32| random.between(1, 2)), random.below(3));
    sides[axis] = random.between(3, longest);
    let gap = random.between(1, sides[axis] - 2);
    let mut board = full(sides);
    let cells = grids::filled(&board);
    for (filled, cell) in board.cells.iter_mut().zip(cells) {
        *filled = u8::from(cell[axis] != gap);
    }
    board
}

/// The grid in a box with a side beyond the limit.
fn beyond(random: &mut Random, grid: &Grid) -> Grid {
    let (mut sides, axis) = (grid.sides, random.below(3));
    sides[axis] = *random.pick(&[9, 10, 12]);
    let mut shift = [0; 3];
    shift[axis] = random.between(0, sides[axis] - grid.sides[axis]);
    in_box(grid, sides, shift)
}
