//! Corners of accepted trays. Most boards are cut into the pieces, so that at
//! least one packing exists.

use super::{Parts, SHORT};
use crate::effort;
use crate::grids::{self, full};
use crate::limits;
use crate::placements;
use crate::random::Random;
use crate::refusals::{LONGEST_SIDE, MOST_FILLED};
use crate::tray::{Grid, Piece};

pub const ACCEPTED: &[(&str, fn(&mut Random) -> Option<Parts>)] = &[
    ("plain", plain),
    ("pieces_apart", |random| {
        let board = small_board(random);
        cut_whole(random, board, [1, 5], false)
    }),
    ("lent_twice_turned", lent_twice),
    ("lent_twice_one_without_copies", |random| {
        let (board, mut pieces) = lent_twice(random)?;
        let again = random.below(pieces.len());
        let grid = grids::turned(random, &pieces[again].grid);
        pieces.insert(random.below(pieces.len() + 1), Piece::new(0, grid));
        Some((board, pieces))
    }),
    ("handed_with_partner", |random| handed(random, |_, copies| Some(copies))),
    ("handed_without_partner", |random| handed(random, |_, _| None)),
    ("handed_with_more_of_the_partner", |random| {
        handed(random, |random, copies| Some(copies + random.between(1, 2)))
    }),
    ("handed_with_fewer_of_the_partner", |random| handed(random, |_, copies| Some(copies - 1))),
    ("handed_with_partner_without_copies", |random| handed(random, |_, _| Some(0))),
    ("handed_spare", |random| {
        let (board, mut pieces) = plain(random)?;
        let count = random.between(0, 2);
        add_handed(random, &mut pieces, count, None);
        Some((board, pieces))
    }),
    ("handed_pair_spare", |random| {
        let (board, mut pieces) = plain(random)?;
        let counts = [random.between(0, 2), random.between(0, 2)];
        add_handed(random, &mut pieces, counts[0], Some(counts[1]));
        Some((board, pieces))
    }),
    ("handed_twins", handed_twins),
    ("without_copies", |random| {
        let (board, mut pieces) = plain(random)?;
        for _ in 0..random.between(1, 3) {
            let grid = random_piece(random);
            pieces.insert(random.below(pieces.len() + 1), Piece::new(0, grid));
        }
        Some((board, pieces))
    }),
    ("without_copies_fits_rarely", |random| {
        let board = grids::with_holes(random, full([1, 2, 4]), 5);
        let (board, mut pieces) = cut_whole(random, board, [1, 2], true)?;
        let grid = grids::piece_within(random, [1, 2, 4], 5, false);
        pieces.push(Piece::new(0, grid));
        Some((board, pieces))
    }),
    ("without_copies_changes_knuths_order", |random| {
        let sides = *random.pick(&[[1, 2, 4], [1, 3, 3], [2, 2, 3], [1, 2, 5], [1, 3, 4]]);
        let board = full(rotated(random, sides));
        let board = grids::with_holes(random, board, 5);
        let (board, mut pieces) = cut_whole(random, board, [1, 3], true)?;
        let size = random.between(3, 6);
        let grid = grids::piece_within(random, board.sides, size, false);
        pieces.insert(random.below(pieces.len() + 1), Piece::new(0, grid));
        let kinds = placements::kinds(&board, &pieces);
        let filled = placements::filled_cells(&board);
        effort::is_knuths_order_changed(filled, &kinds, SHORT).then_some((board, pieces))
    }),
    ("without_copies_smallest_kind", |random| {
        let board = small_board(random);
        let (board, mut pieces) = cut_whole(random, board, [2, 4], true)?;
        pieces.push(Piece::new(0, full([1, 1, 1])));
        Some((board, pieces))
    }),
    ("all_without_copies", all_without_copies),
    ("all_without_copies_unfilled_board", |random| {
        // Pieces are lent here, and none of them is in the box.
        let (mut board, pieces) = all_without_copies(random)?;
        board.cells.fill(0);
        Some((board, pieces))
    }),
    ("spare_pieces", |random| {
        let (board, mut pieces) = plain(random)?;
        for _ in 0..random.between(1, 4) {
            let piece = Piece::new(random.between(1, 3), random_piece(random));
            pieces.insert(random.below(pieces.len() + 1), piece);
        }
        Some((board, pieces))
    }),
    ("spare_copies", |random| {
        let (board, mut pieces) = plain(random)?;
        pieces.iter_mut().for_each(|piece| piece.count += random.between(0, 3));
        Some((board, pieces))
    }),
    ("too_few_pieces", |random| {
        let (board, mut pieces) = plain(random)?;
        let short = random.below(pieces.len());
        pieces[short].count -= 1;
        Some((board, pieces))
    }),
    ("no_piece_fits", |random| {
        let piece = Piece::new(random.between(1, 3), full([2, 2, 2]));
        Some((full([1, random.between(1, 8), random.between(1, 8)]), vec![piece]))
    }),
    ("board_with_holes", |random| {
        let board = small_board(random);
        let board = grids::with_holes(random, board, 4);
        cut_whole(random, board, [1, 4], true)
    }),
    ("board_in_two_parts", |random| {
        let mut board = full([2, 2, 5]);
        let gap = random.between(1, 3) as usize;
        (0..4).for_each(|row| board.cells[row * 5 + gap] = 0);
        cut_whole(random, board, [2, 4], true)
    }),
    ("board_with_empty_outer_layers", |random| {
        let board = small_board(random);
        let board = grids::in_larger_box(random, &board, 5);
        cut_whole(random, board, [2, 4], true)
    }),
    ("board_in_longest_box", |random| {
        let board = small_board(random);
        let board = grids::in_larger_box(random, &board, LONGEST_SIDE);
        cut_whole(random, board, [2, 5], true)
    }),
    ("board_without_filled_cell", |random| {
        let (mut board, mut pieces) = plain(random)?;
        board.cells.fill(0);
        if random.one_in(3) {
            let count = random.between(0, 1);
            add_handed(random, &mut pieces, count, None);
        }
        Some((board, pieces))
    }),
    ("flat_board", |random| {
        let sides = [1, random.between(2, 4), random.between(2, 5)];
        let board = full(rotated(random, sides));
        cut_whole(random, board, [2, 5], true)
    }),
    ("flat_board_with_holes", |random| {
        let sides = [1, random.between(3, 5), random.between(3, 5)];
        let board = full(rotated(random, sides));
        let board = grids::with_holes(random, board, 4);
        cut_whole(random, board, [1, 4], true)
    }),
    ("long_board", |random| {
        let sides = [1, 1, random.between(4, 8)];
        let board = full(rotated(random, sides));
        cut_whole(random, board, [1, 3], true)
    }),
    ("long_board_pieces_apart", |random| {
        let sides = [1, 1, random.between(5, 8)];
        let board = full(rotated(random, sides));
        cut_whole(random, board, [2, 3], false)
    }),
    ("cube", |random| {
        let side = random.between(2, 3);
        cut_whole(random, full([side; 3]), [3, 5], true)
    }),
    ("two_sides_equal", |random| {
        let sides = rotated(random, [2, 2, 3]);
        cut_whole(random, full(sides), [2, 4], true)
    }),
    ("two_longest_sides_equal", |random| {
        let sides = rotated(random, [2, 3, 3]);
        cut_whole(random, full(sides), [3, 5], true)
    }),
    ("three_unequal_sides", |random| {
        let mut sides = [2, 3, 4];
        random.shuffle(&mut sides);
        cut_whole(random, full(sides), [4, 6], true)
    }),
    ("board_kept_by_a_turn", |random| symmetric(random, false)),
    ("board_kept_by_a_mirroring", |random| symmetric(random, true)),
    ("handed_board", |random| {
        let (board, pieces) = symmetric(random, false)?;
        (!grids::has_mirroring(&board)).then_some((board, pieces))
    }),
    ("kind_0_placed_first_in_a_cube", |random| {
        let (board, pieces) = cut_whole(random, full([3, 3, 3]), [2, 6], true)?;
        let kinds = placements::kinds(&board, &pieces);
        (kinds[0].copies == 1).then_some((board, pieces))
    }),
    ("one_kind", |random| {
        let grid = random_piece(random);
        let board = small_board(random);
        let count = random.between(1, 12);
        Some((board, vec![Piece::new(count, grid)]))
    }),
    ("dominoes", |random| {
        let board = full([1, random.between(2, 4), random.between(2, 5)]);
        let board = grids::with_holes(random, board, 8);
        let count = random.between(1, 10);
        Some((board, vec![Piece::new(count, full([1, 1, 2]))]))
    }),
    ("more_than_64_cells", |random| {
        let sides =
            *random.pick(&[[3, 5, 5], [4, 4, 5], [2, 6, 6], [1, 8, 8], [2, 8, 5], [4, 5, 5]]);
        let mut board = grids::with_holes(random, full(sides), 30);
        if random.one_in(3) {
            board = grids::made_symmetric(random, &board, false);
        }
        let parts = cut_whole(random, board, [8, 20], true)?;
        (placements::filled_cells(&parts.0) > 64).then_some(parts)
    }),
    ("more_than_64_cells_small_pieces", |random| {
        let sides = *random.pick(&[[1, 8, 8], [2, 5, 7], [3, 5, 5], [2, 6, 6]]);
        let mut board = grids::in_larger_box(random, &full(sides), 8);
        let hole = random.below(board.cells.len());
        board.cells[hole] ^= 1;
        let (board, mut pieces) = cut_whole(random, board, [10, 24], true)?;
        add_small(random, &mut pieces);
        (placements::filled_cells(&board) > 64).then_some((board, pieces))
    }),
    ("side_8", |random| {
        let sides = [random.between(1, 2), random.between(1, 3), 8];
        let board = full(rotated(random, sides));
        let (board, mut pieces) = cut_whole(random, board, [5, 9], true)?;
        pieces.push(Piece::new(random.between(0, 1), full([1, 8, 1])));
        Some((board, pieces))
    }),
    ("pieces_16", |random| {
        let (board, mut pieces) = plain(random)?;
        while pieces.len() < 16 {
            let count = random.between(0, 1);
            pieces.push(Piece::new(count, random_piece(random)));
        }
        random.shuffle(&mut pieces);
        Some((board, pieces))
    }),
    ("pieces_16_lent_again", |random| {
        let (board, mut pieces) = plain(random)?;
        while pieces.len() < 16 {
            let again = random.pick(&pieces).grid.clone();
            let grid = grids::turned(random, &again);
            pieces.push(Piece::new(u32::from(random.one_in(6)), grid));
        }
        random.shuffle(&mut pieces);
        Some((board, pieces))
    }),
    ("copies_128", |random| with_copies(random, 128)),
    ("copies_128_all_used", |_| Some((full([4, 4, 8]), vec![Piece::new(128, full([1, 1, 1]))]))),
    ("filled_128", |random| with_filled(random, MOST_FILLED)),
];

/// Trays where it matters how packings are compared with their mirror images:
/// a handed kind and its partner can each do what the other does.
pub const WHEN_MIRRORED: &[(&str, fn(&mut Random) -> Option<Parts>)] = &[
    ("handed_or_partner_in_a_cube", |random| handed_or_partner(random, full([2, 2, 2]))),
    ("handed_or_partner_in_a_box", |random| {
        let sides = rotated(random, [2, 2, 3]);
        handed_or_partner(random, full(sides))
    }),
    ("handed_or_partner_on_a_board_with_holes", |random| {
        let sides = rotated(random, [2, 3, 3]);
        let board = grids::with_holes(random, full(sides), 8);
        let board = grids::made_symmetric(random, &board, true);
        handed_or_partner(random, board)
    }),
];

/// Trays where it matters for Fast's order whether kind 0 is placed first.
pub const WHEN_IDENTIFIED_FAST: &[(&str, fn(&mut Random) -> Option<Parts>)] = &[
    ("kind_0_placed_first", |random| {
        let parts = little_symmetric(random)?;
        let kinds = placements::kinds(&parts.0, &parts.1);
        (kinds[0].copies == 1).then_some(parts)
    }),
    ("kind_0_not_first_for_spare_cells", |random| {
        let (board, mut pieces) = little_symmetric(random)?;
        let spare = random.below(pieces.len());
        pieces[spare].count += 1;
        let kinds = placements::kinds(&board, &pieces);
        (kinds[0].copies == 1).then_some((board, pieces))
    }),
    ("kind_0_not_first_without_copies", |random| {
        let (board, mut pieces) = little_symmetric(random)?;
        let smaller = Piece::new(0, full([1, 1, 1]));
        pieces.insert(random.below(pieces.len() + 1), smaller);
        let kinds = placements::kinds(&board, &pieces);
        (kinds[0].copies == 0 && kinds[1].copies == 1).then_some((board, pieces))
    }),
];

pub const WITH_LONG_SEARCHES: &[(&str, fn(&mut Random) -> Option<Parts>)] = &[
    ("long_list_of_dominoes", |random| {
        let sides =
            *random.pick(&[[1, 4, 4], [1, 5, 4], [1, 4, 6], [2, 4, 2], [2, 2, 5], [3, 2, 3]]);
        let board = full(rotated(random, sides));
        let count = board.cells.len() as u32 / 2 + random.between(0, 1);
        Some((board, vec![Piece::new(count, full([1, 1, 2]))]))
    }),
    ("long_list_of_small_pieces", |random| {
        let board = full(*random.pick(&[[2, 2, 4], [1, 4, 4], [2, 3, 3], [1, 3, 6]]));
        cut_whole(random, board, [1, 4], true)
    }),
    ("long_search_in_a_cube", |random| cut_whole(random, full([3, 3, 3]), [3, 6], true)),
    ("placements_1024", |random| limits::with_placements(random, 1_024)),
    ("links_4096", |random| limits::with_links(random, 4_096)),
];

/// A small tray that can be packed, of any form.
pub fn plain(random: &mut Random) -> Option<Parts> {
    let board = small_board(random);
    cut_whole(random, board, [1, 5], true)
}

pub fn small_board(random: &mut Random) -> Grid {
    let sides = [random.between(1, 3), random.between(1, 3), random.between(1, 4)];
    full(rotated(random, sides))
}

pub fn rotated(random: &mut Random, mut sides: [u32; 3]) -> [u32; 3] {
    sides.rotate_left(random.below(3));
    sides
}

/// The board with the pieces that it is cut into, at most 16; None if it has no filled cell.
pub fn cut_whole(
    random: &mut Random,
    board: Grid,
    sizes: [u32; 2],
    hang_together: bool,
) -> Option<Parts> {
    let grids = grids::cut(random, &board, sizes, hang_together);
    let pieces = grids::lend(random, grids);
    (1..=16).contains(&pieces.len()).then_some((board, pieces))
}

pub fn random_piece(random: &mut Random) -> Grid {
    let (size, hangs_together) = (random.between(1, 5), !random.one_in(4));
    let grid = grids::piece_within(random, [2, 2, 3], size, hangs_together);
    grids::turned(random, &grid)
}

/// Up to three single cells.
fn add_small(random: &mut Random, pieces: &mut Vec<Piece>) {
    pieces.push(Piece::new(random.between(0, 3), full([1, 1, 1])));
}

pub fn all_without_copies(random: &mut Random) -> Option<Parts> {
    let (board, mut pieces) = plain(random)?;
    pieces.iter_mut().for_each(|piece| piece.count = 0);
    Some((board, pieces))
}

/// Some copies of a piece lent as a second piece, turned.
pub fn lent_twice(random: &mut Random) -> Option<Parts> {
    let board = small_board(random);
    let (board, mut pieces) = cut_whole(random, board, [1, 4], true)?;
    let first = random.below(pieces.len());
    let count = random.between(0, pieces[first].count);
    pieces[first].count -= count;
    let count = count + random.between(0, 1);
    let grid = grids::turned(random, &pieces[first].grid);
    pieces.insert(random.below(pieces.len() + 1), Piece::new(count, grid));
    Some((board, pieces))
}

/// A tray that needs a handed piece. `partners` says, for its copies, how many
/// copies of its mirror partner are lent, None for no partner.
pub fn handed(random: &mut Random, partners: fn(&mut Random, u32) -> Option<u32>) -> Option<Parts> {
    let mut sides = [2, 2, random.between(2, 4)];
    random.shuffle(&mut sides);
    let hang_together = !random.one_in(3);
    let (board, mut pieces) = cut_whole(random, full(sides), [2, 5], hang_together)?;
    let at = pieces.iter().position(|piece| grids::is_handed(&piece.grid))?;
    let partner = grids::mirrored(&pieces[at].grid);
    pieces.retain(|piece| !grids::is_same_kind(&piece.grid, &partner));
    let at = pieces.iter().position(|piece| grids::is_handed(&piece.grid))?;
    if let Some(count) = partners(random, pieces[at].count) {
        let grid = grids::turned(random, &partner);
        pieces.insert(random.below(pieces.len() + 1), Piece::new(count, grid));
    }
    // What the lost partner would have covered.
    if random.one_in(2) {
        add_small(random, &mut pieces);
    }
    Some((board, pieces))
}

fn handed_piece(random: &mut Random, within: [u32; 3]) -> Grid {
    loop {
        let (size, hangs_together) = (random.between(4, 6), random.one_in(2));
        let grid = grids::piece_within(random, within, size, hangs_together);
        if grids::is_handed(&grid) {
            return grid;
        }
    }
}

/// A board that is two mirror images of a handed piece, one beside the other.
pub fn handed_twins(random: &mut Random) -> Option<Parts> {
    let hangs_together = !random.one_in(3);
    let piece = grids::piece_within(random, [2, 2, 3], 5, hangs_together);
    let mut cells = grids::mirrored(&piece).cells;
    cells.extend(&piece.cells);
    let [a, b, c] = piece.sides;
    let board = Grid { sides: [2 * a, b, c], cells };
    let count = random.between(1, 2);
    let mut pieces = vec![Piece::new(count, grids::turned(random, &piece))];
    if !random.one_in(3) {
        let partner = grids::turned(random, &grids::mirrored(&piece));
        pieces.push(Piece::new(random.between(0, 2), partner));
    }
    add_small(random, &mut pieces);
    grids::is_handed(&piece).then_some((board, pieces))
}

/// A further handed piece, and its partner if that has copies named.
pub fn add_handed(random: &mut Random, pieces: &mut Vec<Piece>, count: u32, partners: Option<u32>) {
    let grid = handed_piece(random, [2, 2, 3]);
    let partner = grids::turned(random, &grids::mirrored(&grid));
    pieces.insert(random.below(pieces.len() + 1), Piece::new(count, grid));
    if let Some(count) = partners {
        pieces.insert(random.below(pieces.len() + 1), Piece::new(count, partner));
    }
}

/// A handed piece, its partner and small pieces that pack the board in several ways.
pub fn handed_or_partner(random: &mut Random, board: Grid) -> Option<Parts> {
    let mut pieces = vec![Piece::new(random.between(1, 4), full([1, 1, 1]))];
    if random.one_in(2) {
        pieces.push(Piece::new(1, full([1, 1, 2])));
    }
    let counts = [random.between(1, 2), random.between(1, 2)];
    let grid = handed_piece(random, board.sides);
    let partner = grids::mirrored(&grid);
    for (count, grid) in counts.into_iter().zip([grid, partner]) {
        pieces.push(Piece::new(count, grids::turned(random, &grid)));
    }
    random.shuffle(&mut pieces);
    has_packings(&board, &pieces, 2).then_some((board, pieces))
}

/// A board that few maps keep, so that several packings stay in its list.
pub fn little_symmetric(random: &mut Random) -> Option<Parts> {
    let sides = *random.pick(&[[1, 3, 5], [2, 2, 4], [2, 3, 3], [1, 4, 4]]);
    let board = full(rotated(random, sides));
    let board = grids::with_holes(random, board, 7);
    let (board, pieces) = cut_whole(random, board, [2, 4], true)?;
    has_packings(&board, &pieces, 8).then_some((board, pieces))
}

pub fn has_packings(board: &Grid, pieces: &[Piece], least: usize) -> bool {
    let kinds = placements::kinds(board, pieces);
    let packings = effort::packings(placements::filled_cells(board), &kinds, SHORT);
    packings.is_some_and(|number| number >= least)
}

/// A board with holes that some map other than the identity is likely to keep.
pub fn symmetric(random: &mut Random, by_mirroring: bool) -> Option<Parts> {
    let sides = *random.pick(&[[3, 3, 3], [2, 3, 3], [3, 3, 2], [2, 2, 4], [1, 4, 4], [3, 2, 3]]);
    let holes = random.between(5, 12) as usize;
    let board = grids::with_holes(random, full(sides), holes);
    let board = grids::made_symmetric(random, &board, by_mirroring);
    cut_whole(random, board, [2, 5], true)
}

pub fn with_copies(random: &mut Random, copies: u32) -> Option<Parts> {
    let (board, mut pieces) = plain(random)?;
    let lent: u32 = pieces.iter().map(|piece| piece.count).sum();
    let more = copies.checked_sub(lent)?;
    let last = random.below(pieces.len());
    let part = random.between(0, more);
    pieces[0].count += part;
    pieces[last].count += more - part;
    Some((board, pieces))
}

/// A board with exactly so many filled cells, cut into large pieces.
pub fn with_filled(random: &mut Random, filled: usize) -> Option<Parts> {
    let board = board_with_filled(random, filled)?;
    cut_whole(random, board, [14, 40], true)
}

/// A board with exactly so many filled cells.
pub fn board_with_filled(random: &mut Random, filled: usize) -> Option<Grid> {
    let sides = *random.pick(&[[4, 4, 8], [5, 5, 6], [8, 8, 3], [6, 5, 5], [2, 8, 8], [5, 6, 5]]);
    let mut board = full(sides);
    let mut order: Vec<usize> = (0..board.cells.len()).collect();
    random.shuffle(&mut order);
    let unfilled = order.len().checked_sub(filled)?;
    order[..unfilled].iter().for_each(|&cell| board.cells[cell] = 0);
    Some(board)
}
