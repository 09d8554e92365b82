//! Corners of trays with woods: one shape in two woods is two kinds, kinds go by
//! smallest grid and then by wood, and a mirror partner is of the same wood. Trays
//! of one wood, whichever it is, have the original's list; mixed ones the model's.

use super::accepted::{
    add_handed, all_without_copies, board_with_filled, cut_whole, handed, handed_or_partner,
    handed_twins, has_packings, lent_twice, little_symmetric, plain, random_piece, rotated,
    small_board, symmetric, with_copies,
};
use super::Parts;
use crate::grids::{self, full};
use crate::limits;
use crate::placements;
use crate::random::Random;
use crate::refusals::{MOST_COPIES, MOST_FILLED, MOST_LINKS, MOST_PLACEMENTS};
use crate::tray::{Grid, Piece};

pub const LISTED: &[(&str, fn(&mut Random) -> Option<Parts>)] = &[
    ("woods_shape_in_two", |random| {
        let parts = several_alike(random)?;
        let two = woods(random, 2);
        one_shape_split(random, parts, &two)
    }),
    ("woods_shape_in_many", |random| {
        let (board, piece) = one_shape(random);
        let number = random.between(3, 6) as usize;
        let many = woods(random, number);
        let pieces = split(random, &piece, &many);
        pieces.iter().all(|piece| piece.count > 0).then_some((board, pieces))
    }),
    ("woods_shape_in_many_with_spares", |random| {
        let (board, piece) = one_shape(random);
        let many = woods(random, 3);
        let mut pieces = split(random, &piece, &many);
        pieces.iter_mut().for_each(|piece| piece.count += random.between(0, 2));
        Some((board, pieces))
    }),
    ("woods_every_shape_split", every_shape_split),
    ("woods_every_shape_split_apart", |random| {
        let board = small_board(random);
        let parts = cut_whole(random, board, [1, 3], false)?;
        split_all(random, parts)
    }),
    ("woods_lent_again_in_one_of_two", |random| {
        let parts = several_alike(random)?;
        let two = woods(random, 2);
        let (board, mut pieces) = one_shape_split(random, parts, &two)?;
        let again = random.below(pieces.len());
        let (count, wood) = (random.between(0, pieces[again].count), pieces[again].wood);
        pieces[again].count -= count;
        let grid = grids::turned(random, &pieces[again].grid);
        pieces.insert(random.below(pieces.len() + 1), Piece { count, grid, wood });
        Some((board, pieces))
    }),
    ("woods_shapes_apart", |random| {
        // No shape is in two woods: the list is the original's all the same.
        let (board, mut pieces) = plain(random)?;
        let apart = woods(random, pieces.len());
        pieces.iter_mut().zip(apart).for_each(|(piece, wood)| piece.wood = wood);
        mixed((board, pieces))
    }),
    ("woods_handed_pair_parted", |random| {
        let (board, pieces) = handed(random, |random, copies| Some(copies + random.between(0, 1)))?;
        parted(random, board, pieces)
    }),
    ("woods_handed_pair_parted_fewer_of_the_partner", |random| {
        let (board, pieces) = handed(random, |_, copies| Some(copies - 1))?;
        parted(random, board, pieces)
    }),
    ("woods_handed_or_partner_parted", handed_or_partner_parted),
    ("woods_handed_pair_in_both", handed_pair_in_both),
    ("woods_handed_partner_without_copies", |random| {
        // The partner of the same wood has no copies, that of another wood has.
        let (board, pieces) = handed(random, |_, copies| Some(copies))?;
        let (board, mut pieces) = parted(random, board, pieces)?;
        let one = pieces.iter().find(|piece| grids::is_handed(&piece.grid))?.clone();
        let grid = grids::turned(random, &grids::mirrored(&one.grid));
        let none = Piece { count: 0, grid, wood: one.wood };
        pieces.insert(random.below(pieces.len() + 1), none);
        Some((board, pieces))
    }),
    ("woods_handed_pair_spare", |random| {
        let (board, mut pieces) = plain(random)?;
        let counts = [random.between(0, 2), random.between(0, 2)];
        add_handed(random, &mut pieces, counts[0], Some(counts[1]));
        parted(random, board, pieces)
    }),
    ("woods_handed_twins", |random| {
        let (board, pieces) = handed_twins(random)?;
        parted(random, board, pieces)
    }),
    ("woods_order_by_grid_first", |random| {
        // The smaller the grid, the greater its wood.
        let (board, mut pieces) = plain(random)?;
        pieces.sort_by_key(|piece| placements::shape(&piece.grid).normalize());
        let mut falling = woods(random, pieces.len());
        falling.sort_by_key(|&wood| std::cmp::Reverse(wood));
        pieces.iter_mut().zip(falling).for_each(|(piece, wood)| piece.wood = wood);
        random.shuffle(&mut pieces);
        has_packings(&board, &pieces, 2).then_some((board, pieces)).and_then(mixed)
    }),
    ("woods_order_by_number", |random| {
        // As text the greater of the two would be the smaller.
        let two = *random.pick(&[[10, 9], [100, 2], [255, 3], [10, 2], [128, 13], [20, 7]]);
        let parts = several_alike(random)?;
        let (board, pieces) = one_shape_split(random, parts, &two)?;
        has_packings(&board, &pieces, 2).then_some((board, pieces))
    }),
    ("woods_kind_0_placed_first", kind_0_with_one),
    ("woods_kind_0_not_first_several_copies", kind_0_with_several),
    ("woods_kind_0_not_first_without_copies", |random| kind_0_split(random, |_| Some(0))),
    ("woods_piece_without_copies", |random| {
        // A shape with copies has none in another wood.
        let (board, mut pieces) = plain(random)?;
        let two = woods(random, 2);
        pieces.iter_mut().for_each(|piece| piece.wood = two[0]);
        let again = random.pick(&pieces).grid.clone();
        let none = Piece { count: 0, grid: grids::turned(random, &again), wood: two[1] };
        pieces.insert(random.below(pieces.len() + 1), none);
        Some((board, pieces))
    }),
    ("woods_all_without_copies", |random| {
        let (mut board, pieces) = split_some(random, all_without_copies)?;
        if random.one_in(2) {
            board.cells.fill(0);
        }
        Some((board, pieces))
    }),
    ("woods_spare_copies", |random| {
        let (board, mut pieces) = every_shape_split(random)?;
        pieces.iter_mut().for_each(|piece| piece.count += random.between(0, 2));
        Some((board, pieces))
    }),
    ("woods_too_few", |random| {
        let (board, mut pieces) = every_shape_split(random)?;
        let short = random.below(pieces.len());
        pieces[short].count = pieces[short].count.checked_sub(1)?;
        Some((board, pieces))
    }),
    ("woods_board_without_filled_cell", |random| {
        let (mut board, pieces) = every_shape_split(random)?;
        board.cells.fill(0);
        Some((board, pieces))
    }),
    ("woods_board_with_holes", |random| {
        let board = small_board(random);
        let board = grids::with_holes(random, board, 4);
        let parts = cut_whole(random, board, [1, 4], true)?;
        split_all(random, parts)
    }),
    ("woods_board_kept_by_a_turn", |random| split_some(random, |random| symmetric(random, false))),
    ("woods_board_kept_by_a_mirroring", |random| {
        split_some(random, |random| symmetric(random, true))
    }),
    ("woods_cube", |random| {
        let (side, sizes) = *random.pick(&[(2, [1, 3]), (2, [2, 4]), (3, [3, 5])]);
        let parts = cut_whole(random, full([side; 3]), sizes, true)?;
        split_all(random, parts)
    }),
    ("woods_more_than_64_cells", |random| {
        let sides = *random.pick(&[[1, 8, 8], [2, 5, 7], [3, 5, 5], [2, 6, 6]]);
        let mut board = grids::in_larger_box(random, &full(sides), 8);
        let hole = random.below(board.cells.len());
        board.cells[hole] ^= 1;
        let (board, mut pieces) = cut_whole(random, board, [10, 24], true)?;
        let two = woods(random, 2);
        pieces.iter_mut().for_each(|piece| piece.wood = *random.pick(&two));
        for wood in two {
            let again = random.pick(&pieces).grid.clone();
            let grid = grids::turned(random, &again);
            pieces.push(Piece { count: random.between(0, 1), grid, wood });
            pieces.push(Piece { count: random.between(0, 2), grid: full([1, 1, 1]), wood });
        }
        (placements::filled_cells(&board) > 64).then_some((board, pieces)).and_then(mixed)
    }),
    ("woods_pieces_16", |random| {
        let (board, mut pieces) = plain(random)?;
        while pieces.len() < 16 {
            let again = random.pick(&pieces).grid.clone();
            let grid =
                if random.one_in(2) { random_piece(random) } else { grids::turned(random, &again) };
            pieces.push(Piece::new(u32::from(random.one_in(4)), grid));
        }
        let number = random.between(2, 16) as usize;
        let some = woods(random, number);
        pieces.iter_mut().for_each(|piece| piece.wood = *random.pick(&some));
        mixed((board, pieces))
    }),
    ("woods_copies_128", |random| split_some(random, |random| with_copies(random, 128))),
    ("woods_one_7", |random| {
        let (board, pieces) = plain(random)?;
        Some((board, of_wood(pieces, 7)))
    }),
    ("woods_one_255", |random| {
        let (board, pieces) = plain(random)?;
        Some((board, of_wood(pieces, 255)))
    }),
    ("woods_one_lent_twice", |random| {
        let (board, pieces) = lent_twice(random)?;
        Some((board, of_wood(pieces, random.between(1, 255) as u8)))
    }),
    ("woods_one_handed_pair", |random| {
        let (board, pieces) = handed_or_partner_in_a_box(random)?;
        Some((board, of_wood(pieces, random.between(1, 255) as u8)))
    }),
];

/// Trays where it matters whether a mirror image of another wood is a partner.
pub const WHEN_MIRRORED: &[(&str, fn(&mut Random) -> Option<Parts>)] = &[
    ("woods_handed_halves_mirrored", |random| {
        // Two of either hand fill the cube; no mirroring carries the one packing to the other.
        let half = Grid { sides: [2, 2, 2], cells: vec![1, 1, 1, 0, 0, 1, 0, 0] };
        let pair = [grids::mirrored(&half), half];
        let spare = random.between(0, 1);
        let lend = |grid: &Grid| Piece::new(2 + spare, grids::turned(random, grid));
        let pieces = pair.iter().map(lend).collect();
        parted(random, full([2, 2, 2]), pieces)
    }),
    ("woods_handed_or_partner_parted_mirrored", handed_or_partner_parted),
    ("woods_handed_pair_in_both_mirrored", handed_pair_in_both),
    ("woods_one_handed_pair_mirrored", |random| {
        let (board, pieces) = handed_or_partner_in_a_box(random)?;
        Some((board, of_wood(pieces, random.between(1, 255) as u8)))
    }),
];

/// Trays where it matters for Fast's order how many copies kind 0 has in its wood.
pub const WHEN_IDENTIFIED_FAST: &[(&str, fn(&mut Random) -> Option<Parts>)] = &[
    ("woods_kind_0_placed_first_identified", kind_0_with_one),
    ("woods_kind_0_not_first_identified", kind_0_with_several),
];

/// Trays at the limits of placements and links, where each wood counts.
pub const WITH_LONG_SEARCHES: &[(&str, fn(&mut Random) -> Option<Parts>)] = &[
    ("woods_placements_1024", |random| {
        // A cell in eight woods on 128 cells; one of them has all the copies.
        let board = board_with_filled(random, MOST_FILLED)?;
        let mut pieces = cell_in_woods(random, 8, 0);
        random.pick_mut(&mut pieces).count = MOST_COPIES as u32;
        Some((board, pieces))
    }),
    ("woods_placements_1024_lent_again", |random| {
        let (board, pieces) = limits::with_placements(random, MOST_PLACEMENTS)?;
        lent_again(random, board, pieces, true)
    }),
    ("woods_links_4096", |random| {
        // Without copies the further kind is one link.
        let (board, pieces) = limits::with_links(random, MOST_LINKS - 1)?;
        lent_again(random, board, pieces, false)
    }),
    ("woods_links_4096_lent_again", |random| {
        let (board, pieces) = limits::with_links(random, MOST_LINKS)?;
        lent_again(random, board, pieces, true)
    }),
];

pub const REFUSED: &[(&str, u8, fn(&mut Random) -> Option<Parts>)] = &[
    ("refused_2_woods_17", 2, |random| Some((small_board(random), cell_in_woods(random, 17, 1)))),
    ("refused_8_woods_copies_129", 8, |random| {
        split_some(random, |random| with_copies(random, 129))
    }),
    ("refused_14_woods_nine", 14, |random| {
        let board = board_with_filled(random, MOST_FILLED)?;
        let (number, most) = (random.between(9, 16) as usize, random.between(0, 8));
        Some((board, cell_in_woods(random, number, most)))
    }),
    ("refused_14_woods_placements_1025", 14, |random| {
        // Eight times 128 placements, and the one of a piece as large as the board.
        let sides = *random.pick(&[[4, 4, 8], [2, 8, 8]]);
        let board = full(rotated(random, sides));
        let mut pieces = cell_in_woods(random, 8, 3);
        let wood = random.between(0, 255) as u8;
        pieces.push(Piece { count: random.between(0, 1), grid: board.clone(), wood });
        random.shuffle(&mut pieces);
        Some((board, pieces))
    }),
    ("refused_14_woods_lent_again", 14, |random| {
        let (board, pieces) = limits::with_placements(random, MOST_PLACEMENTS)?;
        lent_again(random, board, pieces, false)
    }),
    ("refused_15_woods", 15, |random| {
        // Within the limit in two woods, beyond it in three.
        let sides = rotated(random, [4, 4, 8]);
        let three = woods(random, 3);
        let block = |wood| Piece { count: 1, grid: full([2, 2, 4]), wood };
        Some((full(sides), three.into_iter().map(block).collect()))
    }),
    ("refused_15_woods_links_4097", 15, |random| {
        let (board, pieces) = limits::with_links(random, MOST_LINKS)?;
        lent_again(random, board, pieces, false)
    }),
];

/// Well-formed files with woods; the refusal is None where the tray stays accepted.
pub const FILES: &[(&str, Option<u8>, fn(&mut Random, String) -> Vec<u8>)] = &[
    ("woods_one_leading_zeros", None, |random, text| {
        let wood = *random.pick(&[1, 7, 10, 70, 99, 100, 255]);
        with_woods(&text, |_| Some(written(random, wood)))
    }),
    ("woods_zero_written_or_absent", None, |random, text| {
        let text = with_first_again(&text);
        let forms = [None, Some("0"), Some("00"), Some("000")];
        let first = random.below(2);
        with_woods(&text, |piece| match piece {
            // The first piece and the second, the same once more, in two ways.
            0 | 1 if piece == first => None,
            0 | 1 => random.pick(&forms[1..]).map(String::from),
            _ => random.pick(&forms).map(String::from),
        })
    }),
    ("woods_leading_zeros_mixed", None, |random, text| {
        let text = with_first_again(&text);
        let two = *random.pick(&[[7, 70], [1, 10], [10, 100], [2, 200], [0, 1], [25, 255]]);
        with_woods(&text, |piece| {
            let wood = if piece < 2 { two[piece] } else { *random.pick(&two) };
            Some(written(random, wood))
        })
    }),
    ("woods_side_0", Some(3), |random, text| {
        // Between two tabs the cells of a grid without any, then the wood.
        let wood = random.between(0, 255);
        format!("{text}piece\t1\t2\t0\t3\t\t{wood}\n").into()
    }),
    ("woods_in_a_file_with_800_pieces", Some(2), |random, text| {
        let piece = |_| format!("piece\t1\t1\t1\t1\t1\t{}\n", random.below(256));
        (text + &(0..800).map(piece).collect::<String>()).into()
    }),
];

/// So many woods, all different, in any order.
fn woods(random: &mut Random, number: usize) -> Vec<u8> {
    let mut woods = vec![];
    while woods.len() < number {
        let wood = match random.below(3) {
            0 => *random.pick(&[0, 1, 2, 9, 10, 99, 100, 127, 128, 254, 255]),
            1 => random.between(0, 12) as u8,
            _ => random.between(0, 255) as u8,
        };
        if !woods.contains(&wood) {
            woods.push(wood);
        }
    }
    woods
}

fn of_wood(mut pieces: Vec<Piece>, wood: u8) -> Vec<Piece> {
    pieces.iter_mut().for_each(|piece| piece.wood = wood);
    pieces
}

/// The tray, None if all its pieces are of one wood.
fn mixed((board, pieces): Parts) -> Option<Parts> {
    let is_mixed = pieces.iter().any(|piece| piece.wood != pieces[0].wood);
    is_mixed.then_some((board, pieces))
}

/// The copies of a piece over the woods, a piece for each, turned.
fn split(random: &mut Random, piece: &Piece, woods: &[u8]) -> Vec<Piece> {
    let mut counts = vec![0; woods.len()];
    (0..piece.count).for_each(|_| counts[random.below(woods.len())] += 1);
    let of = |(count, &wood)| Piece { count, grid: grids::turned(random, &piece.grid), wood };
    counts.into_iter().zip(woods).map(of).collect()
}

/// Each piece over two or three woods, those without copies left out as a rule.
fn split_all(random: &mut Random, (board, pieces): Parts) -> Option<Parts> {
    let number = random.between(2, 3) as usize;
    let woods = woods(random, number);
    let mut lent = vec![];
    for piece in &pieces {
        let mut parts = split(random, piece, &woods);
        parts.retain(|part| part.count > 0 || piece.count == 0 || random.one_in(5));
        lent.extend(parts);
    }
    random.shuffle(&mut lent);
    (lent.len() <= 16).then_some((board, lent)).and_then(mixed)
}

fn split_some(random: &mut Random, parts: fn(&mut Random) -> Option<Parts>) -> Option<Parts> {
    let parts = parts(random)?;
    split_all(random, parts)
}

fn every_shape_split(random: &mut Random) -> Option<Parts> {
    split_some(random, plain)
}

/// A tray with several copies of some piece.
fn several_alike(random: &mut Random) -> Option<Parts> {
    let board = small_board(random);
    let (board, pieces) = cut_whole(random, board, [1, 3], true)?;
    pieces.iter().any(|piece| piece.count > 1).then_some((board, pieces))
}

/// A piece with several copies over the woods, each of them with a copy; the other
/// pieces in any of these woods.
fn one_shape_split(random: &mut Random, (board, pieces): Parts, woods: &[u8]) -> Option<Parts> {
    let most = pieces.iter().map(|piece| piece.count).max()?;
    let mut pieces = pieces;
    let at = pieces.iter().position(|piece| piece.count == most)?;
    let piece = pieces.remove(at);
    let parts = split(random, &piece, woods);
    if parts.iter().any(|part| part.count == 0) {
        return None;
    }
    pieces.iter_mut().for_each(|piece| piece.wood = *random.pick(woods));
    pieces.extend(parts);
    random.shuffle(&mut pieces);
    Some((board, pieces))
}

/// A little board and the one piece whose copies fill it.
fn one_shape(random: &mut Random) -> (Grid, Piece) {
    let (sides, piece) = *random.pick(&[
        ([1, 1, 4], [1, 1, 1]),
        ([1, 1, 5], [1, 1, 1]),
        ([1, 2, 3], [1, 1, 1]),
        ([1, 2, 2], [1, 1, 1]),
        ([1, 2, 4], [1, 1, 2]),
        ([2, 2, 2], [1, 1, 2]),
        ([1, 3, 4], [1, 1, 3]),
        ([2, 2, 3], [1, 1, 3]),
        ([1, 4, 4], [1, 2, 2]),
        ([2, 4, 2], [2, 1, 2]),
    ]);
    let board = full(rotated(random, sides));
    let count = board.cells.len() as u32 / piece.iter().product::<u32>();
    (board, Piece::new(count, full(piece)))
}

/// The handed pieces that turn into the first of them in one wood, those that turn
/// into its mirror image in another; the rest in either.
fn parted(random: &mut Random, board: Grid, mut pieces: Vec<Piece>) -> Option<Parts> {
    let two = woods(random, 2);
    let first = pieces.iter().find(|piece| grids::is_handed(&piece.grid))?.grid.clone();
    let partner = grids::mirrored(&first);
    for piece in &mut pieces {
        piece.wood = if grids::is_same_kind(&piece.grid, &first) {
            two[0]
        } else if grids::is_same_kind(&piece.grid, &partner) {
            two[1]
        } else {
            *random.pick(&two)
        };
    }
    mixed((board, pieces))
}

fn handed_or_partner_in_a_box(random: &mut Random) -> Option<Parts> {
    let sides = *random.pick(&[[2, 2, 2], [2, 2, 3], [2, 3, 2], [3, 2, 2]]);
    handed_or_partner(random, full(sides))
}

/// A handed piece in one wood and its mirror image in another.
fn handed_or_partner_parted(random: &mut Random) -> Option<Parts> {
    let (board, pieces) = handed_or_partner_in_a_box(random)?;
    parted(random, board, pieces)
}

/// A handed piece and its mirror image, each in both of two woods.
fn handed_pair_in_both(random: &mut Random) -> Option<Parts> {
    let (board, pieces) = handed_or_partner_in_a_box(random)?;
    let two = woods(random, 2);
    let is_handed = |piece: &Piece| grids::is_handed(&piece.grid);
    let (pair, mut lent): (Vec<Piece>, Vec<Piece>) = pieces.into_iter().partition(is_handed);
    lent.iter_mut().for_each(|piece| piece.wood = *random.pick(&two));
    for piece in pair {
        for &wood in &two {
            let count = random.between(0, piece.count + 1);
            lent.push(Piece { count, grid: grids::turned(random, &piece.grid), wood });
        }
    }
    random.shuffle(&mut lent);
    has_packings(&board, &lent, 2).then_some((board, lent))
}

/// A tray whose smallest shape has several copies, as many of them as told in the
/// smallest of its woods; the copies have as many cells as the board.
fn kind_0_split(random: &mut Random, in_smallest: fn(u32) -> Option<u32>) -> Option<Parts> {
    let (board, mut pieces) = little_symmetric(random)?;
    pieces.sort_by_key(|piece| placements::shape(&piece.grid).normalize());
    let smallest = pieces.remove(0);
    let mut two = woods(random, 2);
    two.sort();
    let few = in_smallest(smallest.count)?;
    pieces.iter_mut().for_each(|piece| piece.wood = *random.pick(&two));
    for (count, &wood) in [few, smallest.count - few].into_iter().zip(&two) {
        pieces.push(Piece { count, grid: grids::turned(random, &smallest.grid), wood });
    }
    random.shuffle(&mut pieces);
    (smallest.count > 1).then_some((board, pieces))
}

fn kind_0_with_one(random: &mut Random) -> Option<Parts> {
    kind_0_split(random, |_| Some(1))
}

/// All copies but one, and more than one, in the smallest of the woods.
fn kind_0_with_several(random: &mut Random) -> Option<Parts> {
    kind_0_split(random, |copies| (copies > 2).then(|| copies - 1))
}

/// One cell in so many woods, each with up to so many copies.
fn cell_in_woods(random: &mut Random, number: usize, most: u32) -> Vec<Piece> {
    let woods = woods(random, number);
    let of = |wood| Piece { count: random.between(0, most), grid: full([1, 1, 1]), wood };
    woods.into_iter().map(of).collect()
}

/// The pieces in several woods, and one of them once more, without copies: in its
/// own wood, where it is no further kind, or in another, where it is.
fn lent_again(
    random: &mut Random,
    board: Grid,
    mut pieces: Vec<Piece>,
    in_same_wood: bool,
) -> Option<Parts> {
    let three = woods(random, 3);
    pieces.iter_mut().for_each(|piece| piece.wood = *random.pick(&three[..2]));
    let again = random.pick(&pieces).clone();
    let wood = if in_same_wood { again.wood } else { three[2] };
    let grid = grids::turned(random, &again.grid);
    pieces.insert(random.below(pieces.len() + 1), Piece { count: 0, grid, wood });
    (pieces.len() <= 16).then_some((board, pieces)).and_then(mixed)
}

/// A wood with leading zeros or without, of at most three digits.
fn written(random: &mut Random, wood: u8) -> String {
    let width = random.between(1, 3) as usize;
    format!("{wood:0>width$}")
}

/// The file's lines, the first piece's twice.
fn with_first_again(text: &str) -> String {
    let mut lines: Vec<&str> = text.lines().collect();
    lines.insert(2, lines[2]);
    lines.iter().map(|line| format!("{line}\n")).collect()
}

/// The file with these fields, if any, behind the lines of its pieces.
fn with_woods(text: &str, mut wood: impl FnMut(usize) -> Option<String>) -> Vec<u8> {
    let mut file = String::new();
    for (number, line) in text.lines().enumerate() {
        file += line;
        // Behind the lines of the configuration and of the board.
        if let Some(field) = number.checked_sub(2).and_then(&mut wood) {
            file += &format!("\t{field}");
        }
        file.push('\n');
    }
    file.into_bytes()
}
