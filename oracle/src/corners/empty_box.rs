//! Corners of boards with an empty box: no piece is lent. A board without filled
//! cells has the one empty packing, every other board has none; of the refusals
//! that a file reaches, 3 and 9 are left.

use super::accepted::{board_with_filled, rotated, small_board};
use crate::grids::{self, full};
use crate::random::Random;
use crate::refusals::{LONGEST_SIDE, MOST_FILLED};
use crate::tray::Grid;

pub const LISTED: &[(&str, fn(&mut Random) -> Option<Grid>)] = &[
    ("empty_box_unfilled_cell", |_| Some(unfilled([1, 1, 1]))),
    ("empty_box_unfilled_board", |random| Some(unfilled(any_sides(random)))),
    ("empty_box_unfilled_longest_box", |_| Some(unfilled([LONGEST_SIDE; 3]))),
    ("empty_box_one_filled_cell", |random| {
        let mut board = unfilled(any_sides(random));
        let cell = random.below(board.cells.len());
        board.cells[cell] = 1;
        Some(board)
    }),
    ("empty_box_board_with_holes", |random| {
        let board = small_board(random);
        let board = grids::with_holes(random, board, 3);
        (board.cells.contains(&0) && board.cells.contains(&1)).then_some(board)
    }),
    ("empty_box_symmetric_board", |random| {
        let sides = *random.pick(&[[3, 3, 3], [2, 3, 3], [2, 2, 4], [1, 4, 4], [1, 1, 5]]);
        let board = full(rotated(random, sides));
        let board = grids::with_holes(random, board, 4);
        let by_mirroring = random.one_in(2);
        Some(grids::made_symmetric(random, &board, by_mirroring))
    }),
    ("empty_box_full_board", |random| Some(small_board(random))),
    ("empty_box_filled_128", |random| board_with_filled(random, MOST_FILLED)),
];

pub const REFUSED: &[(&str, u8, fn(&mut Random) -> Option<Grid>)] = &[
    ("refused_3_empty_box_side_9", 3, |random| {
        let sides = rotated(random, [1, 1, 9]);
        Some(if random.one_in(2) { full(sides) } else { unfilled(sides) })
    }),
    ("refused_3_empty_box_side_257", 3, |random| Some(unfilled(rotated(random, [1, 1, 257])))),
    ("refused_3_and_9_empty_box", 3, |random| {
        let sides = *random.pick(&[[4, 4, 9], [1, 13, 10], [2, 8, 9], [5, 3, 99], [9, 9, 9]]);
        Some(full(rotated(random, sides)))
    }),
    ("refused_9_empty_box_filled_129", 9, |random| board_with_filled(random, 129)),
    ("refused_9_empty_box", 9, |random| {
        Some(full(*random.pick(&[[8, 8, 8], [8, 8, 3], [6, 6, 6], [5, 5, 6], [4, 5, 7]])))
    }),
];

fn unfilled(sides: [u32; 3]) -> Grid {
    let mut board = full(sides);
    board.cells.fill(0);
    board
}

/// From one cell to the longest box.
fn any_sides(random: &mut Random) -> [u32; 3] {
    [0; 3].map(|_: u32| random.between(1, LONGEST_SIDE))
}
