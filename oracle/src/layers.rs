//! Empty outer layers carry no meaning (document 02, A4): they are taken off board and
//! pieces before the original sees them, and its answers are put back into the lent box.

use crate::grids::{filled, trimmed};
use crate::tray::{Grid, Piece, Tray};

/// The box that was lent, and where in it the stripped board lies.
#[derive(Clone, Copy, Debug, PartialEq, Eq)]
pub struct Frame {
    pub lent: [u32; 3],
    pub corner: [u32; 3],
    pub stripped: [u32; 3],
}

/// The grid from its first filled layer to its last, on each axis. One without a filled
/// cell stays as it is.
pub fn strip(grid: &Grid) -> Grid {
    let cells = filled(grid);
    if cells.is_empty() {
        grid.clone()
    } else {
        trimmed(&cells)
    }
}

pub fn strip_pieces(pieces: &[Piece]) -> Vec<Piece> {
    let stripped = |piece: &Piece| Piece { grid: strip(&piece.grid), ..piece.clone() };
    pieces.iter().map(stripped).collect()
}

/// The tray without empty outer layers, and where its board lies in the lent box.
pub fn strip_tray(tray: &Tray) -> (Tray, Frame) {
    let board = strip(&tray.board);
    let frame = Frame::of(&tray.board, &board);
    let pieces = strip_pieces(&tray.pieces);
    (Tray { config: tray.config, board, pieces }, frame)
}

pub fn has_empty_layer(grid: &Grid) -> bool {
    strip(grid).sides != grid.sides
}

/// Whether the board or a piece has an empty outer layer.
pub fn has_layers(tray: &Tray) -> bool {
    let grids = std::iter::once(&tray.board).chain(tray.pieces.iter().map(|piece| &piece.grid));
    grids.into_iter().any(has_empty_layer)
}

impl Frame {
    fn of(lent: &Grid, stripped: &Grid) -> Frame {
        let cells = filled(lent);
        let low = |axis: usize| cells.iter().map(|cell| cell[axis]).min().unwrap_or(0);
        Frame { lent: lent.sides, corner: [low(0), low(1), low(2)], stripped: stripped.sides }
    }

    /// What stands in the cells of the stripped box, in the lent box; None round it.
    pub fn put_back<T: Clone>(&self, cells: &[Option<T>]) -> Vec<Option<T>> {
        let mut lent = vec![None; self.lent.iter().product::<u32>() as usize];
        let [_, b, c] = self.stripped;
        for (index, owner) in (0..).zip(cells) {
            let place = [index / (b * c), index / c % b, index % c];
            let [x, y, z] = [0, 1, 2].map(|axis| place[axis] + self.corner[axis]);
            lent[((x * self.lent[1] + y) * self.lent[2] + z) as usize] = owner.clone();
        }
        lent
    }
}

#[cfg(test)]
mod tests {
    use super::*;

    fn grid(sides: [u32; 3], cells: &str) -> Grid {
        Grid { sides, cells: cells.bytes().map(|cell| cell - b'0').collect() }
    }

    #[test]
    fn outer_layers_alone() {
        for (lent, stripped) in [
            (grid([1, 1, 4], "1110"), grid([1, 1, 3], "111")),
            (grid([1, 1, 6], "001010"), grid([1, 1, 3], "101")),
            (grid([1, 3, 2], "000110"), grid([1, 2, 2], "0110")),
            (grid([1, 1, 3], "101"), grid([1, 1, 3], "101")),
            (grid([3, 1, 1], "010"), grid([1, 1, 1], "1")),
            (grid([1, 3, 1], "001"), grid([1, 1, 1], "1")),
            // No filled cell: the box is kept.
            (grid([1, 1, 4], "0000"), grid([1, 1, 4], "0000")),
        ] {
            assert_eq!(strip(&lent), stripped);
            assert_eq!(strip(&stripped), stripped);
            assert_eq!(has_empty_layer(&lent), lent != stripped);
        }
    }

    #[test]
    fn put_back() {
        let lent = grid([1, 3, 2], "000110");
        let frame = Frame::of(&lent, &strip(&lent));
        assert_eq!(frame.corner, [0, 1, 0]);
        let cells = [None, Some(7), Some(8), None];
        assert_eq!(frame.put_back(&cells), [None, None, None, Some(7), Some(8), None]);
        let unfilled = grid([1, 1, 2], "00");
        let frame = Frame::of(&unfilled, &strip(&unfilled));
        assert_eq!(frame.put_back::<u8>(&[None, None]), [None, None]);
    }
}
