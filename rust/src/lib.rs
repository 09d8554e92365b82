//! Every packing of a tray, each exactly once. What the library answers is proved; this crate lends it its slices.
//!
//! [`Tray`] is built by value, [`Tray::packings`] goes through its packings in fixed memory, [`Tray::dlx1`] is the tray as a text for Knuth's DLX1,
//! [`pieces`] are all pieces of so many cells, [`Refused`] says why a tray or a number can't be taken. [`call`] has the calls themselves, over slices.

pub mod call;

use std::fmt;

#[cfg(doctest)]
#[doc = include_str!("../README.md")]
struct Readme;

/// A box of cells: three sides, and for each cell whether it is filled, layer by layer, row by row.
#[derive(Clone, Debug, PartialEq, Eq)]
pub struct Grid {
    sides: [usize; 3],
    cells: Vec<u8>,
}

/// Digits that are no grid: other characters than `0`, `1` and spaces, or not as many as the sides multiplied.
#[derive(Clone, Copy, Debug, PartialEq, Eq)]
pub struct NoGrid;

impl Grid {
    /// A grid as it is typed in a tray file; spaces are passed over.
    pub fn new(sides: [usize; 3], digits: &str) -> Result<Grid, NoGrid> {
        let mut cells = Vec::new();
        for digit in digits.chars().filter(|digit| !digit.is_whitespace()) {
            match digit {
                '0' => cells.push(0),
                '1' => cells.push(1),
                _ => return Err(NoGrid),
            }
        }
        let [a, b, c] = sides;
        let volume = a.checked_mul(b).and_then(|layers| layers.checked_mul(c));
        if volume == Some(cells.len()) { Ok(Grid { sides, cells }) } else { Err(NoGrid) }
    }

    pub fn sides(&self) -> [usize; 3] {
        self.sides
    }

    /// Whether a cell of the box is filled; false outside.
    pub fn is_filled(&self, x: usize, y: usize, z: usize) -> bool {
        let [a, b, c] = self.sides;
        x < a && y < b && z < c && self.cells[(x * b + y) * c + z] == 1
    }
}

/// The cells as they are typed in a tray file, without the sides.
impl fmt::Display for Grid {
    fn fmt(&self, f: &mut fmt::Formatter) -> fmt::Result {
        self.cells.iter().try_for_each(|cell| write!(f, "{cell}"))
    }
}

/// All pieces of n cells, 1 to 6, that hang together by faces: each once under turns, mirror pairs as two, as its smallest turned grid, ascending.
///
/// ```
/// use ferghuul::{pieces, Engine, Grid, Identify, Refused, Tray};
///
/// let drawn: Vec<String> = pieces(3).unwrap().iter().map(Grid::to_string).collect();
/// assert_eq!(drawn, ["111", "0111"]);
///
/// // The eight pieces of four cells, in a box of two by four by four.
/// let board = Tray::new(Grid::new([2, 4, 4], &"1".repeat(32)).unwrap());
/// let tray = pieces(4).unwrap().into_iter().fold(board, |tray, piece| tray.piece(1, piece));
/// assert_eq!(tray.packings(Engine::Fast, Identify::Turned).unwrap().count(), 1_390);
///
/// assert_eq!(pieces(7), Err(Refused::CellCount));
/// ```
pub fn pieces(n: u32) -> Result<Vec<Grid>, Refused> {
    let mut entries = [0; call::CATALOGUE];
    let page = call::catalogue(n, 0, &mut entries);
    if page.number != 0 {
        return Err(Refused::of(page.number));
    }
    // Proved of the list: it has at most 166 entries.
    assert!(!page.further);
    Ok(entries.chunks(call::ENTRY).take(page.written).map(grid_of).collect())
}

fn grid_of(entry: &[u8]) -> Grid {
    let sides = [entry[0], entry[1], entry[2]].map(usize::from);
    let cells = entry[3..][..sides.iter().product()].to_vec();
    Grid { sides, cells }
}

/// Both engines list the same packings, in different orders.
#[derive(Clone, Copy, Debug, PartialEq, Eq)]
pub enum Engine {
    Fast = 2,
    Knuth = 3,
}

/// Which packings count as the same: those that turns of the board, or turns and mirrorings, carry onto each other.
#[derive(Clone, Copy, Debug, PartialEq, Eq)]
pub enum Identify {
    Nothing,
    Turned,
    Mirrored,
}

/// Why a tray is refused, or a number of cells: the first of these that applies (docs/TRAYS.md).
#[derive(Clone, Copy, Debug, PartialEq, Eq)]
pub enum Refused {
    TooManyPieces = 2,
    BadSide = 3,
    PieceUnfilled = 6,
    TooManyCopies = 8,
    TooManyCells = 9,
    TooManyPlacements = 14,
    TooManyLinks = 15,
    NoText = 17,
    CellCount = 21,
}

impl Refused {
    /// The number in the table of docs/TRAYS.md.
    pub fn number(self) -> u32 {
        self as u32
    }

    /// The others (4, 5, 10 to 13, 18) can't come of a tray that was built here: its cells are 0 and 1 and all there, and so are the slices.
    fn of(number: u32) -> Refused {
        match number {
            2 => Refused::TooManyPieces,
            3 => Refused::BadSide,
            6 => Refused::PieceUnfilled,
            8 => Refused::TooManyCopies,
            9 => Refused::TooManyCells,
            14 => Refused::TooManyPlacements,
            15 => Refused::TooManyLinks,
            17 => Refused::NoText,
            21 => Refused::CellCount,
            _ => unreachable!("refused {number}"),
        }
    }
}

impl fmt::Display for Refused {
    fn fmt(&self, f: &mut fmt::Formatter) -> fmt::Result {
        f.write_str(match self {
            Refused::TooManyPieces => "more than 16 pieces",
            Refused::BadSide => "a side is not 1 to 8",
            Refused::PieceUnfilled => "a piece has no filled cell",
            Refused::TooManyCopies => "more than 128 copies",
            Refused::TooManyCells => "the board has more than 128 cells to fill",
            Refused::TooManyPlacements => "more than 1,024 placements",
            Refused::TooManyLinks => "more than 4,096 links",
            Refused::NoText => "no text for DLX1: a kind has more than one copy, or the board no cell to fill",
            Refused::CellCount => "the number of cells is not 1 to 6",
        })
    }
}

impl std::error::Error for Refused {}

/// A board, and a box of pieces to fill it with.
#[derive(Clone, Debug)]
pub struct Tray {
    board: call::Record,
    pieces: Vec<call::Record>,
    bytes: Vec<u8>,
}

impl Tray {
    pub fn new(board: Grid) -> Tray {
        let mut bytes = Vec::new();
        let board = lay(board, 0, 0, &mut bytes);
        Tray { board, pieces: Vec::new(), bytes }
    }

    /// With so many copies of a piece.
    pub fn piece(self, count: u32, grid: Grid) -> Tray {
        self.piece_in_wood(count, grid, 0)
    }

    /// The same in a wood: pieces of one shape in different woods are different pieces.
    pub fn piece_in_wood(mut self, count: u32, grid: Grid, wood: u8) -> Tray {
        let record = lay(grid, count, wood, &mut self.bytes);
        self.pieces.push(record);
        self
    }

    /// The packings, one after the other, in fixed memory; or why the tray can't be taken.
    pub fn packings(&self, engine: Engine, identify: Identify) -> Result<Packings<'_>, Refused> {
        let mut packings = Packings {
            tray: self,
            config: call::Config {
                engine: engine as u8,
                turned: identify != Identify::Nothing,
                mirrored: identify == Identify::Mirrored,
            },
            sides: [self.board.a, self.board.b, self.board.c],
            page: Vec::new(),
            last: Vec::new(),
            next: 0,
            written: 0,
            further: false,
            work: vec![0; call::WORK],
            links: vec![0; if engine == Engine::Knuth { call::LINKS } else { 0 }],
        };
        packings.turn(false)?;
        Ok(packings)
    }

    /// The text that Knuth's DLX1 reads; or why the tray can't be taken. Its exact covers are the packings, one to one, where nothing is identified.
    ///
    /// ```
    /// use ferghuul::{Grid, Refused, Tray};
    ///
    /// let grid = |sides, digits| Grid::new(sides, digits).unwrap();
    /// let tray = Tray::new(grid([1, 1, 3], "111")).piece(1, grid([1, 1, 1], "1")).piece(1, grid([1, 1, 2], "11"));
    /// assert_eq!(tray.dlx1().unwrap(), "b0 b1 b2 | p0 p1\np0 b0\np0 b1\np0 b2\np1 b0 b1\np1 b1 b2\n");
    ///
    /// // A second domino is one that DLX1 can't be told of.
    /// assert_eq!(tray.piece(1, grid([1, 2, 1], "11")).dlx1(), Err(Refused::NoText));
    /// ```
    pub fn dlx1(&self) -> Result<String, Refused> {
        let (mut output, mut work) = (vec![0; call::TEXT], vec![0; call::WORK]);
        let text = call::dlx1(&self.pieces, self.board, &self.bytes, &mut output, &mut work);
        if text.number != 0 {
            return Err(Refused::of(text.number));
        }
        output.truncate(text.written);
        Ok(String::from_utf8(output).expect("letters, digits, spaces, bars and line feeds"))
    }
}

fn lay(grid: Grid, count: u32, wood: u8, bytes: &mut Vec<u8>) -> call::Record {
    let [a, b, c] = grid.sides;
    let start = bytes.len();
    bytes.extend(grid.cells);
    call::Record { a, b, c, count, wood, start }
}

/// The bytes of answers that a page has room for, but for at least one answer.
const ROOM: usize = 1 << 18;

/// The packings of a tray, in the engine's order.
pub struct Packings<'a> {
    tray: &'a Tray,
    config: call::Config,
    sides: [usize; 3],
    page: Vec<u8>,
    last: Vec<u8>,
    next: usize,
    written: usize,
    further: bool,
    work: Vec<u64>,
    links: Vec<u16>,
}

impl Packings<'_> {
    fn size(&self) -> usize {
        2 * self.tray.board.a.saturating_mul(self.tray.board.b).saturating_mul(self.tray.board.c).min(512)
    }

    /// The next page: the first, of one answer, or the one behind the last answer, eight times as large up to a limit.
    fn turn(&mut self, behind: bool) -> Result<(), Refused> {
        let size = self.size();
        let room = (8 * self.page.len()).clamp(size, ROOM.max(size));
        self.page.resize(room, 0);
        let start = call::Start { behind, skip: 0, last: &self.last };
        let (tray, config) = (self.tray, self.config);
        let answer =
            call::page(&tray.pieces, tray.board, &tray.bytes, config, start, &mut self.page, &mut self.work, &mut self.links);
        if answer.number != 0 {
            return Err(Refused::of(answer.number));
        }
        // Proved of the call: behind an entry of the list something follows if it was said to.
        assert!(!answer.missing && (answer.written > 0 || !answer.further));
        (self.next, self.written, self.further) = (0, answer.written, answer.further);
        Ok(())
    }
}

impl Iterator for Packings<'_> {
    type Item = Packing;

    fn next(&mut self) -> Option<Packing> {
        let size = self.size();
        if self.next == self.written {
            if !self.further {
                return None;
            }
            self.last.clear();
            self.last.extend_from_slice(&self.page[(self.written - 1) * size..self.written * size]);
            self.turn(true).expect("a tray that was taken is taken again");
        }
        let bytes = self.page[self.next * size..(self.next + 1) * size].to_vec();
        self.next += 1;
        Some(Packing { sides: self.sides, bytes })
    }
}

/// A packing: for each cell of the board's box which copy of which piece lies there.
#[derive(Clone, Debug, PartialEq, Eq)]
pub struct Packing {
    sides: [usize; 3],
    bytes: Vec<u8>,
}

impl Packing {
    /// The piece, by its number in the box, and its copy on a cell of the board's box; none where the board is unfilled, or outside.
    pub fn at(&self, x: usize, y: usize, z: usize) -> Option<(u8, u8)> {
        let [a, b, c] = self.sides;
        if x >= a || y >= b || z >= c {
            return None;
        }
        let place = 2 * ((x * b + y) * c + z);
        let (piece, copy) = (self.bytes[place], self.bytes[place + 1]);
        if (piece, copy) == (255, 255) { None } else { Some((piece, copy)) }
    }

    /// The answer as the library writes it: two bytes for each cell of the box.
    pub fn bytes(&self) -> &[u8] {
        &self.bytes
    }
}

/// As `pack` prints it: piece, point, copy, or `-`, for each cell.
impl fmt::Display for Packing {
    fn fmt(&self, f: &mut fmt::Formatter) -> fmt::Result {
        for (i, pair) in self.bytes.chunks(2).enumerate() {
            if i > 0 {
                f.write_str(" ")?;
            }
            match pair {
                [255, 255] => f.write_str("-")?,
                _ => write!(f, "{}.{}", pair[0], pair[1])?,
            }
        }
        Ok(())
    }
}

#[cfg(test)]
mod tests {
    use super::*;

    fn grid(sides: [usize; 3], digits: &str) -> Grid {
        Grid::new(sides, digits).unwrap()
    }

    fn soma() -> Tray {
        Tray::new(grid([3, 3, 3], &"1".repeat(27)))
            .piece(1, grid([1, 2, 2], "11 10"))
            .piece(1, grid([1, 2, 3], "111 100"))
            .piece(1, grid([1, 2, 3], "111 010"))
            .piece(1, grid([1, 2, 3], "110 011"))
            .piece(1, grid([2, 2, 2], "11 10  10 00"))
            .piece(1, grid([2, 2, 2], "11 10  01 00"))
            .piece(1, grid([2, 2, 2], "11 10  00 10"))
    }

    #[test]
    fn soma_by_both_engines() {
        for engine in [Engine::Fast, Engine::Knuth] {
            let count = |identify| soma().packings(engine, identify).unwrap().count();
            assert_eq!(count(Identify::Nothing), 11_520);
            assert_eq!(count(Identify::Turned), 480);
            assert_eq!(count(Identify::Mirrored), 240);
        }
    }

    #[test]
    fn each_refusal_that_a_tray_can_meet() {
        let refusal = |tray: Tray, engine| tray.packings(engine, Identify::Nothing).err();
        let cell = || grid([1, 1, 1], "1");
        let board = || Tray::new(cell());
        let pieces = (0..17).fold(board(), |tray, _| tray.piece(1, cell()));
        assert_eq!(refusal(pieces, Engine::Fast), Some(Refused::TooManyPieces));
        assert_eq!(refusal(Tray::new(grid([1, 1, 9], "111111111")), Engine::Fast), Some(Refused::BadSide));
        assert_eq!(refusal(Tray::new(grid([0, 1, 1], "")), Engine::Fast), Some(Refused::BadSide));
        assert_eq!(refusal(board().piece(1, grid([1, 1, 1], "0")), Engine::Fast), Some(Refused::PieceUnfilled));
        assert_eq!(refusal(board().piece(129, cell()), Engine::Fast), Some(Refused::TooManyCopies));
        let full = |sides: [usize; 3]| grid(sides, &"1".repeat(sides.iter().product()));
        assert_eq!(refusal(Tray::new(full([3, 6, 8])), Engine::Fast), Some(Refused::TooManyCells));
        let dominoes = Tray::new(full([2, 8, 8])).piece(64, full([1, 1, 2])).piece(1, full([1, 1, 3]));
        let many = dominoes.piece(1, grid([1, 2, 2], "1110")).piece(1, grid([1, 2, 3], "111100"));
        assert_eq!(refusal(many, Engine::Fast), Some(Refused::TooManyPlacements));
        let blocks = Tray::new(full([5, 5, 5])).piece(13, full([1, 2, 4])).piece(1, full([2, 2, 2]));
        let conway = blocks.piece(1, full([1, 2, 2])).piece(3, full([1, 1, 3]));
        assert_eq!(refusal(conway, Engine::Knuth), Some(Refused::TooManyLinks));
        assert_eq!(Refused::TooManyPlacements.number(), 14);
    }

    #[test]
    fn texts() {
        let text = soma().dlx1().unwrap();
        assert_eq!((text.len(), text.lines().count()), (11_808, 689));
        assert!(text.contains("\np0 b9 b1 b10\n"));
        assert_eq!(Tray::new(grid([1, 1, 2], "11")).dlx1().unwrap(), "b0 b1\n");
        assert_eq!(Tray::new(grid([1, 1, 1], "0")).dlx1(), Err(Refused::NoText));
        assert_eq!(Tray::new(grid([1, 1, 9], "111111111")).dlx1(), Err(Refused::BadSide));
        assert_eq!(Refused::NoText.number(), 17);
    }

    #[test]
    fn catalogue() {
        let lengths = [1, 2, 3, 4, 5, 6].map(|n| pieces(n).unwrap().len());
        assert_eq!(lengths, [1, 1, 2, 8, 29, 166]);
        let corner = &pieces(3).unwrap()[1];
        assert_eq!(*corner, grid([1, 2, 2], "0111"));
        assert_eq!(corner.sides(), [1, 2, 2]);
        assert_eq!([(0, 0, 0), (0, 0, 1), (0, 1, 1), (1, 0, 1), (0, 0, 2)].map(|(x, y, z)| corner.is_filled(x, y, z)), [
            false, true, true, false, false
        ]);
        let largest = pieces(6).unwrap().pop().unwrap();
        assert_eq!(Grid::new(largest.sides(), &largest.to_string()), Ok(largest));
        assert!([0, 7, u32::MAX].iter().all(|&n| pieces(n) == Err(Refused::CellCount)));
        assert_eq!(Refused::CellCount.number(), 21);
    }

    /// Soma's pieces are the last of three cells, and all of four that are no boxes.
    #[test]
    fn soma_of_the_catalogue() {
        let cube = Tray::new(grid([3, 3, 3], &"1".repeat(27)));
        let lent = pieces(3).unwrap().into_iter().skip(1).chain(pieces(4).unwrap().into_iter().skip(2));
        let tray = lent.fold(cube, |tray, piece| tray.piece(1, piece));
        assert_eq!(tray.packings(Engine::Fast, Identify::Mirrored).unwrap().count(), 240);
    }

    #[test]
    fn no_grid() {
        assert_eq!(Grid::new([1, 1, 2], "1"), Err(NoGrid));
        assert_eq!(Grid::new([1, 1, 1], "2"), Err(NoGrid));
        assert_eq!(Grid::new([usize::MAX, 2, 2], ""), Err(NoGrid));
    }

    #[test]
    fn an_empty_box() {
        let listed = |digits| {
            let tray = Tray::new(grid([1, 1, 2], digits));
            let packings = tray.packings(Engine::Fast, Identify::Nothing).unwrap();
            packings.map(|packing| packing.to_string()).collect::<Vec<_>>()
        };
        assert_eq!(listed("00"), ["- -"]);
        assert!(listed("11").is_empty());
    }

    #[test]
    fn woods() {
        let tray = |wood| {
            Tray::new(grid([1, 1, 2], "11")).piece_in_wood(1, grid([1, 1, 1], "1"), 7).piece_in_wood(1, grid([1, 1, 1], "1"), wood)
        };
        assert_eq!(tray(7).packings(Engine::Knuth, Identify::Nothing).unwrap().count(), 1);
        assert_eq!(tray(8).packings(Engine::Knuth, Identify::Nothing).unwrap().count(), 2);
    }
}
