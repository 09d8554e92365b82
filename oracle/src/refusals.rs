//! The refusals 2 to 15 of a call, tested in their order. The original knows none.
//! (16, a malformed file, is the parser's. No piece, once 1, is no refusal, nor is an
//! empty outer layer, once 7.) 3 to 6 are of the grids as lent, 14 and 15 of what is
//! left without empty outer layers; for 8 and 9 that is all one.

use crate::placements::{self, kinds};
use crate::tray::{Config, Engine, Grid, Piece, Tray};

pub const MALFORMED: u8 = 16;

pub const MOST_PIECES: usize = 16;
pub const LONGEST_SIDE: u32 = 8;
pub const MOST_COPIES: u64 = 128;
pub const MOST_FILLED: usize = 128;
pub const MOST_PLACEMENTS: usize = 1_024;
pub const MOST_LINKS: usize = 4_096;
pub const WORK_WORDS: usize = 8_192;
pub const LINK_NUMBERS: usize = 32_768;

/// A grid as it is lent: sides, count, wood, and where its cells begin. The
/// board's count and wood are not read.
#[derive(Clone, Copy, Debug)]
pub struct Record {
    pub sides: [u32; 3],
    pub count: u32,
    pub wood: u8,
    pub start: u64,
}

/// What a caller lends. Of the work and links slices only the lengths matter.
pub struct Call<'a> {
    pub config: Config,
    pub board: Record,
    pub pieces: &'a [Record],
    pub cells: &'a [u8],
    pub work_words: usize,
    pub link_numbers: usize,
}

/// The refusal of a call, None where it is accepted.
pub fn refusal(call: &Call) -> Option<u8> {
    let pieces = call.pieces;
    let grids = || std::iter::once(&call.board).chain(pieces);

    if pieces.len() > MOST_PIECES {
        return Some(2);
    }
    if grids().any(|grid| grid.sides.iter().any(|side| !(1..=LONGEST_SIDE).contains(side))) {
        return Some(3);
    }
    if grids().any(|grid| lent_cells(grid, call.cells).is_none()) {
        return Some(4);
    }
    if grids().any(|grid| lent_cells(grid, call.cells).unwrap().iter().any(|&cell| cell > 1)) {
        return Some(5);
    }

    // From here on the grids can be read.
    let board = read(&call.board, call.cells);
    let pieces: Vec<Piece> = pieces
        .iter()
        .map(|record| {
            let grid = read(record, call.cells);
            Piece { count: record.count, grid, wood: record.wood }
        })
        .collect();

    if pieces.iter().any(|piece| placements::filled_cells(&piece.grid) == 0) {
        return Some(6);
    }
    if pieces.iter().map(|piece| u64::from(piece.count)).sum::<u64>() > MOST_COPIES {
        return Some(8);
    }
    let filled = placements::filled_cells(&board);
    if filled > MOST_FILLED {
        return Some(9);
    }
    let Config { engine, turned, mirrored } = call.config;
    if mirrored && !turned {
        return Some(10);
    }
    if engine == Engine::Auto || engine == Engine::Naive {
        return Some(11);
    }
    if call.work_words < WORK_WORDS {
        return Some(12);
    }
    if engine == Engine::Knuth && call.link_numbers < LINK_NUMBERS {
        return Some(13);
    }
    let kinds = kinds(&board, &pieces);
    if kinds.iter().map(|kind| kind.rows.len()).sum::<usize>() > MOST_PLACEMENTS {
        return Some(14);
    }
    if engine == Engine::Knuth && placements::links(filled, &kinds) > MOST_LINKS {
        return Some(15);
    }
    None
}

/// The refusal of a well-formed file: `pack` lends slices that are big enough.
pub fn refusal_of_tray(tray: &Tray) -> Option<u8> {
    let mut cells = vec![];
    let mut lend = |grid: &Grid, count, wood| {
        let start = cells.len() as u64;
        cells.extend(&grid.cells);
        Record { sides: grid.sides, count, wood, start }
    };
    let board = lend(&tray.board, 0, 0);
    let pieces: Vec<Record> =
        tray.pieces.iter().map(|piece| lend(&piece.grid, piece.count, piece.wood)).collect();
    refusal(&Call {
        config: tray.config,
        board,
        pieces: &pieces,
        cells: &cells,
        work_words: WORK_WORDS,
        link_numbers: LINK_NUMBERS,
    })
}

/// The cells of a grid with sides 1 to 8, None if they do not all lie in the lent bytes.
fn lent_cells<'a>(grid: &Record, cells: &'a [u8]) -> Option<&'a [u8]> {
    let volume: u32 = grid.sides.iter().product();
    let end = grid.start.checked_add(u64::from(volume))?;
    cells.get(usize::try_from(grid.start).ok()?..usize::try_from(end).ok()?)
}

fn read(grid: &Record, cells: &[u8]) -> Grid {
    Grid { sides: grid.sides, cells: lent_cells(grid, cells).unwrap().to_vec() }
}

#[cfg(test)]
mod tests {
    use super::*;

    /// One cell in a board of one cell, everything big enough.
    const CELL: Record = Record { sides: [1, 1, 1], count: 1, wood: 0, start: 0 };
    const CONFIG: Config = Config { engine: Engine::Knuth, turned: true, mirrored: true };

    fn call<'a>(pieces: &'a [Record], cells: &'a [u8]) -> Call<'a> {
        let (work_words, link_numbers) = (WORK_WORDS, LINK_NUMBERS);
        Call { config: CONFIG, board: CELL, pieces, cells, work_words, link_numbers }
    }

    fn of_pieces(pieces: &[Record]) -> Option<u8> {
        refusal(&call(pieces, &[1, 0]))
    }

    #[test]
    fn accepted() {
        assert_eq!(of_pieces(&[CELL]), None);
    }

    #[test]
    fn the_pieces_and_their_cells() {
        assert_eq!(of_pieces(&[CELL; 16]), None);
        assert_eq!(of_pieces(&[CELL; 17]), Some(2));
        assert_eq!(of_pieces(&[Record { sides: [1, 0, 1], ..CELL }]), Some(3));
        assert_eq!(of_pieces(&[Record { sides: [257, 1, 1], ..CELL }]), Some(3));
        assert_eq!(of_pieces(&[Record { sides: [1, 1, u32::MAX], ..CELL }]), Some(3));
        assert_eq!(of_pieces(&[Record { start: 1, ..CELL }]), Some(6));
        assert_eq!(of_pieces(&[Record { start: 2, ..CELL }]), Some(4));
        assert_eq!(of_pieces(&[Record { start: u64::MAX, ..CELL }]), Some(4));
        assert_eq!(refusal(&call(&[CELL], &[2])), Some(5));
        assert_eq!(of_pieces(&[Record { sides: [1, 1, 2], ..CELL }]), None);
        assert_eq!(of_pieces(&[Record { count: 128, ..CELL }]), None);
        assert_eq!(of_pieces(&[Record { count: 129, ..CELL }]), Some(8));
        assert_eq!(of_pieces(&[Record { count: u32::MAX, ..CELL }; 2]), Some(8));
    }

    #[test]
    fn the_board_and_the_limits() {
        let full = [1; 512];
        let board = |sides| Call { board: Record { sides, ..CELL }, ..call(&[CELL], &full) };
        assert_eq!(refusal(&board([4, 4, 8])), None);
        assert_eq!(refusal(&board([3, 6, 8])), Some(9));
        // Rows of one to eight cells have 960 placements and 4,040 links there; a
        // square of four by four adds 48 placements, one of two by two 240.
        let mut rows: Vec<Record> =
            (1..=8).map(|side| Record { sides: [1, 1, side], ..CELL }).collect();
        let with = |pieces: &[Record], engine| {
            refusal(&Call {
                config: Config { engine, ..CONFIG },
                board: Record { sides: [4, 4, 8], ..CELL },
                ..call(pieces, &full)
            })
        };
        assert_eq!(with(&rows, Engine::Knuth), None);
        rows.push(Record { sides: [1, 4, 4], ..CELL });
        assert_eq!(with(&rows, Engine::Fast), None);
        assert_eq!(with(&rows, Engine::Knuth), Some(15));
        rows.push(Record { sides: [1, 2, 2], ..CELL });
        assert_eq!(with(&rows, Engine::Fast), Some(14));
        assert_eq!(with(&rows, Engine::Knuth), Some(14));
    }

    #[test]
    fn the_woods() {
        let full = [1; 128];
        let with = |sides, pieces: &[Record], engine| {
            refusal(&Call {
                config: Config { engine, ..CONFIG },
                board: Record { sides, ..CELL },
                ..call(pieces, &full)
            })
        };
        let in_woods = |record: Record, woods: std::ops::Range<u8>| -> Vec<Record> {
            woods.map(|wood| Record { wood, ..record }).collect()
        };
        // One cell in one wood, and on 128 cells in eight woods and in nine.
        assert_eq!(with([4, 4, 8], &[CELL; 9], Engine::Knuth), None);
        assert_eq!(with([4, 4, 8], &in_woods(CELL, 200..208), Engine::Knuth), None);
        assert_eq!(with([4, 4, 8], &in_woods(CELL, 0..9), Engine::Knuth), Some(14));
        assert_eq!(with([4, 4, 8], &in_woods(CELL, 0..9), Engine::Fast), Some(14));
        // A box of two by two by four has 87 placements there: 3,088 links in two
        // woods and 4,568 in three; without copies a wood is one link.
        let block = Record { sides: [2, 2, 4], ..CELL };
        assert_eq!(with([4, 4, 8], &[block; 3], Engine::Knuth), None);
        assert_eq!(with([4, 4, 8], &in_woods(block, 0..2), Engine::Knuth), None);
        assert_eq!(with([4, 4, 8], &in_woods(block, 0..3), Engine::Knuth), Some(15));
        assert_eq!(with([4, 4, 8], &in_woods(block, 0..3), Engine::Fast), None);
        let spare = Record { count: 0, ..block };
        assert_eq!(with([4, 4, 8], &in_woods(spare, 0..4), Engine::Knuth), None);
        // The board's wood is not read.
        for wood in [1, 255] {
            let call = Call { board: Record { wood, ..CELL }, ..call(&[CELL], &full) };
            assert_eq!(refusal(&call), None);
        }
    }

    #[test]
    fn empty_outer_layers() {
        // 3 to 6 are of the grids as lent: the sides, all the cells, and one of them filled.
        let with = |sides, cells: &[u8]| {
            let piece = Record { sides, start: 1, ..CELL };
            refusal(&call(&[piece], cells))
        };
        assert_eq!(with([1, 1, 4], &[1, 0, 0, 1, 0]), None);
        assert_eq!(with([1, 1, 9], &[1, 1, 0, 0, 0, 0, 0, 0, 0, 0]), Some(3));
        assert_eq!(with([1, 1, 4], &[1, 1, 0, 0]), Some(4));
        assert_eq!(with([1, 1, 4], &[1, 1, 0, 0, 2]), Some(5));
        assert_eq!(with([1, 1, 4], &[1, 0, 0, 0, 0]), Some(6));
        // 128 filled cells, then 129, in the longest box.
        let filled = |number| [vec![0; 512 - number], vec![1; number]].concat();
        let on = |cells: &[u8], pieces: &[Record], engine| {
            let board = Record { sides: [8, 8, 8], ..CELL };
            let config = Config { engine, ..CONFIG };
            refusal(&Call { config, board, ..call(pieces, cells) })
        };
        let cell = Record { start: 511, ..CELL };
        assert_eq!(on(&filled(128), &[cell], Engine::Knuth), None);
        assert_eq!(on(&filled(129), &[cell], Engine::Knuth), Some(9));
        // 14 counts kinds, and one cell in two boxes is one: eight woods, then nine.
        let in_two = |woods: u8| -> Vec<Record> {
            let boxed = Record { sides: [1, 1, 2], start: 383, ..CELL };
            let of = |wood| [Record { wood, ..cell }, Record { wood, ..boxed }];
            (0..woods).flat_map(of).collect()
        };
        assert_eq!(on(&filled(128), &in_two(8), Engine::Knuth), None);
        let nine = [in_two(7), vec![Record { wood: 8, ..cell }, Record { wood: 9, ..cell }]];
        assert_eq!(on(&filled(128), &nine.concat(), Engine::Fast), Some(14));
        // 15 likewise: a box of two by two by four has 87 placements in the full board.
        let block = |wood, thick| Record { sides: [thick, 2, 4], wood, ..CELL };
        let cells = [vec![1; 128], vec![0; 8]].concat();
        let with = |pieces: &[Record]| {
            let board = Record { sides: [4, 4, 8], ..CELL };
            refusal(&Call { board, ..call(pieces, &cells) })
        };
        let boxed = |wood| Record { start: 112, ..block(wood, 3) };
        assert_eq!(with(&[block(1, 2), block(2, 2), boxed(1), boxed(2)]), None);
        assert_eq!(with(&[block(1, 2), block(2, 2), boxed(3)]), Some(15));
    }

    #[test]
    fn the_configuration_and_the_lent_lengths() {
        let with = |config, work_words, link_numbers| {
            refusal(&Call { config, work_words, link_numbers, ..call(&[CELL], &[1]) })
        };
        let (work, links) = (WORK_WORDS, LINK_NUMBERS);
        let fast = Config { engine: Engine::Fast, ..CONFIG };
        assert_eq!(with(Config { turned: false, ..CONFIG }, 0, 0), Some(10));
        assert_eq!(with(Config { engine: Engine::Auto, ..CONFIG }, 0, 0), Some(11));
        assert_eq!(with(Config { engine: Engine::Naive, ..CONFIG }, 0, 0), Some(11));
        assert_eq!(with(CONFIG, work - 1, 0), Some(12));
        assert_eq!(with(CONFIG, work, links - 1), Some(13));
        assert_eq!(with(fast, work, 0), None);
        assert_eq!(with(CONFIG, work, links), None);
    }

    #[test]
    fn no_piece_and_the_board() {
        let with = |board, cells: &[u8]| refusal(&Call { board, ..call(&[], cells) });
        let sides = |sides, cells: &[u8]| with(Record { sides, ..CELL }, cells);
        let start = |start| with(Record { start, ..CELL }, &[0]);
        assert_eq!(with(CELL, &[0]), None);
        assert_eq!(with(CELL, &[1]), None);
        assert_eq!(with(Record { count: u32::MAX, ..CELL }, &[0]), None);
        for side in [0, 9, 257, u32::MAX] {
            assert_eq!(sides([side, 1, 1], &[0; 512]), Some(3));
            assert_eq!(sides([1, side, 1], &[0; 512]), Some(3));
            assert_eq!(sides([1, 1, side], &[0; 512]), Some(3));
        }
        assert_eq!(sides([1, 1, 2], &[0]), Some(4));
        assert_eq!(with(CELL, &[]), Some(4));
        assert_eq!(start(1), Some(4));
        assert_eq!(start(u64::MAX), Some(4));
        assert_eq!(with(CELL, &[2]), Some(5));
        assert_eq!(with(CELL, &[255]), Some(5));
        // What lies beside the board's cells is not read.
        assert_eq!(with(CELL, &[1, 2]), None);
        assert_eq!(sides([8, 8, 8], &[0; 512]), None);
        let filled = |number| [vec![0; 512 - number], vec![1; number]].concat();
        assert_eq!(sides([8, 8, 8], &filled(128)), None);
        assert_eq!(sides([8, 8, 8], &filled(129)), Some(9));
    }

    #[test]
    fn no_piece_and_the_rest_of_the_call() {
        let with = |config, work_words, link_numbers| {
            refusal(&Call { config, work_words, link_numbers, ..call(&[], &[0]) })
        };
        let (work, links) = (WORK_WORDS, LINK_NUMBERS);
        for engine in [Engine::Auto, Engine::Naive, Engine::Fast, Engine::Knuth] {
            let config = Config { engine, turned: false, mirrored: true };
            assert_eq!(with(config, 0, 0), Some(10));
        }
        for (turned, mirrored) in [(false, false), (true, false), (true, true)] {
            let config = |engine| Config { engine, turned, mirrored };
            assert_eq!(with(config(Engine::Auto), 0, 0), Some(11));
            assert_eq!(with(config(Engine::Naive), work, links), Some(11));
            assert_eq!(with(config(Engine::Fast), work - 1, links), Some(12));
            assert_eq!(with(config(Engine::Knuth), work - 1, 0), Some(12));
            assert_eq!(with(config(Engine::Knuth), work, links - 1), Some(13));
            assert_eq!(with(config(Engine::Fast), work, 0), None);
            assert_eq!(with(config(Engine::Knuth), work, links), None);
        }
    }

    #[test]
    fn no_piece_and_several_refusals() {
        // Everything is wrong that can be; one after the other it is put right.
        let (mut odd, full) = ([1; 512], [1; 512]);
        odd[0] = 2;
        let mut call = Call {
            config: Config { engine: Engine::Naive, turned: false, mirrored: true },
            board: Record { sides: [8, 8, 9], count: 0, wood: 0, start: 1 },
            pieces: &[],
            cells: &odd,
            work_words: WORK_WORDS - 1,
            link_numbers: LINK_NUMBERS - 1,
        };
        assert_eq!(refusal(&call), Some(3));
        call.board.sides = [8, 8, 8];
        assert_eq!(refusal(&call), Some(4));
        call.board.start = 0;
        assert_eq!(refusal(&call), Some(5));
        call.cells = &full;
        assert_eq!(refusal(&call), Some(9));
        call.board.sides = [2, 8, 8];
        assert_eq!(refusal(&call), Some(10));
        call.config.turned = true;
        assert_eq!(refusal(&call), Some(11));
        call.config.engine = Engine::Knuth;
        assert_eq!(refusal(&call), Some(12));
        call.work_words = WORK_WORDS;
        assert_eq!(refusal(&call), Some(13));
        call.link_numbers = LINK_NUMBERS;
        assert_eq!(refusal(&call), None);
    }
}
