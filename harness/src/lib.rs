//! The calls of the static library, for a page and for the text that DLX1 reads, and trays as they take them.

pub mod cases;
pub mod clock;
pub mod side_by_side;

use ferghuul::call;
use oracle::tray::{Engine, Grid, Tray};

pub use ferghuul::call::{Answer, Record, TextAnswer};

/// Where a page begins: at an entry, by its number, or behind an entry, by its bytes.
#[derive(Clone, Copy, Debug)]
pub enum Start<'a> {
    Skip(u64),
    Behind(&'a [u8]),
}

/// What a call lends.
pub struct Lent {
    pub pieces: Vec<Record>,
    pub board: Record,
    pub bytes: Vec<u8>,
    pub engine: Engine,
    pub turned: bool,
    pub mirrored: bool,
}

impl Lent {
    pub fn new(tray: &Tray) -> Lent {
        let mut bytes = vec![];
        let board = record(&tray.board, 0, 0, &mut bytes);
        let pieces = tray
            .pieces
            .iter()
            .map(|piece| record(&piece.grid, piece.count, piece.wood, &mut bytes))
            .collect();
        Lent {
            pieces,
            board,
            bytes,
            engine: tray.config.engine,
            turned: tray.config.turned,
            mirrored: tray.config.mirrored,
        }
    }

    /// An answer's bytes.
    pub fn size(&self) -> usize {
        2 * self.board.a * self.board.b * self.board.c
    }

    fn engine_number(&self) -> u8 {
        match self.engine {
            Engine::Auto => 0,
            Engine::Naive => 1,
            Engine::Fast => 2,
            Engine::Knuth => 3,
        }
    }

    /// A page of the engine's list, or the refusal. Of skip and last entry the one that is not to be read holds something.
    pub fn page(&self, start: Start, answers: &mut [u8], work: &mut [u64], links: &mut [u16]) -> Answer {
        let (behind, skip, last) = match start {
            Start::Skip(skip) => (false, skip, &[STAIN; 3][..]),
            Start::Behind(last) => (true, 1, last),
        };
        let config = call::Config { engine: self.engine_number(), turned: self.turned, mirrored: self.mirrored };
        let start = call::Start { behind, skip, last };
        call::page(&self.pieces, self.board, &self.bytes, config, start, answers, work, links)
    }

    /// The tray's text for DLX1, or the refusal.
    pub fn text(&self, output: &mut [u8], work: &mut [u64]) -> TextAnswer {
        call::dlx1(&self.pieces, self.board, &self.bytes, output, work)
    }
}

fn record(grid: &Grid, count: u32, wood: u8, bytes: &mut Vec<u8>) -> Record {
    let [a, b, c] = grid.sides.map(|side| side as usize);
    let start = bytes.len();
    bytes.extend(&grid.cells);
    Record {
        a,
        b,
        c,
        count,
        wood,
        start,
    }
}

/// What slices hold before a call.
pub const STAIN: u8 = 170;
const WORD_STAIN: u64 = 0xAAAA_AAAA_AAAA_AAAA;
const LINK_STAIN: u16 = 0xAAAA;

/// One page from stained slices of these lengths; what it must not touch is looked at. An entry is missing only where one was
/// waited for and the call is accepted; then nothing is written and none follows.
pub fn ask(lent: &Lent, start: Start, room: usize, words: usize, numbers: usize) -> Result<(Vec<u8>, Answer), String> {
    let mut answers = vec![STAIN; room];
    let mut work = vec![WORD_STAIN; words];
    let mut links = vec![LINK_STAIN; numbers];
    let answer = lent.page(start, &mut answers, &mut work, &mut links);
    let is_accepted = answer.number == 0;
    if answer.missing && (answer != Answer::MISSING || matches!(start, Start::Skip(_))) {
        return Err(format!("missing: {answer:?}"));
    }
    let cleared = if is_accepted { 8_192 } else { 0 };
    let unlinked = if is_accepted && lent.engine == Engine::Knuth { 32_768 } else { 0 };
    let behind = answer.written * lent.size();
    if behind > room {
        return Err("more written than fits".to_string());
    }
    let is_kept = answers[behind..].iter().all(|&byte| byte == STAIN)
        && work[..cleared].iter().all(|&word| word == 0)
        && work[cleared..].iter().all(|&word| word == WORD_STAIN)
        && links[..unlinked].iter().all(|&link| link == 0)
        && links[unlinked..].iter().all(|&link| link == LINK_STAIN);
    if is_kept {
        Ok((answers, answer))
    } else {
        Err("slices afterwards".to_string())
    }
}

/// The text from stained slices of these lengths; what it must not touch is looked at.
pub fn ask_text(lent: &Lent, room: usize, words: usize) -> Result<(Vec<u8>, TextAnswer), String> {
    let mut output = vec![STAIN; room];
    let mut work = vec![WORD_STAIN; words];
    let text = lent.text(&mut output, &mut work);
    let cleared = if text.number == 0 { 8_192 } else { 0 };
    if text.written > room {
        return Err("more written than fits".to_string());
    }
    let is_kept = output[text.written..].iter().all(|&byte| byte == STAIN)
        && work[..cleared].iter().all(|&word| word == 0)
        && work[cleared..].iter().all(|&word| word == WORD_STAIN);
    if is_kept {
        Ok((output, text))
    } else {
        Err("slices after a call for a text".to_string())
    }
}

/// An answer's bytes as `pack` prints them.
pub fn box_cells(bytes: &[u8]) -> String {
    let cell = |pair: &[u8]| match pair {
        [255, 255] => "-".to_string(),
        [piece, copy] => format!("{piece}.{copy}"),
        _ => unreachable!(),
    };
    bytes.chunks(2).map(cell).collect::<Vec<_>>().join(" ")
}
