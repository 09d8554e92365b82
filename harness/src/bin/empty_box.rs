//! Calls with no piece through the entry point, among them those that no file makes. They are held to document 01's packing alone: a
//! board without filled cells has the one empty packing, every other board has none, with both engines and the three identifications;
//! 3 to 5 (of the board) and 9 to 13 refuse. Status 1 on a difference.

use std::process::ExitCode;

use harness::{ask, Answer, Lent, Record, Start};
use oracle::tray::Engine;

const ENGINES: [Engine; 2] = [Engine::Fast, Engine::Knuth];
const IDENTIFIED: [(bool, bool); 3] = [(false, false), (true, false), (true, true)];
const WORDS: usize = 8_192;
const NUMBERS: usize = 32_768;

fn main() -> ExitCode {
    match lists().and_then(|lists| Ok((lists, refusals()?))) {
        Ok((lists, refusals)) => {
            println!("{lists} pages and {refusals} refusals of calls with no piece, 0 differences");
            ExitCode::SUCCESS
        }
        Err(what) => {
            println!("{what}");
            ExitCode::FAILURE
        }
    }
}

/// A call with this board and no piece.
fn bare(sides: [usize; 3], cells: Vec<u8>) -> Lent {
    let [a, b, c] = sides;
    Lent {
        pieces: vec![],
        board: Record { a, b, c, count: 7, wood: 255, start: 0 },
        bytes: cells,
        engine: Engine::Fast,
        turned: false,
        mirrored: false,
    }
}

fn lists() -> Result<usize, String> {
    let mut pages = 0;
    for sides in [[1, 1, 1], [1, 1, 4], [2, 1, 2], [3, 3, 3], [2, 4, 3], [8, 1, 8], [8, 8, 8]] {
        let volume: usize = sides.iter().product();
        let unfilled = vec![0; volume];
        let mut one = unfilled.clone();
        one[volume / 2] = 1;
        let filled = (0..volume).map(|cell| u8::from(cell < 128)).collect();
        for (cells, total) in [(unfilled, 1), (one, 0), (filled, 0)] {
            let mut lent = bare(sides, cells);
            for engine in ENGINES {
                for (turned, mirrored) in IDENTIFIED {
                    (lent.engine, lent.turned, lent.mirrored) = (engine, turned, mirrored);
                    pages += list(&lent, total).map_err(|what| format!("{engine:?} {turned} {mirrored} {sides:?}, {total} expected: {what}"))?;
                }
            }
        }
    }
    Ok(pages)
}

/// The pages of a list that is empty or has the one empty packing.
fn list(lent: &Lent, total: usize) -> Result<usize, String> {
    let size = lent.size();
    let (empty, zeros) = (vec![255; size], vec![0; size]);
    let behind = [&empty[..], &[], &empty[1..], &zeros, &[255; 2_000]].map(Start::Behind);
    let starts = [0, 1, 2, u64::MAX].map(Start::Skip).into_iter().chain(behind);
    let mut pages = 0;
    for start in starts {
        let ahead = if matches!(start, Start::Skip(0)) { total } else { 0 };
        for room in [0, 1, size - 1, size, 2 * size + 1] {
            let (answers, answer) = ask(lent, start, room, WORDS + 8, NUMBERS + 8)?;
            let written = ahead.min(room / size);
            // Only the empty packing is an entry, and only where there is one.
            let expected = match start {
                Start::Behind(last) if total == 0 || last != empty => Answer::MISSING,
                _ => Answer::page(written, written < ahead),
            };
            if answer != expected {
                return Err(format!("room for {room} bytes: {answer:?}"));
            }
            if answers[..written * size] != empty[..written * size] {
                return Err("another answer".to_string());
            }
            pages += 1;
        }
    }
    Ok(pages)
}

/// The refusals that are left, each alone, and with all that come later in the table.
fn refusals() -> Result<usize, String> {
    let mut calls = 0;
    for (number, spoil) in SPOILS {
        for engine in ENGINES {
            // 13 is of KnuthAlgorithm alone.
            if number == 13 && engine == Engine::Fast {
                continue;
            }
            for (turned, mirrored) in IDENTIFIED {
                for alone in [true, false] {
                    let mut lent = bare([3, 8, 8], [vec![1; 128], vec![0; 64]].concat());
                    (lent.engine, lent.turned, lent.mirrored) = (engine, turned, mirrored);
                    let mut asked = Asked { lent, words: WORDS, numbers: NUMBERS };
                    for (later, spoil) in SPOILS.iter().rev() {
                        if *later > number && !alone {
                            spoil(&mut asked);
                        }
                    }
                    spoil(&mut asked);
                    for start in [Start::Skip(0), Start::Behind(&[255; 384])] {
                        let (_, answer) = ask(&asked.lent, start, 1_000, asked.words, asked.numbers)?;
                        if answer != Answer::refused(number) {
                            return Err(format!("{number} expected, {engine:?} {turned} {mirrored}, alone {alone}: {answer:?}"));
                        }
                        calls += 1;
                    }
                }
            }
        }
    }
    Ok(calls)
}

struct Asked {
    lent: Lent,
    words: usize,
    numbers: usize,
}

const SPOILS: [(u32, fn(&mut Asked)); 8] = [
    (3, |asked| asked.lent.board.c = 9),
    (4, |asked| asked.lent.board.start = 1),
    (5, |asked| asked.lent.bytes[191] = 2),
    (9, |asked| asked.lent.bytes[190] = 1),
    (10, |asked| (asked.lent.turned, asked.lent.mirrored) = (false, true)),
    (11, |asked| asked.lent.engine = Engine::Naive),
    (12, |asked| asked.words = WORDS - 1),
    (13, |asked| asked.numbers = NUMBERS - 1),
];
