//! Pages of the catalogue through the entry point, held to the lists for 1 to 6 cells that stand on the standard input, as `catalogue` prints them: those of
//! oracle/grow.py. Each number of cells from 0 to 8 at each skip up to behind the end, then random calls: any number of 32 bits, skips up to the largest,
//! rooms that hold no whole number of entries. The slice lies among other bytes, all of them random, and every one is looked at afterwards. Last, what whole
//! lists take. Status 1 on a difference.
//!
//!     ../oracle/grow.py 1 2 3 4 5 6 | target/release/catalogue SEED COUNT

use std::io;
use std::process::ExitCode;

use ferghuul::call::{self, Answer, ENTRY};
use harness::clock::timed;
use harness::side_by_side::{shown, shown_ms};
use oracle::random::Random;

type Entry = [u8; ENTRY];

const REFUSED: u32 = 21;
const RUNS: usize = 9;

/// The lists for 1 to 6 cells; how many pages were asked for, how many of these were refused, and how many entries were written.
struct Held {
    lists: Vec<Vec<Entry>>,
    random: Random,
    pages: usize,
    refused: usize,
    written: usize,
}

fn main() -> ExitCode {
    let lists = read_lists(&io::read_to_string(io::stdin()).unwrap());
    let [seed, count] = [1, 2].map(|at| std::env::args().nth(at).unwrap().parse().unwrap());
    let mut held = Held { lists, random: Random::new(seed, 0), pages: 0, refused: 0, written: 0 };
    if let Err(what) = held.at_each_skip().and_then(|()| held.at_random(count)) {
        println!("differs: {what}");
        return ExitCode::FAILURE;
    }
    let [pages, refused, written] = [held.pages, held.refused, held.written].map(shown);
    println!("{pages} pages of the catalogue, {refused} of these refused, {written} entries written, 0 differences\n");
    println!("| Cells | Pieces | Whole list | No room |\n|---|---|---|---|");
    for (n, list) in (1..).zip(&held.lists) {
        let mut entries = vec![0; list.len() * ENTRY];
        let (whole, none) = (best_of(|| call::catalogue(n, 0, &mut entries)), best_of(|| call::catalogue(n, 0, &mut [])));
        println!("| {n} | {} | {} | {} |", list.len(), shown_ms(whole), shown_ms(none));
    }
    ExitCode::SUCCESS
}

/// The lists, each up to the line that tells how many pieces it has.
fn read_lists(text: &str) -> Vec<Vec<Entry>> {
    let mut lists = vec![vec![]];
    for line in text.lines() {
        let list = lists.last_mut().unwrap();
        match line.split('\t').collect::<Vec<_>>()[..] {
            ["piece", "1", a, b, c, cells] => list.push(entry([a, b, c], cells)),
            ["pieces", number] => {
                assert_eq!(list.len().to_string(), number);
                lists.push(vec![]);
            }
            _ => panic!("no line of a list: {line}"),
        }
    }
    assert_eq!(lists.pop(), Some(vec![]), "a list is not whole");
    assert_eq!(lists.len(), 6, "the lists of 1 to 6 cells are wanted");
    lists
}

fn entry(sides: [&str; 3], cells: &str) -> Entry {
    let mut entry = [0; ENTRY];
    for (byte, side) in entry.iter_mut().zip(sides) {
        *byte = side.parse().unwrap();
    }
    for (byte, cell) in entry[3..].iter_mut().zip(cells.bytes()) {
        *byte = cell - b'0';
    }
    entry
}

impl Held {
    /// From no room on to room for all, at each entry and behind the last.
    fn at_each_skip(&mut self) -> Result<(), String> {
        for n in 0..=8 {
            for skip in (0..=168).chain([1 << 32, u64::MAX - 1, u64::MAX]) {
                for room in [0, 20, 21, self.random.below(4_001), 3_486] {
                    self.hold(n, skip, room)?;
                }
            }
        }
        Ok(())
    }

    fn at_random(&mut self, count: u64) -> Result<(), String> {
        for _ in 0..count {
            let random = &mut self.random;
            let n = match random.below(8) {
                0 => random.below(1 << 32) as u32,
                1 => random.between(0, 7) + (1 << (8 * random.between(1, 3))),
                _ => random.between(0, 8),
            };
            let skip = match random.below(8) {
                0 => random.below(usize::MAX) as u64,
                1 => u64::MAX - random.below(3) as u64,
                2 | 3 => random.below(8) as u64,
                _ => random.below(200) as u64,
            };
            let room = if random.one_in(2) { random.below(4_001) } else { ENTRY * random.below(170) + random.below(3) };
            self.hold(n, skip, room)?;
        }
        Ok(())
    }

    /// One call: what is answered, and every byte of the slice, in front of it and behind it.
    fn hold(&mut self, n: u32, skip: u64, room: usize) -> Result<(), String> {
        let start = self.random.below(32);
        let mut bytes: Vec<u8> = (0..start + room + 32).map(|_| self.random.below(256) as u8).collect();
        let mut right = bytes.clone();
        let list = (n as usize).checked_sub(1).and_then(|at| self.lists.get(at));
        let expected = list.map_or(Answer::refused(REFUSED), |list| {
            let ahead = &list[list.len().min(skip.try_into().unwrap_or(usize::MAX))..];
            let written = ahead.len().min(room / ENTRY);
            right[start..][..written * ENTRY].copy_from_slice(&ahead[..written].concat());
            Answer::page(written, written < ahead.len())
        });
        let found = call::catalogue(n, skip, &mut bytes[start..start + room]);
        self.pages += 1;
        self.refused += usize::from(list.is_none());
        self.written += expected.written;
        if found == expected && bytes == right {
            return Ok(());
        }
        let which = if bytes == right { "the bytes are right" } else { "the bytes are others" };
        Err(format!("cells {n}, skip {skip}, {room} bytes: {found:?}, {expected:?} expected; {which}"))
    }
}

fn best_of(mut call: impl FnMut() -> Answer) -> f64 {
    (0..RUNS).map(|_| timed(&mut call)).fold(f64::MAX, f64::min)
}
