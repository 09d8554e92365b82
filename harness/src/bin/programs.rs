//! `programs [RUNS] [fast|knuth] [none|turned|mirrored] PACK ORACLE TRAY ...`: two programs that print a tray's listing, side by
//! side, as rows of a table: CPU time in milliseconds, user and system, from start to end, the best of so many runs (9), and peak
//! memory. First what they print is compared, byte for byte; in the runs that are timed it goes nowhere.

use std::io::{Read, Write};
use std::process::{Child, Command, Stdio};

use harness::clock::{run_program, Took};
use harness::side_by_side::{read_tray, shown, shown_ms, Wanted};
use oracle::tray;

fn main() {
    let wanted = Wanted::from_arguments();
    let [pack, oracle, trays @ ..] = &wanted.trays[..] else {
        eprintln!("programs [RUNS] [ENGINE] [IDENTIFIED] PACK ORACLE TRAY ...");
        std::process::exit(1)
    };
    println!("| Tray | Engine | Identified | Packings | Oracle | `pack` | Ratio | Memory of the oracle, of `pack` |");
    println!("|---|---|---|---|---|---|---|---|");
    for path in trays {
        let (given, name) = read_tray(path);
        for (words, _) in wanted.configs() {
            let file = tray::write(words, &given.board, &given.pieces);
            let Some(packings) = packings_of_both(pack, oracle, &file) else {
                eprintln!("{name} {words:?}: the programs print different listings");
                std::process::exit(1)
            };
            let (mut ours, mut theirs) = (run_program(pack, &file), run_program(oracle, &file));
            for _ in 1..wanted.runs {
                ours = better(ours, run_program(pack, &file));
                theirs = better(theirs, run_program(oracle, &file));
            }
            let (engine, identified) = words;
            println!(
                "| {name} | {engine} | {identified} | {packings} | {} | {} | {:.2} | {:.1} MB, {:.1} MB |",
                shown_ms(theirs.ms),
                shown_ms(ours.ms),
                ours.ms / theirs.ms,
                theirs.megabytes,
                ours.megabytes
            );
        }
    }
}

/// The shortest time and the largest memory.
fn better(one: Took, other: Took) -> Took {
    Took { ms: one.ms.min(other.ms), megabytes: one.megabytes.max(other.megabytes) }
}

/// How many packings both print, or None where what they print differs.
fn packings_of_both(pack: &str, oracle: &str, file: &[u8]) -> Option<String> {
    let (mut ours, mut theirs) = (start(pack, file), start(oracle, file));
    let mut end = vec![];
    let is_same = loop {
        let (our_part, their_part) = (next_part(&mut ours), next_part(&mut theirs));
        if our_part != their_part {
            break false;
        }
        if our_part.is_empty() {
            break true;
        }
        end.extend(our_part);
        end.drain(..end.len().saturating_sub(32));
    };
    for mut child in [ours, theirs] {
        drop(child.stdout.take());
        child.wait().unwrap();
    }
    let last = String::from_utf8(end).unwrap();
    let (_, number) = last.trim_end().rsplit_once('\t')?;
    is_same.then(|| shown(number.parse().unwrap()))
}

fn start(program: &str, file: &[u8]) -> Child {
    let mut child = Command::new(program).stdin(Stdio::piped()).stdout(Stdio::piped()).spawn().unwrap();
    child.stdin.take().unwrap().write_all(file).unwrap();
    child
}

fn next_part(child: &mut Child) -> Vec<u8> {
    let mut part = vec![];
    child.stdout.as_mut().unwrap().take(65_536).read_to_end(&mut part).unwrap();
    part
}
