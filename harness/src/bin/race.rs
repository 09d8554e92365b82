//! `race [RUNS] [fast|knuth] [none|turned|mirrored] TRAY ...`: the original's `solve` and the page call, the whole list of each
//! tray, side by side, as rows of a table: CPU time of the thread in milliseconds, the best of so many runs (9). First the lists
//! are compared, byte for byte; then each runs in turn, and a page call without room for an answer. A tray without a piece is
//! passed over, and one of several woods: the original has no list for it. Of a tray with empty outer layers the original gets the
//! grids without them, stripped before its time is taken; the page call gets them as lent.

use harness::side_by_side::{read_tray, Pair, Wanted, HEADER};
use oracle::listing;
use oracle::refusals::refusal_of_tray;

fn main() {
    listing::silence_panics();
    let wanted = Wanted::from_arguments();
    println!("{HEADER}");
    for path in &wanted.trays {
        let (mut tray, name) = read_tray(path);
        if tray.pieces.is_empty() || tray.is_mixed() {
            println!("| {name} | no piece or several woods: the original has no list | | | | | | |");
            continue;
        }
        for (words, config) in wanted.configs() {
            tray.config = config;
            if let Some(number) = refusal_of_tray(&tray) {
                println!("| {name} | {} | {} | refused {number} | | | | |", words.0, words.1);
                continue;
            }
            let mut pair = Pair::new(&tray, &listing::of_original(&tray)).unwrap_or_else(|what| {
                eprintln!("{name} {words:?}: {what}");
                std::process::exit(1)
            });
            let times = pair.best_of(wanted.runs);
            println!("{}", pair.row(name, words, times));
        }
    }
}
