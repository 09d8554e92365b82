//! `stream [RUNS] [fast|knuth] [none|turned|mirrored] [each] < CASES`: the original and the page call on every tray of the oracle's
//! stream that the original has a list for, as `race` has them, in one table: the sums of the times, how often the page call is
//! slower, and the worst trays by their names. `each` gives every tray a row before that.

use std::io::{self, Read};

use harness::cases::Cases;
use harness::side_by_side::{shown, shown_ms, Pair, Times, Wanted, HEADER};
use oracle::listing;
use oracle::tray;

/// Where the original takes less milliseconds, a ratio tells little.
const LEAST: f64 = 0.02;

struct Raced<'a> {
    name: &'a str,
    engine: &'static str,
    packings: usize,
    times: Times,
}

fn main() -> io::Result<()> {
    listing::silence_panics();
    let wanted = Wanted::from_arguments();
    let mut stream = vec![];
    io::stdin().read_to_end(&mut stream)?;
    let (mut raced, mut rows) = (vec![], format!("{HEADER}\n"));
    for case in (Cases { rest: &stream }).filter(|case| case.kind == "rust") {
        let tray = tray::parse(case.file, tray::config_of_file).unwrap();
        let Some((words, _)) = wanted.configs().into_iter().find(|(_, config)| *config == tray.config) else {
            continue;
        };
        let mut pair = Pair::new(&tray, case.expected).unwrap_or_else(|what| {
            eprintln!("{}: {what}", case.name);
            std::process::exit(1)
        });
        let times = pair.best_of(wanted.runs);
        rows += &(pair.row(case.name, words, times) + "\n");
        raced.push(Raced { name: case.name, engine: words.0, packings: pair.packings, times });
    }
    if wanted.trays == ["each"] {
        println!("{rows}");
    }
    println!(
        "| Trays | Engine | Identified | Packings | Original | Page call | Ratio | Slower on | Worst ratio | Worst where the original \
         takes above 20 microseconds |\n|---|---|---|---|---|---|---|---|---|---|"
    );
    for engine in ["fast", "knuth", "both"] {
        summary(engine, raced.iter().filter(|raced| engine == "both" || raced.engine == engine).collect());
    }
    Ok(())
}

fn summary(engine: &str, raced: Vec<&Raced>) {
    let packings: usize = raced.iter().map(|raced| raced.packings).sum();
    let original: f64 = raced.iter().map(|raced| raced.times.original).sum();
    let page: f64 = raced.iter().map(|raced| raced.times.page).sum();
    println!(
        "| {} at random | {engine} | each | {} | {} | {} | {:.2} | {} | {} | {} |",
        raced.len(),
        shown(packings),
        shown_ms(original),
        shown_ms(page),
        page / original,
        raced.iter().filter(|raced| raced.times.ratio() > 1.0).count(),
        worst(&raced, 0.0),
        worst(&raced, LEAST)
    );
}

/// The tray with the worst ratio among those on which the original takes so long.
fn worst(raced: &[&Raced], least: f64) -> String {
    let long = raced.iter().filter(|raced| raced.times.original > least);
    long.max_by(|one, other| one.times.ratio().total_cmp(&other.times.ratio())).map_or("none".to_string(), |raced| {
        let (original, page) = (shown_ms(raced.times.original), shown_ms(raced.times.page));
        format!("{:.2} ({}: {original}, {page})", raced.times.ratio(), raced.name)
    })
}
