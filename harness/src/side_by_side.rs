//! The original's `solve` and the page call on one tray, each giving its whole list; and the rows of a table that say what they took.

use oracle::layers;
use oracle::listing;
use oracle::tray::{self, Config, Engine, Tray};

use crate::clock::timed;
use crate::{box_cells, Answer, Lent, Start};

/// A tray as the page call gets it, as the original gets it (without empty outer layers), and the slices that are lent.
pub struct Pair {
    pub packings: usize,
    lent: Lent,
    stripped: Tray,
    answers: Vec<u8>,
    work: Vec<u64>,
    links: Vec<u16>,
}

pub const HEADER: &str =
    "| Tray | Engine | Identified | Packings | Original | Page call | Ratio | Empty page |\n|---|---|---|---|---|---|---|---|";

/// The shortest CPU time of each, in milliseconds; and of a page call without room for an answer, which prepares and goes as far
/// as the first packing.
#[derive(Clone, Copy)]
pub struct Times {
    pub original: f64,
    pub page: f64,
    pub empty: f64,
}

impl Times {
    pub fn ratio(self) -> f64 {
        self.page / self.original
    }
}

impl Pair {
    /// The pair, once the page call's list is what is expected, byte for byte; or what it is instead.
    pub fn new(tray: &Tray, expected: &str) -> Result<Pair, String> {
        let lent = Lent::new(tray);
        let packings = expected.lines().count() - 1;
        let mut answers = vec![0; packings * lent.size()];
        let (mut work, mut links) = (vec![0; 8_192], vec![0; 32_768]);
        let found = lent.page(Start::Skip(0), &mut answers, &mut work, &mut links);
        if found != Answer::page(packings, false) {
            return Err(format!("{packings} packings expected, {found:?} found"));
        }
        let mut lines = String::new();
        for (entry, bytes) in answers.chunks(lent.size().max(1)).enumerate() {
            lines += &format!("{entry}\t{}\n", box_cells(bytes));
        }
        if lines + &format!("packings\t{packings}\n") != expected {
            return Err("the lists differ".to_string());
        }
        let (stripped, _) = layers::strip_tray(tray);
        Ok(Pair { packings, lent, stripped, answers, work, links })
    }

    /// All in turn, so many times.
    pub fn best_of(&mut self, runs: usize) -> Times {
        let mut best = Times { original: f64::MAX, page: f64::MAX, empty: f64::MAX };
        for _ in 0..runs {
            best.original = best.original.min(timed(|| listing::count_of_original(&self.stripped)));
            best.page = best.page.min(timed(|| self.lent.page(Start::Skip(0), &mut self.answers, &mut self.work, &mut self.links)));
            best.empty = best.empty.min(timed(|| self.lent.page(Start::Skip(0), &mut [], &mut self.work, &mut self.links)));
        }
        best
    }

    /// A row of the table that `HEADER` begins.
    pub fn row(&self, name: &str, (engine, identified): (&str, &str), times: Times) -> String {
        let [original, page, empty] = [times.original, times.page, times.empty].map(shown_ms);
        let (packings, ratio) = (shown(self.packings), times.ratio());
        format!("| {name} | {engine} | {identified} | {packings} | {original} | {page} | {ratio:.2} | {empty} |")
    }
}

pub const ENGINES: [(&str, Engine); 2] = [("fast", Engine::Fast), ("knuth", Engine::Knuth)];
pub const IDENTIFIED: [(&str, bool, bool); 3] = [("none", false, false), ("turned", true, false), ("mirrored", true, true)];

/// What a command line asks for: a number is how many runs (9 where none is given), names of engines and of identifications
/// leave the others out, and all else are trays, by their paths.
pub struct Wanted {
    pub runs: usize,
    pub words: Vec<String>,
    pub trays: Vec<String>,
}

impl Wanted {
    pub fn from_arguments() -> Wanted {
        let mut wanted = Wanted { runs: 9, words: vec![], trays: vec![] };
        for argument in std::env::args().skip(1) {
            let is_word = ENGINES.iter().any(|(name, ..)| *name == argument) || IDENTIFIED.iter().any(|(name, ..)| *name == argument);
            match argument.parse() {
                Ok(runs) => wanted.runs = runs,
                Err(_) if is_word => wanted.words.push(argument),
                Err(_) => wanted.trays.push(argument),
            }
        }
        wanted
    }

    /// The configurations, each with its words.
    pub fn configs(&self) -> Vec<((&'static str, &'static str), Config)> {
        let engines = ENGINES.iter().filter(|(name, ..)| self.is_wanted(name, ENGINES.iter().map(|engine| engine.0)));
        let mut configs = vec![];
        for &(engine_name, engine) in engines {
            for &(name, turned, mirrored) in &IDENTIFIED {
                if self.is_wanted(name, IDENTIFIED.iter().map(|identified| identified.0)) {
                    configs.push(((engine_name, name), Config { engine, turned, mirrored }));
                }
            }
        }
        configs
    }

    /// A name is wanted where it is given, or none of its like is.
    fn is_wanted(&self, name: &str, mut alike: impl Iterator<Item = &'static str>) -> bool {
        self.words.iter().any(|word| word == name) || !alike.any(|other| self.words.iter().any(|word| word == other))
    }
}

/// The tray of a file, and its name without folder and ending.
pub fn read_tray(path: &str) -> (Tray, &str) {
    let file = std::fs::read(path).unwrap_or_else(|error| panic!("{path}: {error}"));
    let tray = tray::parse(&file, tray::config_of_file).unwrap_or_else(|| panic!("{path}: malformed"));
    let name = path.rsplit('/').next().unwrap();
    (tray, name.strip_suffix(".tray").unwrap_or(name))
}

/// Milliseconds with as many places as tell something.
pub fn shown_ms(ms: f64) -> String {
    match ms {
        _ if ms < 1.0 => format!("{ms:.3}"),
        _ if ms < 100.0 => format!("{ms:.2}"),
        _ => format!("{ms:.0}"),
    }
}

/// A number with its thousands parted.
pub fn shown(number: usize) -> String {
    if number < 1_000 {
        return number.to_string();
    }
    format!("{},{:03}", shown(number / 1_000), number % 1_000)
}
