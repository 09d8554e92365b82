//! `trays SEED COUNT` writes that many random trays with what `pack` is to print
//! for each, as a stream of cases (its form: README.md). `trays SEED COUNT NAME`
//! keeps to one corner; `trays corners` lists them, one name a line.

use std::io::{self, BufRead, BufReader, BufWriter, Read, Write};
use std::process::{Child, Command, ExitCode, Stdio};

use oracle::corners::{corners, round, Corner};
use oracle::listing;
use oracle::placements::{kinds, Kind};
use oracle::random::Random;
use oracle::tray::{self, Engine, Tray};

fn main() -> io::Result<ExitCode> {
    listing::silence_panics();
    let arguments: Vec<String> = std::env::args().skip(1).collect();
    let number = |index: usize| arguments.get(index).and_then(|text| text.parse::<u64>().ok());
    let mut round = round();
    if let Some(name) = arguments.get(2) {
        round.retain(|corner| corner.name == *name);
    }
    match (number(0), number(1)) {
        (Some(seed), Some(count)) if !round.is_empty() => write_cases(seed, count, &round)?,
        _ if arguments == ["corners"] => {
            corners().iter().for_each(|corner| println!("{}", corner.name))
        }
        _ => {
            eprintln!("trays SEED COUNT [NAME OF A CORNER], or trays corners");
            return Ok(ExitCode::FAILURE);
        }
    }
    Ok(ExitCode::SUCCESS)
}

/// Case by case through the round, then again; each time a place of the round
/// gets another of its configurations; after six times it has had every one.
fn write_cases(seed: u64, count: u64, round: &[Corner]) -> io::Result<()> {
    let mut model = Model::start()?;
    let mut out = BufWriter::new(io::stdout().lock());
    for case in 0..count {
        let place = case as usize % round.len();
        let times = case as usize / round.len();
        let corner = &round[place];
        let config = corner.configs[(place + times) % corner.configs.len()];

        let file = corner.file(&mut Random::new(seed, case), config);
        let (expected, kind) = expect(&file, &mut model)?;
        let (name, long, longer) = (&corner.name, file.len(), expected.len());
        write!(out, "case\t{name}-{case}\t{long}\t{longer}\t{kind}\n")?;
        out.write_all(&file)?;
        out.write_all(expected.as_bytes())?;
    }
    out.flush()?;
    model.stop()
}

/// What `pack` is to print for the file, and where that comes from.
fn expect(file: &[u8], model: &mut Model) -> io::Result<(String, &'static str)> {
    let printed = listing::of_file(file);
    if printed.starts_with("refused") {
        return Ok((printed, "refusal"));
    }
    let tray = tray::parse(file, tray::config_of_file).unwrap();
    if tray.pieces.is_empty() {
        // The original is not asked; the list of listing.rs is to be the model's.
        let right = model.listing(file)?;
        if right != printed {
            return Err(io::Error::other("two lists for a tray without pieces"));
        }
        return Ok((right, "model"));
    }
    if printed == listing::MIXED {
        return Ok((model.listing(file)?, "model"));
    }
    if printed == listing::PANIC || original_may_differ(&tray) {
        let right = model.listing(file)?;
        if right != printed {
            return Ok((right, "model"));
        }
    }
    Ok((printed, "rust"))
}

/// Rows of kinds without copies count in the original's Knuth search.
fn original_may_differ(tray: &Tray) -> bool {
    let has_rows_only = |kind: &Kind| kind.copies == 0 && !kind.rows.is_empty();
    tray.config.engine == Engine::Knuth
        && kinds(&tray.board, &tray.pieces).iter().any(has_rows_only)
}

/// The model, running as a process of its own that is asked tray by tray.
struct Model {
    process: Child,
    answers: BufReader<std::process::ChildStdout>,
}

impl Model {
    fn start() -> io::Result<Model> {
        let mut process = Command::new("python3")
            .arg(concat!(env!("CARGO_MANIFEST_DIR"), "/model.py"))
            .arg("serve")
            .stdin(Stdio::piped())
            .stdout(Stdio::piped())
            .spawn()?;
        let answers = BufReader::new(process.stdout.take().unwrap());
        Ok(Model { process, answers })
    }

    fn listing(&mut self, file: &[u8]) -> io::Result<String> {
        let questions = self.process.stdin.as_mut().unwrap();
        write!(questions, "{}\n", file.len())?;
        questions.write_all(file)?;
        questions.flush()?;

        let mut length = String::new();
        self.answers.read_line(&mut length)?;
        let length = length.trim().parse().map_err(io::Error::other)?;
        let mut text = vec![0; length];
        self.answers.read_exact(&mut text)?;
        String::from_utf8(text).map_err(io::Error::other)
    }

    fn stop(mut self) -> io::Result<()> {
        drop(self.process.stdin.take());
        self.process.wait().map(|_| ())
    }
}
