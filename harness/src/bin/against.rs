//! Reads the oracle's stream of cases (oracle/README.md) and holds the page call to
//! it: each listing put together from pages of a random size, byte for byte, by skips and
//! from behind each page's last entry; pages at random skips, and behind some entry; what a
//! call must not touch. Behind what is no entry (damaged bytes, another length, an entry of
//! another identification that is not in the list) the answer must say so, and nowhere else.
//! Trays without a piece, and those of several woods, are held to the stream's listing like
//! all others: it is the model's there. So are those with empty outer layers, by the box that
//! was lent: what fits is counted by its size, and an entry with a byte changed round the
//! stripped board is no entry. The board's record has a wood of its own, which is not to be
//! read. The call for DLX1's text is held to that of the oracle, of each tray as it is and,
//! where it is refused since a kind has several copies, of the tray with one copy of each.
//! Status 1 on a difference.

use std::io::{self, Read};
use std::process::ExitCode;

use harness::cases::Cases;
use harness::{box_cells, Answer, Lent, Start, TextAnswer, STAIN};
use oracle::layers;
use oracle::listing::refused;
use oracle::random::Random;
use oracle::texts;
use oracle::tray::{self, Engine, Tray};

const WORDS: usize = 8_200;
const NUMBERS: usize = 32_776;
const IDENTIFIED: [(bool, bool); 3] = [(false, false), (true, false), (true, true)];

/// How many pages were asked for; of these how many behind what is no entry, and how many of these
/// behind an entry of another identification. How many texts were asked for and written, of how
/// many trays and how many bytes, and how often there was too little room or work.
#[derive(Default)]
struct Asked {
    pages: usize,
    missing: usize,
    strange: usize,
    texts: usize,
    written: usize,
    with_text: usize,
    bytes: usize,
    too_short: usize,
}

fn main() -> io::Result<ExitCode> {
    let mut stream = vec![];
    io::stdin().read_to_end(&mut stream)?;
    let (mut held, mut asked, mut differences) = ([0; 2], Asked::default(), 0);
    let (mut bare, mut mixed, mut boxed) = (0, 0, 0);
    for case in (Cases { rest: &stream }) {
        let Some(tray) = tray::parse(case.file, tray::config_of_file) else {
            continue;
        };
        held[usize::from(tray.config.engine == Engine::Knuth)] += 1;
        bare += usize::from(tray.pieces.is_empty());
        mixed += usize::from(tray.is_mixed());
        boxed += usize::from(layers::has_layers(&tray));
        let mut random = Random::new(held[0], held[1]);
        let mut lent = Lent::new(&tray);
        lent.board.wood = random.between(1, 255) as u8;
        let by_page = hold(&mut lent, case.expected, &mut random, &mut asked);
        let by_text = hold_texts(&tray, &mut random, &mut asked);
        for what in [by_page, by_text].into_iter().filter_map(Result::err) {
            differences += 1;
            println!("{}: {what}", case.name);
        }
    }
    let [fast, knuth] = held;
    let Asked { pages, missing, strange, texts, written, with_text, bytes, too_short } = asked;
    println!(
        "{texts} calls for a text: {with_text} trays have one ({bytes} bytes); it was written {written} times, and {too_short} times there \
         was too little room or work"
    );
    println!(
        "{fast} trays of fast and {knuth} of knuth, {bare} of these without a piece, {mixed} of several woods and {boxed} with empty \
         outer layers, {pages} pages, {missing} of these behind what is no entry ({strange} behind one of another identification), \
         {differences} differences"
    );
    Ok(if differences == 0 {
        ExitCode::SUCCESS
    } else {
        ExitCode::FAILURE
    })
}

fn hold(lent: &mut Lent, expected: &str, random: &mut Random, asked: &mut Asked) -> Result<(), String> {
    let mut entries = vec![];
    for by_skip in [true, false] {
        match list(lent, by_skip, random, asked)? {
            Ok(found) => entries = found,
            Err(number) => return same(&refused(number), expected),
        }
        let lines = entries.iter().enumerate().map(|(entry, bytes)| line(entry, bytes));
        same(&(lines.collect::<String>() + &format!("packings\t{}\n", entries.len())), expected)?;
    }
    at_the_ends(lent, &entries, random, asked)?;
    behind(lent, &entries, random, asked)?;
    behind_others(lent, &entries, random, asked)
}

/// The text of the tray as it is; and with one copy of each kind, where a kind has more.
fn hold_texts(tray: &Tray, random: &mut Random, asked: &mut Asked) -> Result<(), String> {
    let expected = texts::of_tray(tray);
    hold_text(tray, &expected, random, asked)?;
    if expected == Err(texts::NO_TEXT) {
        let thinned = texts::thinned(tray);
        hold_text(&thinned, &texts::of_tray(&thinned), random, asked)?;
    }
    Ok(())
}

/// With just the room that the text needs, with more, and with less, down to none; with too few work words, which comes
/// behind 2 to 9. A refusal is the same whatever the room.
fn hold_text(tray: &Tray, expected: &Result<String, u8>, random: &mut Random, asked: &mut Asked) -> Result<(), String> {
    let mut lent = Lent::new(tray);
    lent.board.wood = random.between(1, 255) as u8;
    let text = expected.as_deref().unwrap_or("");
    let size = text.len();
    let more = size + 1 + random.below(2_000);
    let number = expected.as_ref().map_or_else(|&number| number, |_| 0);
    for (room, words) in [(size, 8_192), (more, 8_193 + random.below(20))] {
        is_text(&lent, room, words, number, text, asked)?;
    }
    if number == 0 {
        asked.with_text += 1;
        asked.bytes += size;
        for room in [size - 1, random.below(size), 0] {
            is_text(&lent, room, 8_192, texts::OUTPUT_TOO_SHORT, "", asked)?;
        }
    }
    let number = if (2..=9).contains(&number) { number } else { 12 };
    for (room, words) in [(0, 8_191), (more, random.below(8_192))] {
        is_text(&lent, room, words, number, "", asked)?;
    }
    Ok(())
}

/// The call writes this text, or is refused with this number.
fn is_text(lent: &Lent, room: usize, words: usize, number: u8, text: &str, asked: &mut Asked) -> Result<(), String> {
    let (output, found) = harness::ask_text(lent, room, words)?;
    asked.texts += 1;
    asked.written += usize::from(number == 0);
    asked.too_short += usize::from(number == 12 || number == texts::OUTPUT_TOO_SHORT);
    let written = text.len();
    if found != (TextAnswer { number: u32::from(number), written }) || output[..written] != *text.as_bytes() {
        return Err(format!("text with room for {room} and {words} words, {number} and {written} bytes expected: {found:?}"));
    }
    Ok(())
}

/// The entries of the list, page by page, by skips or from behind the last entry so far; or the refusal.
fn list(lent: &Lent, by_skip: bool, random: &mut Random, asked: &mut Asked) -> Result<Result<Vec<Vec<u8>>, u8>, String> {
    let room = 1 + random.below(40);
    let size = lent.size();
    let mut entries: Vec<Vec<u8>> = vec![];
    loop {
        let start = match entries.last() {
            Some(last) if !by_skip => Start::Behind(last),
            _ => Start::Skip(entries.len() as u64),
        };
        let (answers, answer) = ask(lent, start, room, random.below(size.max(1)), asked)?;
        if answer.number != 0 {
            return if answer == Answer::refused(answer.number) {
                Ok(Err(answer.number as u8))
            } else {
                Err(format!("a refusal: {answer:?}"))
            };
        }
        if answer.missing || (answer.further && answer.written != room) {
            return Err(format!("with {} entries so far and room for {room}: {answer:?}", entries.len()));
        }
        entries.extend(answers[..answer.written * size].chunks(size).map(<[u8]>::to_vec));
        if !answer.further {
            return Ok(Ok(entries));
        }
    }
}

/// Room for none, from the end on, at the largest skip; and somewhere.
fn at_the_ends(lent: &Lent, entries: &[Vec<u8>], random: &mut Random, asked: &mut Asked) -> Result<(), String> {
    let total = entries.len();
    for (skip, room) in [(0, 0), (total as u64, 1), (u64::MAX, 1), (random.below(total + 1) as u64, 2)] {
        let from = total.min(skip.try_into().unwrap_or(usize::MAX));
        stretch(lent, Start::Skip(skip), &entries[from..], room, asked)?;
    }
    Ok(())
}

/// Behind the last entry, and some other; and behind what is none: an entry with a byte changed, if only where the board is
/// unfilled or in its empty outer layers, cut short or too long, and what was never one.
fn behind(lent: &Lent, entries: &[Vec<u8>], random: &mut Random, asked: &mut Asked) -> Result<(), String> {
    let total = entries.len();
    let mut none = vec![vec![], vec![STAIN; 2_000], vec![255; lent.size() + 2]];
    if total > 0 {
        for entry in [total - 1, random.below(total)] {
            stretch(lent, Start::Behind(&entries[entry]), &entries[entry + 1..], random.below(4), asked)?;
        }
        let one = random.pick(entries).clone();
        let byte = random.below(one.len());
        let mut damaged = one.clone();
        damaged[byte] = 200;
        none.push(damaged);
        let unfilled: Vec<usize> = (0..one.len()).filter(|&byte| one[byte] == 255).collect();
        if !unfilled.is_empty() {
            let mut spoilt = one.clone();
            spoilt[*random.pick(&unfilled)] = 0;
            none.push(spoilt);
        }
        none.extend([one[..one.len() / 2].to_vec(), one[1..].to_vec(), [&one[..], &[0]].concat()]);
    }
    for last in none {
        is_missing(lent, &last, random, asked)?;
    }
    Ok(())
}

/// Behind entries that the tray has under another identification: the stretch behind them where they are in the list too.
fn behind_others(lent: &mut Lent, entries: &[Vec<u8>], random: &mut Random, asked: &mut Asked) -> Result<(), String> {
    let own = (lent.turned, lent.mirrored);
    let others: Vec<_> = IDENTIFIED.into_iter().filter(|&other| other != own).collect();
    let size = lent.size();
    let skip = random.below(2 * entries.len() + 1) as u64;
    (lent.turned, lent.mirrored) = *random.pick(&others);
    let (answers, answer) = ask(lent, Start::Skip(skip), 6, 0, asked)?;
    (lent.turned, lent.mirrored) = own;
    for other in answers[..answer.written * size].chunks(size) {
        match entries.iter().position(|entry| entry == other) {
            Some(entry) => stretch(lent, Start::Behind(other), &entries[entry + 1..], 2, asked)?,
            None => {
                is_missing(lent, other, random, asked)?;
                asked.strange += 1;
            }
        }
    }
    Ok(())
}

/// From a start on these entries are in the list: as many as there is room for, and whether a further one follows.
fn stretch(lent: &Lent, start: Start, ahead: &[Vec<u8>], room: usize, asked: &mut Asked) -> Result<(), String> {
    let (answers, answer) = ask(lent, start, room, 0, asked)?;
    let written = room.min(ahead.len());
    let is_page = answer == Answer::page(written, written < ahead.len());
    if !is_page || answers[..written * lent.size()] != ahead[..written].concat() {
        return Err(format!("{start:?}, room for {room}, {} ahead: {answer:?}", ahead.len()));
    }
    Ok(())
}

/// No entry of the list has these bytes.
fn is_missing(lent: &Lent, last: &[u8], random: &mut Random, asked: &mut Asked) -> Result<(), String> {
    let (_, answer) = ask(lent, Start::Behind(last), random.below(3), 0, asked)?;
    asked.missing += 1;
    if answer != Answer::MISSING {
        return Err(format!("behind {last:?}, which is no entry: {answer:?}"));
    }
    Ok(())
}

/// One page from slices that are longer than needed, the answers by `extra` bytes.
fn ask(lent: &Lent, start: Start, room: usize, extra: usize, asked: &mut Asked) -> Result<(Vec<u8>, Answer), String> {
    asked.pages += 1;
    harness::ask(lent, start, room * lent.size() + extra, WORDS, NUMBERS)
}

fn line(entry: usize, bytes: &[u8]) -> String {
    format!("{entry}\t{}\n", box_cells(bytes))
}

fn same(found: &str, expected: &str) -> Result<(), String> {
    if found == expected {
        Ok(())
    } else {
        Err("another listing".to_string())
    }
}
