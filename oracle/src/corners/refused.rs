//! Corners of refused trays, also with the faults of two refusals at once, and
//! well-formed files of unusual form.

use super::accepted::{plain, random_piece, rotated, with_copies, with_filled};
use super::Parts;
use crate::grids::{self, full};
use crate::limits;
use crate::malformed;
use crate::placements;
use crate::random::Random;
use crate::refusals::MOST_LINKS;
use crate::tray::{Grid, Piece, LONGEST_FILE};

pub const REFUSED: &[(&str, u8, fn(&mut Random) -> Option<Parts>)] = &[
    ("refused_2_pieces_17", 2, |random| {
        let (board, mut pieces) = plain(random)?;
        let piece = random.pick(&pieces).clone();
        pieces.resize(17, piece);
        Some((board, pieces))
    }),
    ("refused_3_board_side_9", 3, |random| {
        let (_, pieces) = plain(random)?;
        Some((full(rotated(random, [1, 1, 9])), pieces))
    }),
    ("refused_3_piece_side_9", 3, |random| {
        let (board, mut pieces) = plain(random)?;
        pieces.push(Piece::new(1, full(rotated(random, [1, 1, 9]))));
        Some((board, pieces))
    }),
    ("refused_3_board_side_0", 3, |random| {
        let (_, pieces) = plain(random)?;
        Some((full(rotated(random, [2, 3, 0])), pieces))
    }),
    ("refused_3_piece_side_0", 3, |random| {
        let (board, mut pieces) = plain(random)?;
        let piece = Piece::new(random.between(0, 1), full(rotated(random, [2, 3, 0])));
        pieces.insert(random.below(pieces.len() + 1), piece);
        Some((board, pieces))
    }),
    ("refused_3", 3, |random| with_faults(random, [3, 3])),
    ("refused_3_side_257", 3, |random| {
        let (board, mut pieces) = plain(random)?;
        pieces.push(Piece::new(1, full(rotated(random, [1, 1, 257]))));
        Some((board, pieces))
    }),
    ("refused_6", 6, |random| with_faults(random, [6, 6])),
    ("refused_8_copies_129", 8, |random| with_copies(random, 129)),
    ("refused_8_past_32_bits", 8, |random| {
        let (board, mut pieces) = plain(random)?;
        // The sum is 2^32 and a little more, and would wrap to an accepted one.
        for count in [999_999_999, 999_999_999, 999_999_999, 999_999_999, 294_967_300] {
            pieces.push(Piece::new(count, random_piece(random)));
        }
        Some((board, pieces))
    }),
    ("refused_9_filled_129", 9, |random| with_filled(random, 129)),
    ("refused_9", 9, |random| with_faults(random, [9, 9])),
    ("refused_14_placements_1025", 14, |random| limits::with_placements(random, 1_025)),
    ("refused_14", 14, |random| with_faults(random, [14, 14])),
    ("refused_14_and_15", 14, |random| {
        let (board, mut pieces) = with_faults(random, [14, 14])?;
        pieces.iter_mut().for_each(|piece| piece.count = 1);
        let links = placements::links(board.cells.len(), &placements::kinds(&board, &pieces));
        (links > MOST_LINKS).then_some((board, pieces))
    }),
    ("refused_15_links_4097", 15, |random| limits::with_links(random, 4_097)),
];

/// The refusals that a fault of a board or of a piece leads to.
pub const FAULTS: &[u8] = &[2, 3, 6, 8, 9, 14];

/// A plain tray with both faults built in, the later number first: the faults
/// of the board set it anew, and a board at fault by 9 or 3 is to stay so.
pub fn with_faults(random: &mut Random, faults: [u8; 2]) -> Option<Parts> {
    let (mut board, mut pieces) = plain(random)?;
    for fault in [faults[1], faults[0]] {
        add_fault(random, fault, &mut board, &mut pieces);
    }
    Some((board, pieces))
}

fn add_fault(random: &mut Random, fault: u8, board: &mut Grid, pieces: &mut Vec<Piece>) {
    match fault {
        2 => pieces.resize(17 + random.below(20), pieces[0].clone()),
        3 if random.one_in(3) => {
            // The box grows; the cells stay filled.
            let side = *random.pick(&[9, 10, 99]);
            *board = full([board.sides[0], board.sides[1], side]);
        }
        3 => {
            let side = *random.pick(&[0, 9, 11, 256]);
            let grid = full(rotated(random, [1, 1, side]));
            add_spoilt(random, pieces, grid);
        }
        6 => {
            let mut empty = random_piece(random);
            empty.cells.fill(0);
            add_spoilt(random, pieces, empty);
        }
        8 => pieces[0].count = *random.pick(&[129, 200, 65_536, 999_999_999]),
        9 => *board = full(*random.pick(&[[8, 8, 8], [8, 8, 3], [6, 6, 6], [5, 5, 6], [4, 5, 7]])),
        14 => {
            *board = full([4, 5, 5]);
            for size in 2..=8 {
                let grid = grids::piece_within(random, [2, 3, 3], size, true);
                pieces.push(Piece::new(u32::from(random.one_in(3)), grid));
            }
        }
        _ => unreachable!("no fault for {fault}"),
    }
}

fn add_spoilt(random: &mut Random, pieces: &mut Vec<Piece>, grid: Grid) {
    let piece = Piece::new(random.between(0, 2), grid);
    pieces.insert(random.below(pieces.len() + 1), piece);
}

/// Well-formed files; the refusal is None where the tray stays accepted.
pub const FILES: &[(&str, Option<u8>, fn(&mut Random, String) -> Vec<u8>)] = &[
    ("leading_zeros", None, |_, text| text.lines().map(with_zeros).collect::<String>().into()),
    ("empty_box_leading_zeros", None, |random, text| {
        let mut lines: Vec<String> = text.lines().take(2).map(with_zeros).collect();
        if random.one_in(2) {
            // The board's cells, behind the last tab, unfilled.
            let cells = lines[1].rfind('\t').unwrap();
            lines[1] = lines[1][..cells].to_string() + &lines[1][cells..].replace('1', "0");
        }
        lines.concat().into()
    }),
    ("file_of_16384_bytes", Some(2), |_, text| malformed::padded(text, LONGEST_FILE)),
    ("file_with_1000_pieces", Some(2), |_, text| {
        (text + &"piece\t1\t1\t1\t1\t1\n".repeat(1_000)).into()
    }),
    ("file_with_a_large_grid", Some(3), |random, text| {
        let side = random.between(100, 999);
        let cells = "1".repeat(side as usize * 12);
        format!("{text}piece\t1\t3\t4\t{side}\t{cells}\n").into()
    }),
    ("empty_box_side_0", Some(3), |random, text| {
        let config = text.lines().next().unwrap();
        let side = random.between(1, 9);
        format!("{config}\nboard\t{side}\t0\t000\t\n").into()
    }),
];

/// A line whose sides have three digits and whose count has nine; the last field is the cells.
fn with_zeros(line: &str) -> String {
    let mut fields: Vec<String> = line.split('\t').map(String::from).collect();
    let is_piece = fields[0] == "piece";
    let numbers = fields.len().saturating_sub(4)..fields.len() - 1;
    if fields[0] != "config" {
        fields[numbers].iter_mut().for_each(|side| *side = format!("{side:0>3}"));
    }
    if is_piece {
        fields[1] = format!("{:0>9}", fields[1]);
    }
    fields.join("\t") + "\n"
}
