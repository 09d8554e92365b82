//! Ways to spoil a well-formed file, each of which makes it malformed (16).

use crate::random::Random;
use crate::tray::LONGEST_FILE;

/// The file as lines of fields. Spoiling one of them and joining again is
/// enough for most of the ways.
struct Fields(Vec<Vec<String>>);

const CONFIG: usize = 0;
const BOARD: usize = 1;
const FIRST_PIECE: usize = 2;

impl Fields {
    fn of(file: &str) -> Fields {
        let fields = |line: &str| line.split('\t').map(str::to_string).collect();
        Fields(file.lines().map(fields).collect())
    }

    fn join(&self) -> String {
        self.0.iter().map(|line| line.join("\t") + "\n").collect()
    }

    /// The board's line or a piece's.
    fn grid_line(&self, random: &mut Random) -> usize {
        BOARD + random.below(self.0.len() - BOARD)
    }

    fn piece_line(&self, random: &mut Random) -> usize {
        FIRST_PIECE + random.below(self.0.len() - FIRST_PIECE)
    }

    fn any_line(&self, random: &mut Random) -> usize {
        random.below(self.0.len())
    }

    /// One of the three sides of a grid: the last field is the cells.
    fn side(&mut self, random: &mut Random) -> &mut String {
        let line = self.grid_line(random);
        let cells = self.0[line].len() - 1;
        &mut self.0[line][cells - 1 - random.below(3)]
    }

    fn cells(&mut self, random: &mut Random) -> &mut String {
        let line = self.grid_line(random);
        self.0[line].last_mut().unwrap()
    }

    fn count(&mut self, random: &mut Random) -> &mut String {
        let line = self.piece_line(random);
        &mut self.0[line][1]
    }

    /// Puts a further field behind a piece's line, where its wood stands.
    fn add_wood(&mut self, random: &mut Random, field: &str) {
        let line = self.piece_line(random);
        self.0[line].push(field.into())
    }

    fn word(&mut self, line: usize) -> &mut String {
        &mut self.0[line][0]
    }
}

type Spoil = fn(&mut Random, &mut Fields);

/// Ways that change fields.
const OF_FIELDS: &[(&str, Spoil)] = &[
    ("no_config", |_, file| drop(file.0.remove(CONFIG))),
    ("no_board", |_, file| drop(file.0.remove(BOARD))),
    ("config_alone", |_, file| file.0.truncate(1)),
    ("config_twice", |_, file| file.0.insert(1, file.0[CONFIG].clone())),
    ("board_twice", |_, file| file.0.insert(2, file.0[BOARD].clone())),
    ("board_behind_pieces", |_, file| file.0[BOARD..].rotate_left(1)),
    ("config_last", |_, file| file.0.rotate_left(1)),
    ("engine_auto", |_, file| file.0[CONFIG][1] = "auto".into()),
    ("engine_naive", |_, file| file.0[CONFIG][1] = "naive".into()),
    ("engine_unknown", |random, file| {
        file.0[CONFIG][1] = random.pick(&["", "Fast", "KNUTH", "fas", "fastt", "dlx"]).to_string()
    }),
    ("identified_unknown", |random, file| {
        file.0[CONFIG][2] = random.pick(&["", "None", "turn", "mirror", "both", "0"]).to_string()
    }),
    ("word_unknown", |random, file| {
        let line = file.any_line(random);
        *file.word(line) = random.pick(&["", "Board", "pieces", "#", "tray", "piec"]).to_string()
    }),
    ("word_with_blank", |random, file| {
        let line = file.any_line(random);
        file.word(line).push(' ')
    }),
    ("field_missing", |random, file| {
        let line = file.any_line(random);
        let field = random.below(file.0[line].len());
        file.0[line].remove(field);
    }),
    ("field_extra", |random, file| {
        let line = file.any_line(random);
        let field = random.pick(&["1", "0", "11", "none"]).to_string();
        if line >= FIRST_PIECE {
            // One more would be its wood.
            file.0[line].push(random.pick(&["0", "1", "255"]).to_string());
        }
        file.0[line].push(field)
    }),
    ("tab_at_end", |random, file| {
        let line = file.any_line(random);
        file.0[line].push(String::new())
    }),
    ("tab_at_start", |random, file| {
        let line = file.any_line(random);
        file.0[line].insert(0, String::new())
    }),
    ("two_tabs", |random, file| {
        let line = file.any_line(random);
        file.0[line].insert(1, String::new())
    }),
    ("side_empty", |random, file| file.side(random).clear()),
    ("side_of_four_digits", |random, file| {
        let side = file.side(random);
        *side = format!("{side:0>4}")
    }),
    ("side_signed", |random, file| {
        let sign = *random.pick(&['+', '-']);
        file.side(random).insert(0, sign)
    }),
    ("side_with_blank", |random, file| {
        let side = file.side(random);
        side.insert(0, ' ')
    }),
    ("side_no_number", |random, file| {
        let side = random.pick(&["x", "1x", "0x1", "1.", "\u{661}"]).to_string();
        *file.side(random) = side
    }),
    ("side_wrong", |random, file| {
        // Nine more of any side needs more cells than there are.
        let side = file.side(random);
        *side = (side.parse::<u32>().unwrap() + 9).to_string()
    }),
    ("sides_huge", |random, file| {
        let line = file.grid_line(random);
        let first = file.0[line].len() - 4;
        for field in first..first + 3 {
            file.0[line][field] = "999".into();
        }
        file.0[line][first + 3] = "1".into()
    }),
    ("count_empty", |random, file| file.count(random).clear()),
    ("count_of_ten_digits", |random, file| {
        let count = file.count(random);
        *count = format!("{count:0>10}")
    }),
    ("count_huge", |random, file| *file.count(random) = "4294967297".into()),
    ("count_signed", |random, file| {
        let sign = *random.pick(&['+', '-']);
        file.count(random).insert(0, sign)
    }),
    ("count_no_number", |random, file| {
        let count = random.pick(&["x", "1e0", "1 ", "one", "0b1"]).to_string();
        *file.count(random) = count
    }),
    ("cell_too_few", |random, file| {
        file.cells(random).pop();
    }),
    ("cell_too_many", |random, file| {
        let cell = *random.pick(&['0', '1']);
        file.cells(random).push(cell)
    }),
    ("cell_unknown", |random, file| {
        let cell = *random.pick(&['2', ' ', 'x', '.', '#', '-', '9', '/', '\u{661}', '\0']);
        let cells = file.cells(random);
        cells.pop();
        cells.push(cell)
    }),
    ("cells_parted", |random, file| {
        let cells = file.cells(random);
        *cells = cells.chars().map(|cell| format!("{cell} ")).collect()
    }),
    ("wood_256", |random, file| file.add_wood(random, "256")),
    ("wood_999", |random, file| file.add_wood(random, "999")),
    ("wood_above_255", |random, file| {
        let wood = random.between(256, 999).to_string();
        file.add_wood(random, &wood)
    }),
    ("wood_0255", |random, file| file.add_wood(random, "0255")),
    ("wood_of_four_digits", |random, file| {
        let wood = *random.pick(&["0000", "0007", "0256", "1000", "2550", "9999"]);
        file.add_wood(random, wood)
    }),
    ("wood_of_many_digits", |random, file| {
        // At most 255 if a number of 16, 32 or 64 bits wraps, or by leading zeros.
        let wood = *random.pick(&[
            "65536",
            "4294967297",
            "18446744073709551616",
            "00000000000000000001",
            "000000255",
        ]);
        file.add_wood(random, wood)
    }),
    ("wood_empty", |random, file| file.add_wood(random, "")),
    ("wood_signed", |random, file| {
        let wood = *random.pick(&["+7", "-7", "+0", "-0", "-1", "+"]);
        file.add_wood(random, wood)
    }),
    ("wood_with_blank", |random, file| {
        let wood = *random.pick(&[" 7", "7 ", " ", "1 2", "  7", " 0 ", "7\r", "7\u{a0}"]);
        file.add_wood(random, wood)
    }),
    ("wood_no_number", |random, file| {
        let wood = *random.pick(&["x", "7x", "x7", "0x1", "1.", "1e1", "oak", "\u{661}", "7\0"]);
        file.add_wood(random, wood)
    }),
    ("wood_and_an_eighth_field", |random, file| {
        let field = *random.pick(&["7\t7", "0\t0", "255\t1", "1\t11", "\t7", "7\t256"]);
        file.add_wood(random, field)
    }),
    ("wood_and_a_tab", |random, file| {
        let wood = *random.pick(&["7\t", "0\t", "255\t", "\t"]);
        file.add_wood(random, wood)
    }),
    ("wood_of_the_board", |random, file| {
        let wood = *random.pick(&["0", "7", "255", "00", "", "256"]);
        file.0[BOARD].push(wood.into())
    }),
    ("wood_of_the_config", |random, file| {
        let wood = *random.pick(&["0", "7", "255"]);
        file.0[CONFIG].push(wood.into())
    }),
    ("wood_in_place_of_the_cells", |random, file| {
        let line = file.piece_line(random);
        *file.0[line].last_mut().unwrap() = random.pick(&["2", "7", "255", "12"]).to_string()
    }),
    ("wood_and_a_field_missing", |random, file| {
        // The count or a side; 9 is then no cells.
        let line = file.piece_line(random);
        let field = 1 + random.below(4);
        file.0[line].remove(field);
        file.0[line].push("9".into())
    }),
    ("wood_spoilt_among_others", |random, file| {
        for line in FIRST_PIECE..file.0.len() {
            let wood = random.between(0, 255).to_string();
            file.0[line].push(wood);
        }
        let line = file.piece_line(random);
        let wood = *random.pick(&["256", "", "-1", "0001", " 1"]);
        *file.0[line].last_mut().unwrap() = wood.into()
    }),
    ("wood_beside_a_refusal", |random, file| {
        // Seventeen pieces: 2 if none of them were spoilt.
        let piece = file.0[FIRST_PIECE].clone();
        file.0.resize(FIRST_PIECE + 17, piece);
        file.add_wood(random, "256")
    }),
    ("side_0_without_its_tab", |random, file| {
        let line = file.piece_line(random);
        file.0[line] = ["piece", "1", "1", "0", "1"].map(String::from).to_vec()
    }),
    ("side_0_with_cells", |random, file| {
        let line = file.piece_line(random);
        file.0[line] = ["piece", "1", "1", "0", "1", "1"].map(String::from).to_vec()
    }),
    ("empty_line", |random, file| {
        let line = random.below(file.0.len() + 1);
        file.0.insert(line, vec![String::new()])
    }),
    ("fortieth_piece", |_, file| {
        let piece = file.0[FIRST_PIECE].clone();
        file.0.resize(FIRST_PIECE + 40, piece);
        file.0[FIRST_PIECE + 39].pop();
    }),
    ("empty_box_board_spoilt", |random, file| {
        file.0.truncate(FIRST_PIECE);
        let cells = file.cells(random);
        match random.below(3) {
            0 => drop(cells.pop()),
            1 => cells.push('0'),
            _ => cells.replace_range(..1, "2"),
        }
    }),
    ("empty_box_empty_line", |_, file| {
        file.0.truncate(FIRST_PIECE);
        file.0.push(vec![String::new()])
    }),
    ("beside_a_refusal", |random, file| {
        // A side of 9, nine cells: 3 if the other piece were well formed.
        let piece = ["piece", "1", "1", "1", "9", "111111111"].map(String::from).to_vec();
        file.0.insert(FIRST_PIECE, piece);
        file.count(random).push('x')
    }),
];

/// Ways that change the text.
const OF_TEXT: &[(&str, fn(&mut Random, String) -> Vec<u8>)] = &[
    ("empty_file", |_, _| vec![]),
    ("line_feed_alone", |_, _| b"\n".to_vec()),
    ("no_last_line_feed", |_, text| text.trim_end().into()),
    ("empty_box_no_last_line_feed", |_, text| {
        text.lines().take(FIRST_PIECE).collect::<Vec<_>>().join("\n").into()
    }),
    ("cut_off", |random, text| {
        // Anywhere but behind a whole line of a piece or the board.
        let ends: Vec<usize> =
            (1..text.len()).filter(|&end| text.as_bytes()[end - 1] != b'\n').collect();
        text[..*random.pick(&ends)].into()
    }),
    ("carriage_returns", |_, text| text.replace('\n', "\r\n").into()),
    ("one_carriage_return", |_, text| text.replacen('\n', "\r\n", 1).into()),
    ("blanks_for_tabs", |_, text| text.replace('\t', " ").into()),
    ("one_blank_for_a_tab", |_, text| text.replacen('\t', " ", 1).into()),
    ("byte_order_mark", |_, text| format!("\u{feff}{text}").into()),
    ("byte_behind", |random, text| {
        let mut file = text.into_bytes();
        file.push(*random.pick(&[0, b' ', b'\t', b'\r', b'0', 0x1a, 0xff]));
        file
    }),
    ("byte_spoilt", |random, text| {
        let mut file = text.into_bytes();
        let place = random.below(file.len());
        file[place] = *random.pick(&[0, 0x80, 0xff, 0x7f, b'\r']);
        file
    }),
    ("one_byte_too_long", |_, text| padded(text, LONGEST_FILE + 1)),
    ("much_too_long", |random, text| {
        let length = LONGEST_FILE + 2 + random.below(50_000);
        padded(text, length)
    }),
];

/// The file with further well-formed pieces behind it, exactly so long.
pub fn padded(text: String, length: usize) -> Vec<u8> {
    let mut file = text.into_bytes();
    while file.len() < length {
        // Lines of 16 bytes, until one with up to 15 more is the last.
        let missing = length - file.len();
        let zeros = if missing < 32 { missing - 16 } else { 0 };
        file.extend(piece_line(zeros).into_bytes());
    }
    file
}

/// The line of a single cell with so many leading zeros in its numbers. They
/// have room for 14; in the place of a fifteenth the piece gets a second cell.
fn piece_line(zeros: usize) -> String {
    let cells = if zeros > 14 { "11" } else { "1" };
    let mut left = zeros.min(14);
    let mut number = |value: usize, room: usize| {
        let width = left.min(room);
        left -= width;
        format!("{}{value}", "0".repeat(width))
    };
    let (count, a, b, c) = (number(1, 8), number(1, 2), number(1, 2), number(cells.len(), 2));
    format!("piece\t{count}\t{a}\t{b}\t{c}\t{cells}\n")
}

pub fn names() -> impl Iterator<Item = &'static str> {
    let of_fields = OF_FIELDS.iter().map(|(name, _)| *name);
    of_fields.chain(OF_TEXT.iter().map(|(name, _)| *name))
}

/// Spoils a well-formed file with at least one piece in the way of this number.
pub fn spoil(random: &mut Random, way: usize, text: String) -> Vec<u8> {
    if way < OF_FIELDS.len() {
        let mut file = Fields::of(&text);
        OF_FIELDS[way].1(random, &mut file);
        file.join().into_bytes()
    } else {
        OF_TEXT[way - OF_FIELDS.len()].1(random, text)
    }
}
