//! The file that `pack` reads: a `config` line, a `board` line, `piece` lines or none.

/// More bytes than this make a file malformed.
pub const LONGEST_FILE: usize = 16_384;

#[derive(Clone, Copy, Debug, PartialEq, Eq)]
pub enum Engine {
    Auto,
    Naive,
    Fast,
    Knuth,
}

#[derive(Clone, Copy, Debug, PartialEq, Eq)]
pub struct Config {
    pub engine: Engine,
    pub turned: bool,
    pub mirrored: bool,
}

/// Cells are 0 or 1, x slowest, z fastest; there are as many as the sides say.
#[derive(Clone, Debug, PartialEq, Eq)]
pub struct Grid {
    pub sides: [u32; 3],
    pub cells: Vec<u8>,
}

#[derive(Clone, Debug, PartialEq, Eq)]
pub struct Piece {
    pub count: u32,
    pub grid: Grid,
    pub wood: u8,
}

impl Piece {
    /// A piece of wood 0.
    pub fn new(count: u32, grid: Grid) -> Piece {
        Piece { count, grid, wood: 0 }
    }
}

#[derive(Clone, Debug, PartialEq, Eq)]
pub struct Tray {
    pub config: Config,
    pub board: Grid,
    pub pieces: Vec<Piece>,
}

impl Tray {
    /// Whether its pieces are of more than one wood. The original knows of none.
    pub fn is_mixed(&self) -> bool {
        self.pieces.iter().any(|piece| piece.wood != self.pieces[0].wood)
    }
}

/// The six configurations that a file can name, as words of its first line.
pub const CONFIGS: [(&str, &str); 6] = [
    ("fast", "none"),
    ("knuth", "turned"),
    ("fast", "mirrored"),
    ("knuth", "none"),
    ("fast", "turned"),
    ("knuth", "mirrored"),
];

/// The configuration that the words of a file stand for.
pub fn config_of_file(engine: &[u8], identified: &[u8]) -> Option<Config> {
    let engine = match engine {
        b"fast" => Engine::Fast,
        b"knuth" => Engine::Knuth,
        _ => return None,
    };
    let (turned, mirrored) = match identified {
        b"none" => (false, false),
        b"turned" => (true, false),
        b"mirrored" => (true, true),
        _ => return None,
    };
    Some(Config { engine, turned, mirrored })
}

/// As `config_of_file`, and also what only a call of the original's `solve` can
/// ask for: the engines `auto` and `naive`, and mirrored without turned.
pub fn config_of_raw(engine: &[u8], identified: &[u8]) -> Option<Config> {
    let engine = match engine {
        b"auto" => Engine::Auto,
        b"naive" => Engine::Naive,
        b"fast" => Engine::Fast,
        b"knuth" => Engine::Knuth,
        _ => return None,
    };
    if identified == b"mirrored_only" {
        return Some(Config { engine, turned: false, mirrored: true });
    }
    config_of_file(b"fast", identified).map(|config| Config { engine, ..config })
}

/// The tray of a well-formed file, None for a malformed one.
pub fn parse(file: &[u8], config_of: fn(&[u8], &[u8]) -> Option<Config>) -> Option<Tray> {
    if file.len() > LONGEST_FILE {
        return None;
    }
    // Every line ends in a line feed, so nothing may follow the last one.
    let body = file.strip_suffix(b"\n")?;
    let mut lines = body.split(|&byte| byte == b'\n').map(|line| fields(line));

    let config = match lines.next()?[..] {
        [b"config", engine, identified] => config_of(engine, identified)?,
        _ => return None,
    };
    let board = match lines.next()?[..] {
        [b"board", a, b, c, cells] => grid([a, b, c], cells)?,
        _ => return None,
    };
    let mut pieces = vec![];
    for line in lines {
        // The wood alone may be absent: 0.
        let (count, sides, cells, wood) = match line[..] {
            [b"piece", count, a, b, c, cells] => (count, [a, b, c], cells, &b"0"[..]),
            [b"piece", count, a, b, c, cells, wood] => (count, [a, b, c], cells, wood),
            _ => return None,
        };
        let wood = u8::try_from(number(wood, 3)?).ok()?;
        pieces.push(Piece { count: number(count, 9)?, grid: grid(sides, cells)?, wood });
    }
    Some(Tray { config, board, pieces })
}

fn fields(line: &[u8]) -> Vec<&[u8]> {
    line.split(|&byte| byte == b'\t').collect()
}

fn number(digits: &[u8], most_digits: usize) -> Option<u32> {
    if digits.is_empty() || digits.len() > most_digits || !digits.iter().all(u8::is_ascii_digit) {
        return None;
    }
    Some(digits.iter().fold(0, |value, &digit| value * 10 + u32::from(digit - b'0')))
}

fn grid(sides: [&[u8]; 3], cells: &[u8]) -> Option<Grid> {
    let sides = [number(sides[0], 3)?, number(sides[1], 3)?, number(sides[2], 3)?];
    // At most 999 a side, so the product stays below 2^32.
    if cells.len() as u32 != sides[0] * sides[1] * sides[2] {
        return None;
    }
    if !cells.iter().all(|&cell| cell == b'0' || cell == b'1') {
        return None;
    }
    Some(Grid { sides, cells: cells.iter().map(|&cell| cell - b'0').collect() })
}

/// The tray as a file, its first line made from the two words; wood 0 is left out.
pub fn write(config: (&str, &str), board: &Grid, pieces: &[Piece]) -> Vec<u8> {
    let mut file = format!("config\t{}\t{}\n", config.0, config.1);
    file.push_str(&format!("board\t{}\n", grid_fields(board)));
    for piece in pieces {
        file.push_str(&format!("piece\t{}\t{}", piece.count, grid_fields(&piece.grid)));
        if piece.wood > 0 {
            file.push_str(&format!("\t{}", piece.wood));
        }
        file.push('\n');
    }
    file.into_bytes()
}

fn grid_fields(grid: &Grid) -> String {
    let [a, b, c] = grid.sides;
    let cells: String = grid.cells.iter().map(|&cell| char::from(b'0' + cell)).collect();
    format!("{a}\t{b}\t{c}\t{cells}")
}
