//! The corners that random trays are to reach. Every corner is one entry of a
//! table, so a run meets each a known number of times whatever its seed.

mod accepted;
mod empty_box;
mod layers;
mod refused;
mod woods;

use crate::effort::{self, Bound};
use crate::malformed;
use crate::placements;
use crate::random::Random;
use crate::refusals::{refusal_of_tray, MALFORMED};
use crate::tray::{self, Engine, Grid, Piece, CONFIGS};

use accepted::{plain, ACCEPTED, WHEN_IDENTIFIED_FAST, WHEN_MIRRORED, WITH_LONG_SEARCHES};
use refused::{with_faults, FAULTS, FILES, REFUSED};

/// A board and its pieces.
type Parts = (Grid, Vec<Piece>);

/// Most lists are short; a few corners have a longer one.
const SHORT: Bound = Bound { looks: 200_000, packings: 200 };
const LONG: Bound = Bound { looks: 2_000_000, packings: 3_000 };

enum Make {
    /// A board and pieces; None, and what passes the bound, is tried again.
    Parts(fn(&mut Random) -> Option<Parts>),
    /// A board and no piece; None is tried again.
    Board(fn(&mut Random) -> Option<Grid>),
    /// A plain tray with the faults of two refusals.
    Faults(u8, u8),
    /// A plain tray's file, changed.
    File(fn(&mut Random, String) -> Vec<u8>),
    /// A plain tray's file, spoilt in this way.
    Spoilt(usize),
}

pub struct Corner {
    pub name: String,
    make: Make,
    /// The refusal that the corner is for, None for an accepted tray. (A tray
    /// refused by 15 is accepted with the engine `fast`.)
    refused: Option<u8>,
    bound: Bound,
    /// The configurations that its cases take in turn.
    pub configs: &'static [(&'static str, &'static str)],
}

const MIRRORED: &[(&str, &str)] = &[("fast", "mirrored"), ("knuth", "mirrored")];
const IDENTIFIED_FAST: &[(&str, &str)] = &[("fast", "turned"), ("fast", "mirrored")];
const IDENTIFIED: &[(&str, &str)] =
    &[("fast", "turned"), ("knuth", "mirrored"), ("knuth", "turned"), ("fast", "mirrored")];

impl Corner {
    /// A file for this corner.
    pub fn file(&self, random: &mut Random, config: (&str, &str)) -> Vec<u8> {
        for _ in 0..1_000_000 {
            if let Some(file) = self.attempt(random, config) {
                if self.is_reached(&file) {
                    return file;
                }
            }
        }
        panic!("corner {} is out of reach", self.name);
    }

    fn attempt(&self, random: &mut Random, config: (&str, &str)) -> Option<Vec<u8>> {
        let (mut board, mut pieces) = match self.make {
            Make::Parts(parts) => parts(random)?,
            Make::Board(board) => (board(random)?, vec![]),
            Make::Faults(one, other) => with_faults(random, [one, other])?,
            Make::File(_) | Make::Spoilt(_) => plain(random)?,
        };
        if !matches!(self.make, Make::File(_) | Make::Spoilt(_)) {
            // Some trays are all of one wood, which changes nothing.
            let is_plain = pieces.iter().all(|piece| piece.wood == 0);
            if is_plain && random.one_in(4) {
                let wood = random.between(1, 255) as u8;
                pieces.iter_mut().for_each(|piece| piece.wood = wood);
            }
            // Some have empty outer layers, which change the box of the answers alone.
            if !self.name.contains("layers") && random.one_in(3) {
                layers::add(random, &mut board, &mut pieces);
            }
        }
        let file = tray::write(config, &board, &pieces);
        let text = |file| String::from_utf8(file).unwrap();
        Some(match self.make {
            Make::Parts(_) | Make::Board(_) | Make::Faults(..) => file,
            Make::File(change) => change(random, text(file)),
            Make::Spoilt(way) => malformed::spoil(random, way, text(file)),
        })
    }

    /// Whether the file is refused as it should be, and if it is accepted under
    /// some configuration, no search of it passes the bound.
    fn is_reached(&self, file: &[u8]) -> bool {
        let Some(mut tray) = tray::parse(file, tray::config_of_file) else {
            return self.refused == Some(MALFORMED);
        };
        tray.config.engine = Engine::Knuth;
        if refusal_of_tray(&tray) != self.refused {
            return false;
        }
        tray.config.engine = Engine::Fast;
        if refusal_of_tray(&tray).is_some() {
            return true;
        }
        let filled = placements::filled_cells(&tray.board);
        effort::is_within(filled, &placements::kinds(&tray.board, &tray.pieces), self.bound)
    }
}

/// How often a round takes the corners of accepted trays; it takes each of the
/// others once.
const TIMES_ACCEPTED: usize = 3;

/// One round through the corners: what each case of a run is for.
pub fn round() -> Vec<Corner> {
    let is_accepted = |corner: &Corner| corner.refused.is_none();
    let mut round: Vec<Corner> = vec![];
    for _ in 1..TIMES_ACCEPTED {
        round.extend(corners().into_iter().filter(is_accepted));
    }
    round.extend(corners());
    round
}

/// All corners, each once.
pub fn corners() -> Vec<Corner> {
    let mut corners = vec![];
    let mut add_with = |name: String, make, refused, bound, configs| {
        corners.push(Corner { name, make, refused, bound, configs })
    };
    let when_mirrored = WHEN_MIRRORED.iter().chain(woods::WHEN_MIRRORED);
    for &(name, parts) in when_mirrored.chain(layers::WHEN_MIRRORED) {
        add_with(name.into(), Make::Parts(parts), None, SHORT, MIRRORED);
    }
    for &(name, parts) in layers::WHEN_IDENTIFIED {
        add_with(name.into(), Make::Parts(parts), None, SHORT, IDENTIFIED);
    }
    for &(name, parts) in WHEN_IDENTIFIED_FAST.iter().chain(woods::WHEN_IDENTIFIED_FAST) {
        add_with(name.into(), Make::Parts(parts), None, SHORT, IDENTIFIED_FAST);
    }
    let mut add = |name, make, refused, bound| add_with(name, make, refused, bound, &CONFIGS);
    for &(name, parts) in ACCEPTED {
        add(name.into(), Make::Parts(parts), None, SHORT);
    }
    for &(name, parts) in WITH_LONG_SEARCHES {
        add(name.into(), Make::Parts(parts), None, LONG);
    }
    for &(name, board) in empty_box::LISTED.iter().chain(layers::BOARDS) {
        add(name.into(), Make::Board(board), None, SHORT);
    }
    for &(name, parts) in woods::LISTED.iter().chain(layers::LISTED) {
        add(name.into(), Make::Parts(parts), None, SHORT);
    }
    for &(name, parts) in woods::WITH_LONG_SEARCHES.iter().chain(layers::WITH_LONG_SEARCHES) {
        add(name.into(), Make::Parts(parts), None, LONG);
    }
    for &(name, refused, board) in empty_box::REFUSED {
        add(name.into(), Make::Board(board), Some(refused), SHORT);
    }
    for &(name, refused, parts) in REFUSED.iter().chain(woods::REFUSED).chain(layers::REFUSED) {
        add(name.into(), Make::Parts(parts), Some(refused), LONG);
    }
    for (index, &one) in FAULTS.iter().enumerate() {
        for &other in &FAULTS[index + 1..] {
            let name = format!("refused_{one}_and_{other}");
            add(name, Make::Faults(one, other), Some(one), SHORT);
        }
    }
    for &(name, refused, change) in FILES.iter().chain(woods::FILES) {
        add(name.into(), Make::File(change), refused, SHORT);
    }
    for (way, name) in malformed::names().enumerate() {
        add(format!("malformed_{name}"), Make::Spoilt(way), Some(MALFORMED), SHORT);
    }
    corners
}
