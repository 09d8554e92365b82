//! `stack [fast|knuth] [none|turned|mirrored] TRAY ...`: how many bytes of the stack a call takes, as rows of a table: of each tray
//! a page, and the text where it has one, with one copy of each kind where a kind has several; then the catalogue of six cells. The
//! call runs in a thread whose stack is painted before; what is no longer painted afterwards was used. What a thread uses that
//! calls nothing is taken off, and stands in the last line. A page asks for the list's first entries, as many as fit into a million
//! bytes. Before the trays come the deepest searches: 128 single cells of one wood, and of eight woods from behind an entry whose
//! rows are the last of their columns, a few entries each. Status 1 where a call and its thread take more than a million bytes.

use std::ffi::c_void;
use std::process::ExitCode;
use std::ptr::{from_mut, null_mut};

use ferghuul::call::{catalogue, CATALOGUE, TEXT};
use harness::side_by_side::{read_tray, shown, Wanted};
use harness::{Answer, Lent, Start, TextAnswer};
use oracle::refusals::refusal_of_tray;
use oracle::texts;
use oracle::tray::{Grid, Piece, Tray};

const STACK: usize = 8 << 20;
const ENOUGH: usize = 1_000_000;
const PAINT: u128 = 0x5AA5_5AA5_5AA5_5AA5_5AA5_5AA5_5AA5_5AA5;

/// Part of a stack, which begins on a line of the cache: so what a thread puts at the top takes the same room each time.
#[derive(Clone)]
#[repr(align(64))]
struct Line([u128; 4]);

/// libc's thread attributes have 56 bytes.
type Attributes = [u64; 8];
type Run = extern "C" fn(*mut c_void) -> *mut c_void;

extern "C" {
    fn pthread_attr_init(attributes: *mut Attributes) -> i32;
    fn pthread_attr_setstack(attributes: *mut Attributes, lowest: *mut c_void, bytes: usize) -> i32;
    fn pthread_create(thread: *mut usize, attributes: *const Attributes, run: Run, call: *mut c_void) -> i32;
    fn pthread_join(thread: usize, result: *mut *mut c_void) -> i32;
}

extern "C" fn run(call: *mut c_void) -> *mut c_void {
    let call = unsafe { &mut *call.cast::<&mut dyn FnMut()>() };
    call();
    null_mut()
}

/// Bytes between the top of a thread's stack and the lowest ones that it wrote.
fn used(mut call: &mut dyn FnMut()) -> usize {
    let mut stack = vec![Line([PAINT; 4]); STACK / 64];
    let (mut attributes, mut thread) = ([0; 8], 0);
    unsafe {
        assert_eq!(pthread_attr_init(&mut attributes), 0);
        assert_eq!(pthread_attr_setstack(&mut attributes, stack.as_mut_ptr().cast(), STACK), 0);
        assert_eq!(pthread_create(&mut thread, &attributes, run, from_mut(&mut call).cast()), 0);
        assert_eq!(pthread_join(thread, null_mut()), 0);
    }
    STACK - 16 * stack.iter().flat_map(|line| line.0).take_while(|&painted| painted == PAINT).count()
}

/// A call's bytes, without those of a thread that calls nothing.
fn taken(call: &mut dyn FnMut()) -> usize {
    used(call) - used(&mut || ())
}

fn page(tray: &Tray, start: Start, room: usize) -> usize {
    let lent = Lent::new(tray);
    let (mut answers, mut work, mut links) = (vec![0; room], vec![0; 8_192], vec![0; 32_768]);
    let mut answer = Answer::MISSING;
    let bytes = taken(&mut || answer = lent.page(start, &mut answers, &mut work, &mut links));
    assert!(answer.number == 0 && !answer.missing, "{answer:?}");
    bytes
}

fn text(tray: &Tray) -> usize {
    let lent = Lent::new(tray);
    let (mut output, mut work) = (vec![0; TEXT], vec![0; 8_192]);
    let mut answer = TextAnswer { number: 0, written: 0 };
    let bytes = taken(&mut || answer = lent.text(&mut output, &mut work));
    assert!(answer.number == 0 && answer.written > 0, "{answer:?}");
    bytes
}

fn pieces_of_six() -> usize {
    let mut entries = vec![0; CATALOGUE];
    let mut answer = Answer::MISSING;
    let bytes = taken(&mut || answer = catalogue(6, 0, &mut entries));
    assert_eq!(answer, Answer::page(166, false));
    bytes
}

/// The rows of the table.
struct Rows {
    most: usize,
}

impl Rows {
    fn row(&mut self, what: &str, (engine, identified): (&str, &str), bytes: usize) {
        println!("| {what} | {engine} | {identified} | {} |", shown(bytes));
        self.most = self.most.max(bytes);
    }
}

fn main() -> ExitCode {
    let wanted = Wanted::from_arguments();
    let trays: Vec<(Tray, &str)> = wanted.trays.iter().map(|path| read_tray(path)).collect();
    let mut rows = Rows { most: 0 };
    println!("| Tray | Engine | Identified | Bytes of the stack |\n|---|---|---|---|");
    for (words, config) in wanted.configs() {
        for woods in [1, 8] {
            let (tray, last) = cells_in_woods(woods, config.turned);
            let start = if woods == 1 { Start::Skip(0) } else { Start::Behind(&last) };
            rows.row(&format!("128 single cells, woods: {woods}"), words, page(&Tray { config, ..tray }, start, 4_000));
        }
    }
    for (tray, name) in &trays {
        for (words, config) in wanted.configs() {
            let tray = Tray { config, ..tray.clone() };
            if refusal_of_tray(&tray).is_none() {
                rows.row(name, words, page(&tray, Start::Skip(0), 1 << 20));
            }
        }
    }
    for (tray, name) in &trays {
        let thinned = texts::thinned(tray);
        if texts::of_tray(&thinned).is_ok() {
            rows.row(&format!("`ferghuul_dlx1`: {name}"), ("", ""), text(&thinned));
        }
    }
    rows.row("`ferghuul_catalogue`: 6 cells", ("", ""), pieces_of_six());
    let thread = used(&mut || ());
    println!("\nA thread that calls nothing takes {} bytes more.", shown(thread));
    if rows.most + thread > ENOUGH {
        eprintln!("a million bytes are not enough");
        return ExitCode::FAILURE;
    }
    ExitCode::SUCCESS
}

/// 128 cells and single cells in so many woods, one copy of each but the last, which has the others; and an entry that uses the
/// last wood first, then the others from behind, in the order of the search: x fastest, z slowest. Where turns are identified, the
/// board is carried onto itself by a half turn alone, and the entry is the one of two that is listed: the first wood lies before the
/// axis, which is in the middle of the last layer's 23 cells.
fn cells_in_woods(woods: usize, turned: bool) -> (Tray, Vec<u8>) {
    let cell = Grid { sides: [1, 1, 1], cells: vec![1] };
    let count = |wood| if wood + 1 < woods { 1 } else { 129 - woods as u32 };
    let pieces = (0..woods).map(|wood| Piece { count: count(wood), grid: cell.clone(), wood: wood as u8 }).collect();
    let board = if turned { half_turned() } else { Grid { sides: [4, 4, 8], cells: vec![1; 128] } };
    let config = oracle::tray::config_of_file(b"fast", b"none").unwrap();
    let [a, b, c] = board.sides.map(|side| side as usize);
    let mut searched: Vec<usize> = (0..a * b * c).filter(|&at| board.cells[at] == 1).collect();
    searched.sort_by_key(|&at| (at % c, at / c % b, at / c / b));
    let mut singles: Vec<usize> = (129 - woods..128).rev().collect();
    if turned && woods > 1 {
        singles[0] = 115;
        singles[1..].iter_mut().for_each(|place| *place += 1);
    }
    let mut entry = vec![255; 2 * board.cells.len()];
    let mut copies = 0;
    for (order, &at) in searched.iter().enumerate() {
        let wood = singles.iter().position(|&single| single == order).unwrap_or(woods - 1);
        let copy = if wood + 1 < woods { 0 } else { copies };
        copies += u8::from(wood + 1 == woods);
        entry[2 * at..2 * at + 2].copy_from_slice(&[wood as u8, copy]);
    }
    (Tray { config, board, pieces }, entry)
}

/// 128 cells in a box of 5 by 5 by 8: seven layers of 3 by 5, and one of 5 by 5 without two opposite corners.
fn half_turned() -> Grid {
    let is_filled = |[x, y, z]: [u32; 3]| if z < 7 { (1..4).contains(&x) } else { [x, y] != [0, 0] && [x, y] != [4, 4] };
    let cells = (0..200).map(|at| u8::from(is_filled([at / 40, at / 8 % 5, at % 8]))).collect();
    Grid { sides: [5, 5, 8], cells }
}
