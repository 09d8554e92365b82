//! The calls of the static library over slices: docs/INTERFACE.md. They take every input, so they are safe as they stand: Rust's rules for references
//! see to what a caller in C has to see to.

/// Words of the work slice that a page or a text needs.
pub const WORK: usize = 8_192;
/// Numbers of the links slice that a call of Knuth's engine needs.
pub const LINKS: usize = 32_768;
/// Bytes that hold any text for DLX1.
pub const TEXT: usize = 663_552;
/// Bytes of an entry of the catalogue: three sides, the cells, then zeros.
pub const ENTRY: usize = 21;
/// Bytes that hold the catalogue of any number of cells: 166 entries.
pub const CATALOGUE: usize = 166 * ENTRY;

/// A piece, or the board: sides, copies, wood, and where its cells begin in the bytes. The board's copies and wood are not read.
#[repr(C)]
#[derive(Clone, Copy, Debug, PartialEq, Eq)]
pub struct Record {
    pub a: usize,
    pub b: usize,
    pub c: usize,
    pub count: u32,
    pub wood: u8,
    pub start: usize,
}

/// What a call answers: 0 or the number of the refusal; how many answers, or entries of the catalogue, were written; whether a further one follows;
/// whether no entry equals the one that was lent, to begin behind it.
#[repr(C)]
#[derive(Clone, Copy, Debug, PartialEq, Eq)]
pub struct Answer {
    pub number: u32,
    pub written: usize,
    pub further: bool,
    pub missing: bool,
}

impl Answer {
    /// An accepted call's: a page with so many answers, and whether a further one follows.
    pub const fn page(written: usize, further: bool) -> Answer {
        Answer { number: 0, written, further, missing: false }
    }

    pub const fn refused(number: u32) -> Answer {
        Answer { number, written: 0, further: false, missing: false }
    }

    /// No entry of the list equals the one that was lent, to begin behind it.
    pub const MISSING: Answer = Answer { number: 0, written: 0, further: false, missing: true };
}

/// What a call for the text answers: 0 or the number of the refusal; how many bytes were written: the whole text, or 0 where it is refused.
#[repr(C)]
#[derive(Clone, Copy, Debug, PartialEq, Eq)]
pub struct TextAnswer {
    pub number: u32,
    pub written: usize,
}

/// Where a page begins, as the call takes it: `behind` says which of the other two is read.
#[derive(Clone, Copy, Debug)]
pub struct Start<'a> {
    pub behind: bool,
    pub skip: u64,
    pub last: &'a [u8],
}

/// What is listed: the engine by its number (2 Fast, 3 Knuth), and which packings are identified.
#[derive(Clone, Copy, Debug)]
pub struct Config {
    pub engine: u8,
    pub turned: bool,
    pub mirrored: bool,
}

extern "C" {
    // The symbols bear the number of the interface (include/ferghuul.h). A slice is passed as its address and its length.
    #[link_name = "ferghuul_1_page"]
    fn ferghuul_page(
        pieces: *const Record,
        piece_count: usize,
        board: Record,
        bytes: *const u8,
        byte_count: usize,
        engine: u8,
        turned: bool,
        mirrored: bool,
        behind: bool,
        skip: u64,
        last: *const u8,
        last_bytes: usize,
        answers: *mut u8,
        answer_bytes: usize,
        work: *mut u64,
        words: usize,
        links: *mut u16,
        numbers: usize,
    ) -> Answer;

    #[link_name = "ferghuul_1_dlx1"]
    fn ferghuul_dlx1(
        pieces: *const Record,
        piece_count: usize,
        board: Record,
        bytes: *const u8,
        byte_count: usize,
        output: *mut u8,
        output_bytes: usize,
        work: *mut u64,
        words: usize,
    ) -> TextAnswer;

    #[link_name = "ferghuul_1_catalogue"]
    fn ferghuul_catalogue(n: u32, skip: u64, entries: *mut u8, entry_bytes: usize) -> Answer;
}

/// A page of the list of packings, or the refusal.
#[allow(clippy::too_many_arguments)]
pub fn page(
    pieces: &[Record],
    board: Record,
    bytes: &[u8],
    config: Config,
    start: Start,
    answers: &mut [u8],
    work: &mut [u64],
    links: &mut [u16],
) -> Answer {
    // Sound: the slices are live, as long as is said and aligned, and those that are written overlap nothing. The call keeps none of them.
    unsafe {
        ferghuul_page(
            pieces.as_ptr(),
            pieces.len(),
            board,
            bytes.as_ptr(),
            bytes.len(),
            config.engine,
            config.turned,
            config.mirrored,
            start.behind,
            start.skip,
            start.last.as_ptr(),
            start.last.len(),
            answers.as_mut_ptr(),
            answers.len(),
            work.as_mut_ptr(),
            work.len(),
            links.as_mut_ptr(),
            links.len(),
        )
    }
}

/// The text for Knuth's DLX1 at the start of the output, or the refusal.
pub fn dlx1(pieces: &[Record], board: Record, bytes: &[u8], output: &mut [u8], work: &mut [u64]) -> TextAnswer {
    // Sound: as above.
    unsafe {
        ferghuul_dlx1(
            pieces.as_ptr(),
            pieces.len(),
            board,
            bytes.as_ptr(),
            bytes.len(),
            output.as_mut_ptr(),
            output.len(),
            work.as_mut_ptr(),
            work.len(),
        )
    }
}

/// A page of the catalogue of the pieces of n cells, from entry `skip` on, or the refusal. No entry is waited for, so that none is missing.
pub fn catalogue(n: u32, skip: u64, entries: &mut [u8]) -> Answer {
    // Sound: as above.
    unsafe { ferghuul_catalogue(n, skip, entries.as_mut_ptr(), entries.len()) }
}
