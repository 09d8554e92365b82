/* Every packing of a tray, page by page; the tray as a text for Knuth's DLX1; and all pieces of up to six cells. What the calls answer is
   proved for every input; docs/INTERFACE.md says it in full.
   C99 and C++17, x86-64. Link crates/ferghuul/out/libferghuul.a, which `rt lib` in crates/ferghuul writes. */
#ifndef FERGHUUL_H
#define FERGHUUL_H

#include <stdbool.h>
#include <stddef.h>
#include <stdint.h>

#ifdef __cplusplus
extern "C" {
#endif

/* The number of this interface. It grows by one whenever the arguments, the layout or the meaning of a call change. The library's symbols bear it:
   the call `ferghuul_page` is the symbol `ferghuul_1_page`. So a program that was compiled with the header of another number does not link. */
#define FERGHUUL_INTERFACE 1

#define FERGHUUL_JOINED(number, call) ferghuul_##number##call
#define FERGHUUL_SYMBOL(number, call) FERGHUUL_JOINED(number, call)
#define ferghuul_page FERGHUUL_SYMBOL(FERGHUUL_INTERFACE, _page)
#define ferghuul_dlx1 FERGHUUL_SYMBOL(FERGHUUL_INTERFACE, _dlx1)
#define ferghuul_catalogue FERGHUUL_SYMBOL(FERGHUUL_INTERFACE, _catalogue)

#define FERGHUUL_WORK 8192u   /* words of `work` that a page or a text needs */
#define FERGHUUL_LINKS 32768u /* numbers of `links` that a call of FERGHUUL_KNUTH needs */
#define FERGHUUL_TEXT 663552u /* bytes of `output` that hold any text for DLX1 */
#define FERGHUUL_ENTRY 21u    /* bytes of an entry of the catalogue: three sides, the cells, then zeros */
#define FERGHUUL_UNFILLED 255u /* both bytes of an answer where the board is unfilled */

/* The engines. */
enum { FERGHUUL_FAST = 2, FERGHUUL_KNUTH = 3 };

/* Why a call is refused: the first of these that applies, in this order. */
enum {
    FERGHUUL_ACCEPTED = 0,
    FERGHUUL_TOO_MANY_PIECES = 2,       /* more than 16 */
    FERGHUUL_BAD_SIDE = 3,              /* of the board or a piece: not 1 to 8 */
    FERGHUUL_CELLS_OUTSIDE = 4,         /* not all in `bytes` */
    FERGHUUL_BAD_CELL = 5,              /* neither 0 nor 1 */
    FERGHUUL_PIECE_UNFILLED = 6,        /* a piece without a filled cell */
    FERGHUUL_TOO_MANY_COPIES = 8,       /* more than 128 */
    FERGHUUL_TOO_MANY_CELLS = 9,        /* more than 128 filled on the board */
    FERGHUUL_MIRRORED_NOT_TURNED = 10,  /* mirrored without turned */
    FERGHUUL_NO_SUCH_ENGINE = 11,       /* neither FERGHUUL_FAST nor FERGHUUL_KNUTH */
    FERGHUUL_WORK_TOO_SHORT = 12,       /* below FERGHUUL_WORK */
    FERGHUUL_LINKS_TOO_SHORT = 13,      /* below FERGHUUL_LINKS, with FERGHUUL_KNUTH */
    FERGHUUL_TOO_MANY_PLACEMENTS = 14,  /* more than 1,024 of all kinds together */
    FERGHUUL_TOO_MANY_LINKS = 15,       /* more than 4,096, with FERGHUUL_KNUTH */
    FERGHUUL_NO_TEXT = 17,              /* of a text alone: a kind has more than one copy, or the board no filled cell */
    FERGHUUL_OUTPUT_TOO_SHORT = 18,     /* of a text alone: for the whole of it */
    FERGHUUL_BAD_CELL_COUNT = 21        /* of the catalogue alone: not 1 to 6 */
};

/* A piece, or the board: its sides; how many copies, and its wood (neither is read of the board); where its cells begin in `bytes`. */
typedef struct {
    size_t a, b, c;
    uint32_t count;
    uint8_t wood;
    size_t start;
} ferghuul_record;

/* The bytes of one answer for this board: two for each cell of its box. No side is checked: where one is not 1 to 8, a page is refused, and the number
   says nothing. FERGHUUL_ANSWER evaluates its argument once. */
static inline size_t ferghuul_answer_size(ferghuul_record board) {
    return 2 * board.a * board.b * board.c;
}
#define FERGHUUL_ANSWER(board) (ferghuul_answer_size(board))

/* number: 0, or why the call was refused. written: how many answers. further: whether one follows. missing: whether no entry equals `last`. */
typedef struct {
    uint32_t number;
    size_t written;
    bool further, missing;
} ferghuul_answer;

/* number: 0, or why the call was refused. written: how many bytes were written: the whole text, or 0 where it is refused. */
typedef struct {
    uint32_t number;
    size_t written;
} ferghuul_text_answer;

/* A page of the list of packings: from entry `skip` on, or, where `behind` is true, from behind the entry whose bytes are `last`. An answer is
   two bytes (piece, copy) for each cell of the board's box. `answers`, `work` and `links` must not overlap each other or what is only read. */
ferghuul_answer ferghuul_page(
    const ferghuul_record *pieces, size_t piece_count, ferghuul_record board,
    const uint8_t *bytes, size_t byte_count,
    uint8_t engine, bool turned, bool mirrored,
    bool behind, uint64_t skip, const uint8_t *last, size_t last_bytes,
    uint8_t *answers, size_t answer_bytes,
    uint64_t *work, size_t words,
    uint16_t *links, size_t numbers);

/* The text that Knuth's DLX1 reads, at the start of `output`, with no byte 0 behind it. Its first line names the filled cells, b0, b1 and so
   on, then a bar and the kinds that have copies, p and the kind's number; each following line is one placement, its kind and its cells. Its exact
   covers are the packings that are listed where nothing is identified. `output` and `work` must not overlap each other or what is only read. */
ferghuul_text_answer ferghuul_dlx1(
    const ferghuul_record *pieces, size_t piece_count, ferghuul_record board,
    const uint8_t *bytes, size_t byte_count,
    uint8_t *output, size_t output_bytes,
    uint64_t *work, size_t words);

/* A page of the catalogue of all pieces of `n` cells, 1 to 6, that hang together by faces, from entry `skip` on: each piece once under turns, mirror
   pairs as two, as its smallest turned grid, ascending; 1, 1, 2, 8, 29 and 166 of them. As many entries as fit are written, FERGHUUL_ENTRY bytes
   each; `missing` is false. */
ferghuul_answer ferghuul_catalogue(uint32_t n, uint64_t skip, uint8_t *entries, size_t entry_bytes);

#ifdef __cplusplus
}
#endif
#endif
