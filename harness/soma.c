/* Soma from C, page by page, each page from behind the last answer of the page before: 11,520, 480 and 240 packings by both engines; its text for Knuth's
   DLX1, which `soma text` prints alone; and its pieces once more, from the catalogue. The header is held to the library's layout as well. Status 1 on a
   difference; c.sh compiles and runs it. */
#include "ferghuul.h"

#include <stdio.h>
#include <string.h>

#define CELLS 27
#define SIZE (2 * CELLS)
#define ROOM 100

/* The layout that the library was compiled with. */
typedef char record_size[sizeof(ferghuul_record) == 40 ? 1 : -1];
typedef char record_b[offsetof(ferghuul_record, b) == 8 ? 1 : -1];
typedef char record_c[offsetof(ferghuul_record, c) == 16 ? 1 : -1];
typedef char record_count[offsetof(ferghuul_record, count) == 24 ? 1 : -1];
typedef char record_wood[offsetof(ferghuul_record, wood) == 28 ? 1 : -1];
typedef char record_start[offsetof(ferghuul_record, start) == 32 ? 1 : -1];
typedef char answer_size[sizeof(ferghuul_answer) == 24 ? 1 : -1];
typedef char answer_written[offsetof(ferghuul_answer, written) == 8 ? 1 : -1];
typedef char answer_further[offsetof(ferghuul_answer, further) == 16 ? 1 : -1];
typedef char answer_missing[offsetof(ferghuul_answer, missing) == 17 ? 1 : -1];
typedef char text_size[sizeof(ferghuul_text_answer) == 16 ? 1 : -1];
typedef char text_written[offsetof(ferghuul_text_answer, written) == 8 ? 1 : -1];

static const char *const drawn[7] = {"1110", "111100", "111010", "110011", "11101000", "11100100", "11100010"};
static const size_t sides[7][3] = {{1, 2, 2}, {1, 2, 3}, {1, 2, 3}, {1, 2, 3}, {2, 2, 2}, {2, 2, 2}, {2, 2, 2}};

static uint8_t bytes[7 * FERGHUUL_ENTRY + CELLS];
static ferghuul_record pieces[7], board;
static uint64_t work[FERGHUUL_WORK];
static uint16_t links[FERGHUUL_LINKS];
static uint8_t answers[ROOM * SIZE], last[SIZE];
static uint8_t output[FERGHUUL_TEXT];

static void type_in(void) {
    size_t at = CELLS, i, j;
    memset(bytes, 1, CELLS);
    board.a = board.b = board.c = 3;
    for (i = 0; i < 7; i++) {
        ferghuul_record *piece = &pieces[i];
        piece->a = sides[i][0];
        piece->b = sides[i][1];
        piece->c = sides[i][2];
        piece->count = 1;
        piece->start = at;
        for (j = 0; drawn[i][j] != 0; j++) bytes[at++] = (uint8_t)(drawn[i][j] - '0');
    }
}

/* How many packings are listed; 0 where a call goes wrong. */
static size_t listed(uint8_t engine, bool turned, bool mirrored) {
    const size_t size = FERGHUUL_ANSWER(board);
    size_t count = 0;
    bool behind = false;
    for (;;) {
        const ferghuul_answer page = ferghuul_page(pieces, 7, board, bytes, sizeof bytes, engine, turned, mirrored, behind, 0, last, behind ? size : 0,
                                                   answers, sizeof answers, work, FERGHUUL_WORK, links, FERGHUUL_LINKS);
        if (page.number != FERGHUUL_ACCEPTED || page.missing || page.written > ROOM) return 0;
        count += page.written;
        if (!page.further) return count;
        memcpy(last, answers + (page.written - 1) * size, size);
        behind = true;
    }
}

/* The text with so much room. */
static ferghuul_text_answer text(size_t room) {
    return ferghuul_dlx1(pieces, 7, board, bytes, sizeof bytes, output, room, work, FERGHUUL_WORK);
}

/* Whether the text is whole where there is room for it and refused where a byte is wanting, and no other byte is changed. */
static bool is_text(void) {
    static const char first[] = "b0 b1 b2 b3 b4 b5 b6 b7 b8 b9 b10 b11 b12 b13 b14 b15 b16 b17 b18 b19 b20 b21 b22 b23 b24 b25 b26 | p0 p1 p2 p3 p4 p5 p6\n";
    const size_t length = 11808;
    ferghuul_text_answer whole, none;
    size_t i;
    memset(output, 9, sizeof output);
    none = text(length - 1);
    if (none.number != FERGHUUL_OUTPUT_TOO_SHORT || none.written != 0 || output[0] != 9) return false;
    whole = text(length);
    if (whole.number != FERGHUUL_ACCEPTED || whole.written != length || memcmp(output, first, sizeof first - 1) != 0) return false;
    for (i = length; i < sizeof output; i++)
        if (output[i] != 9) return false;
    pieces[0].count = 2;
    none = text(sizeof output);
    pieces[0].count = 1;
    return none.number == FERGHUUL_NO_TEXT && none.written == 0;
}

/* Whether the catalogues have 1, 1, 2, 8, 29 and 166 entries, and none of another number; and whether Soma's pieces are among them: the last of three cells,
   and all of four but the first two, which are boxes. They are lent where the entries stand, with the board's cells behind them. */
static bool is_catalogue(void) {
    static const size_t wanted[8] = {0, 1, 1, 2, 8, 29, 166, 0};
    static uint8_t entries[167 * FERGHUUL_ENTRY];
    ferghuul_answer page;
    uint32_t n;
    size_t i;
    for (n = 0; n < 8; n++) {
        const bool is_number = wanted[n] > 0;
        memset(entries, 9, sizeof entries);
        page = ferghuul_catalogue(n, 0, entries, sizeof entries);
        if (page.number != (is_number ? FERGHUUL_ACCEPTED : FERGHUUL_BAD_CELL_COUNT) || page.written != wanted[n]) return false;
        if (page.further || page.missing) return false;
        for (i = wanted[n] * FERGHUUL_ENTRY; i < sizeof entries; i++)
            if (entries[i] != 9) return false;
        page = ferghuul_catalogue(n, 0, NULL, 0);
        if (page.written != 0 || page.further != is_number) return false;
    }
    memset(bytes, 1, sizeof bytes);
    board.start = 7 * FERGHUUL_ENTRY;
    if (ferghuul_catalogue(3, 1, bytes, FERGHUUL_ENTRY).written != 1) return false;
    if (ferghuul_catalogue(4, 2, bytes + FERGHUUL_ENTRY, 6 * FERGHUUL_ENTRY).written != 6) return false;
    for (i = 0; i < 7; i++) {
        const size_t at = i * FERGHUUL_ENTRY;
        pieces[i].a = bytes[at];
        pieces[i].b = bytes[at + 1];
        pieces[i].c = bytes[at + 2];
        pieces[i].start = at + 3;
    }
    return listed(FERGHUUL_FAST, true, false) == 480;
}

int main(int argc, char **argv) {
    static const size_t wanted[3] = {11520, 480, 240};
    int failed = 0, identified;
    type_in();
    if (argc == 2 && strcmp(argv[1], "text") == 0) {
        const ferghuul_text_answer whole = text(sizeof output);
        return whole.number != FERGHUUL_ACCEPTED || fwrite(output, 1, whole.written, stdout) != whole.written;
    }
    if (FERGHUUL_ANSWER(board) != SIZE || FERGHUUL_ANSWER(pieces[1]) != 12) failed = 1;
    if (!is_text()) failed = 1;
    for (identified = 0; identified < 3; identified++) {
        const size_t fast = listed(FERGHUUL_FAST, identified > 0, identified > 1);
        const size_t knuth = listed(FERGHUUL_KNUTH, identified > 0, identified > 1);
        printf("%lu %lu\n", (unsigned long)fast, (unsigned long)knuth);
        if (fast != wanted[identified] || knuth != wanted[identified]) failed = 1;
    }
    memset(last, 9, SIZE);
    if (!ferghuul_page(pieces, 7, board, bytes, sizeof bytes, FERGHUUL_FAST, false, false, true, 0, last, SIZE,
                       answers, sizeof answers, work, FERGHUUL_WORK, NULL, 0).missing) failed = 1;
    if (ferghuul_page(pieces, 7, board, bytes, sizeof bytes, FERGHUUL_KNUTH, false, false, false, 0, NULL, 0,
                      answers, sizeof answers, work, FERGHUUL_WORK, NULL, 0).number != FERGHUUL_LINKS_TOO_SHORT) failed = 1;
    if (!is_catalogue()) failed = 1;
    puts(failed ? "soma: DIFFERS" : "soma: as it should be");
    return failed;
}
