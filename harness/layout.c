/* Record and answer of include/ferghuul.h. The wood of a record lies in what was padding, so records made before it have the same size and the same
   fields in the same places, and a zeroed one has wood 0; so does `missing` of an answer, behind `further`. Compiling this holds the
   layout (C11). Linked with the static library, it takes an engine, an identification and two woods, and prints the listing of two
   cells packed by two pieces of one cell, one copy each, in these woods; before that it holds the page of records made as they were
   before to that of records with wood 0, and afterwards it asks for the page behind each entry and behind what is none. Status 1 on
   a difference. layout.sh does both, and holds the listings to the model. */
#include "ferghuul.h"

#include <stdio.h>
#include <stdlib.h>
#include <string.h>

typedef ferghuul_record Record;
typedef struct { size_t a, b, c; uint32_t count; size_t start; } RecordBefore;
typedef ferghuul_answer Answer;
typedef struct { uint32_t number; size_t written; bool further; } AnswerBefore;
typedef ferghuul_text_answer TextAnswer;

_Static_assert(sizeof(Record) == 40 && sizeof(RecordBefore) == 40, "a record has 40 bytes");
_Static_assert(_Alignof(Record) == _Alignof(RecordBefore), "the alignment");
_Static_assert(offsetof(Record, a) == 0 && offsetof(RecordBefore, a) == 0, "a");
_Static_assert(offsetof(Record, b) == 8 && offsetof(RecordBefore, b) == 8, "b");
_Static_assert(offsetof(Record, c) == 16 && offsetof(RecordBefore, c) == 16, "c");
_Static_assert(offsetof(Record, count) == 24 && offsetof(RecordBefore, count) == 24, "count");
_Static_assert(offsetof(Record, wood) == 28, "wood");
_Static_assert(offsetof(Record, start) == 32 && offsetof(RecordBefore, start) == 32, "start");
_Static_assert(sizeof(Answer) == 24 && sizeof(AnswerBefore) == 24, "an answer has 24 bytes");
_Static_assert(_Alignof(Answer) == _Alignof(AnswerBefore), "the alignment of an answer");
_Static_assert(offsetof(Answer, number) == 0 && offsetof(AnswerBefore, number) == 0, "number");
_Static_assert(offsetof(Answer, written) == 8 && offsetof(AnswerBefore, written) == 8, "written");
_Static_assert(offsetof(Answer, further) == 16 && offsetof(AnswerBefore, further) == 16, "further");
_Static_assert(offsetof(Answer, missing) == 17, "missing");
_Static_assert(sizeof(TextAnswer) == 16, "what is answered of a text has 16 bytes");
_Static_assert(offsetof(TextAnswer, number) == 0 && offsetof(TextAnswer, written) == 8, "number and written of a text");

static uint64_t work[FERGHUUL_WORK];
static uint16_t links[FERGHUUL_LINKS];

/* Both cells of the board, then two pieces of one cell, one copy each. */
static const uint8_t cells[4] = {1, 1, 1, 1};

typedef struct { Answer answer; uint8_t answers[12]; } Page;

/* The page from the start, or behind `last` where it is not null; then the skip is not read. */
static Page page_from(const uint8_t *last, size_t size, const Record pieces[2], Record board, uint8_t engine, bool turned) {
    Page page;
    memset(&page, 0, sizeof page);
    memset(page.answers, 170, sizeof page.answers);
    page.answer = ferghuul_page(pieces, 2, board, cells, sizeof cells, engine, turned, false,
                                last != NULL, last != NULL ? 77 : 0, last, size,
                                page.answers, sizeof page.answers, work, FERGHUUL_WORK, links, FERGHUUL_LINKS);
    return page;
}

static Page page(const Record pieces[2], Record board, uint8_t engine, bool turned) {
    return page_from(NULL, 0, pieces, board, engine, turned);
}

static Record in_wood(size_t length, uint32_t count, uint8_t wood, size_t start) {
    Record record;
    memset(&record, 0, sizeof record);
    record.a = record.b = 1;
    record.c = length;
    record.count = count;
    record.wood = wood;
    record.start = start;
    return record;
}

/* A record as callers made it before: zeroed, then its five fields. Its bytes are a Record. */
static Record from_before(size_t length, uint32_t count, size_t start) {
    RecordBefore before;
    Record record;
    memset(&before, 0, sizeof before);
    before.a = before.b = 1;
    before.c = length;
    before.count = count;
    before.start = start;
    memcpy(&record, &before, sizeof record);
    return record;
}

static bool same(Page one, Page other) {
    return one.answer.number == other.answer.number && one.answer.written == other.answer.written
        && one.answer.further == other.answer.further && one.answer.missing == other.answer.missing
        && memcmp(one.answers, other.answers, sizeof one.answers) == 0;
}

static int wrong = 0;

static void expect(bool holds, const char *what) {
    if (!holds) {
        fprintf(stderr, "layout: %s\n", what);
        wrong = 1;
    }
}

/* Behind entry i of a list stands what follows it; behind what is no entry nothing, and this is told. */
static void hold_behind(const Page *list, const Record pieces[2], Record board, uint8_t engine, bool turned) {
    size_t total = list->answer.written;
    for (size_t entry = 0; entry < total; entry++) {
        Page rest = page_from(list->answers + 4 * entry, 4, pieces, board, engine, turned);
        size_t ahead = total - entry - 1;
        expect(rest.answer.number == 0 && rest.answer.written == ahead && !rest.answer.further && !rest.answer.missing,
               "behind an entry");
        expect(memcmp(rest.answers, list->answers + 4 * (entry + 1), 4 * ahead) == 0, "another entry behind an entry");
    }
    uint8_t damaged[5];
    memcpy(damaged, list->answers, 4);
    damaged[4] = 0;
    for (size_t size = 0; size <= 5; size++) {
        damaged[3] = size == 4 ? 9 : list->answers[3];
        Page none = page_from(damaged, size, pieces, board, engine, turned);
        expect(none.answer.number == 0 && none.answer.written == 0 && !none.answer.further && none.answer.missing,
               "behind what is no entry");
    }
}

int main(int argc, char **argv) {
    if (argc != 5) {
        fputs("layout fast|knuth none|turned WOOD WOOD\n", stderr);
        return 2;
    }
    uint8_t engine = strcmp(argv[1], "knuth") == 0 ? FERGHUUL_KNUTH : FERGHUUL_FAST;
    bool turned = strcmp(argv[2], "turned") == 0;
    uint8_t one = (uint8_t)atoi(argv[3]), other = (uint8_t)atoi(argv[4]);

    Record zeroed;
    memset(&zeroed, 0, sizeof zeroed);
    expect(zeroed.wood == 0, "a zeroed record has a wood");
    const Record before[2] = {from_before(1, 1, 2), from_before(1, 1, 3)};
    const Record zero[2] = {in_wood(1, 1, 0, 2), in_wood(1, 1, 0, 3)};
    const Record board = in_wood(2, 0, 0, 0);
    Page without = page(before, from_before(2, 0, 0), engine, turned);
    expect(without.answer.number == 0, "records without a wood are refused");
    expect(same(without, page(zero, board, engine, turned)), "wood 0 is not as no wood");

    const Record pieces[2] = {in_wood(1, 1, one, 2), in_wood(1, 1, other, 3)};
    Page found = page(pieces, board, engine, turned);
    expect(same(found, page(pieces, in_wood(2, 0, one, 0), engine, turned)), "the board's wood is read");
    expect(same(found, page(pieces, in_wood(2, 0, 255, 0), engine, turned)), "the board's wood 255 is read");
    expect(one != other || same(found, without), "one wood all through is not as no wood");
    expect(found.answer.number == 0 && !found.answer.further && !found.answer.missing, "not the whole list");
    hold_behind(&found, pieces, board, engine, turned);
    for (size_t entry = 0; entry < found.answer.written; entry++) {
        const uint8_t *bytes = found.answers + 4 * entry;
        printf("%zu\t%d.%d %d.%d\n", entry, bytes[0], bytes[1], bytes[2], bytes[3]);
    }
    printf("packings\t%zu\n", found.answer.written);
    return wrong;
}
