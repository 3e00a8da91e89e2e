/* Looking at, reading and writing poll books. */
#include "blentovar.h"
#include "checks.h"
#include "lent.h"

#define MARK "80 79 76 76"
/* Count and distance as texts of four bytes. */
#define TRAILER(count, distance) MARK " " count " " distance " 0*4"

#define NO_FRAMES TRAILER("0*4", "0*4")
#define ONE_FRAME TRAILER("0*3 1", "0*3 32")
#define TWO_FRAMES TRAILER("0*3 2", "0*3 64")
/* With eight frames the distance needs a second byte, with 256 the count too. */
#define EIGHT_FRAMES TRAILER("0*3 8", "0*2 1 0")
#define FRAMES_256 TRAILER("0*2 1 0", "0*2 32 0")
#define FRAMES_1000 TRAILER("0*2 3 232", "0*2 125 0")
#define FRAMES_1001 TRAILER("0*2 3 233", "0*2 125 32")
/* 32 times 2^27 is 0 in 32 bits. */
#define WRAPPING TRAILER("8 0*3", "0*4")

#define LARGEST ((size_t)-1)
/* 32 times this is 0 in 64 bits. */
#define WRAPPING_FRAME ((size_t)1 << 59)

struct look_row {
    const char *book;
    uint32_t number;
    size_t count;
};

static const struct look_row look_rows[] = {
    {NO_FRAMES, 0, 0},
    {"7*32 " ONE_FRAME, 0, 1},
    {"7*64 " TWO_FRAMES, 0, 2},
    {"7*256 " EIGHT_FRAMES, 0, 8},
    {"7*8192 " FRAMES_256, 0, 256},
    {"7*32000 " FRAMES_1000, 0, 1000},
    /* what stands before the first frame is not looked at */
    {"9*33 " NO_FRAMES, 0, 0},
    {"9*5 7*64 " TWO_FRAMES, 0, 2},
    {FRAMES_1001 " 7*32 " ONE_FRAME, 0, 1},
    {NULL, 13, 0},
    {"", 13, 0},
    {"80 79 76 76 0*11", 13, 0},
    {"79 76 76 0*12", 13, 0},
    {NO_FRAMES " 0", 13, 0},
    {"81 79 76 76 0*12", 13, 0},
    {"80 78 76 76 0*12", 13, 0},
    {"80 79 77 76 0*12", 13, 0},
    {"80 79 76 204 0*12", 13, 0},
    {"76 76 79 80 0*12", 13, 0},
    {MARK " 0*8 1 0*3", 13, 0},
    {MARK " 0*9 1 0*2", 13, 0},
    {MARK " 0*10 1 0", 13, 0},
    {MARK " 0*11 1", 13, 0},
    {"7*32032 " FRAMES_1001, 14, 0},
    {"7*64 " TRAILER("0*3 2", "0*3 63"), 14, 0},
    {"7*96 " TRAILER("0*3 2", "0*3 96"), 14, 0},
    {"7*32 " TRAILER("0*4", "0*3 32"), 14, 0},
    {ONE_FRAME, 14, 0},
    {"7*31 " ONE_FRAME, 14, 0},
    {"7*32 " TWO_FRAMES, 14, 0},
    {"7*31999 " FRAMES_1000, 14, 0},
    {WRAPPING, 14, 0},
    {"7*32 " TRAILER("8 0*2 1", "0*3 32"), 14, 0},
    {"7*32 " TRAILER("1 0*3", "32 0*3"), 14, 0},
    {"7*32 " TRAILER("255*4", "255*3 224"), 14, 0},
    /* two faults */
    {"81 79 76 76 0*2 3 233 0*8", 13, 0},
    {"7*31 81 79 76 76 0*3 1 0*3 32 0*4", 13, 0},
    {MARK " 8 0*7 0*3 1", 13, 0},
    {"7*64 " MARK " 0*3 2 0*3 63 1 0*3", 13, 0},
    {"81 79 76 76 0*11 1", 13, 0},
    {"7*32000 " FRAMES_1001, 14, 0},
    /* three faults */
    {"81 79 76 76 8 0*7 0*3 1", 13, 0},
    {"7*64 " MARK " 0*3 2 0*3 65 0*3 1", 13, 0},
    {TRAILER("255*4", "255*4"), 14, 0},
};

static int look_as_expected(const struct look_row *row)
{
    static struct lent8 book;
    lend8(&book, row->book);
    blentovar_look_answer answer = blentovar_look_at_book(book.places, book.length);
    blentovar_look_answer expected = {row->number, 0, row->count};
    return SAME_BYTES(answer, expected) && as_expected8(&book);
}

struct read_row {
    const char *book;
    size_t i;
    uint32_t number;
    size_t offset, length;
};

static const struct read_row read_rows[] = {
    {"7*32 " ONE_FRAME, 0, 0, 0, 32},
    {"7*64 " TWO_FRAMES, 0, 0, 0, 32},
    {"7*64 " TWO_FRAMES, 1, 0, 32, 32},
    {"7*256 " EIGHT_FRAMES, 7, 0, 224, 32},
    {"7*8192 " FRAMES_256, 255, 0, 8160, 32},
    {"7*32000 " FRAMES_1000, 0, 0, 0, 32},
    {"7*32000 " FRAMES_1000, 999, 0, 31968, 32},
    /* the offset is counted from the first byte lent */
    {"9*1 7*64 " TWO_FRAMES, 0, 0, 1, 32},
    {"9*5 7*64 " TWO_FRAMES, 1, 0, 37, 32},
    {"9*32 7*32 " ONE_FRAME, 0, 0, 32, 32},
    {"9*16 7*32000 " FRAMES_1000, 999, 0, 31984, 32},
    {NO_FRAMES, 0, 15, 0, 0},
    {NO_FRAMES, WRAPPING_FRAME, 15, 0, 0},
    {NO_FRAMES, LARGEST, 15, 0, 0},
    {"9*64 " NO_FRAMES, 0, 15, 0, 0},
    {"7*64 " TWO_FRAMES, 2, 15, 0, 0},
    {"7*64 " TWO_FRAMES, (size_t)1 << 32, 15, 0, 0},
    {"7*64 " TWO_FRAMES, WRAPPING_FRAME, 15, 0, 0},
    {"7*64 " TWO_FRAMES, WRAPPING_FRAME + 1, 15, 0, 0},
    {"7*64 " TWO_FRAMES, LARGEST, 15, 0, 0},
    {"9*64 7*64 " TWO_FRAMES, 2, 15, 0, 0},
    {"9*64 7*64 " TWO_FRAMES, LARGEST, 15, 0, 0},
    {"7*32000 " FRAMES_1000, 1000, 15, 0, 0},
    {NULL, 0, 13, 0, 0},
    {"", 0, 13, 0, 0},
    {"79 76 76 0*12", 0, 13, 0, 0},
    {"7*32 81 79 76 76 0*3 1 0*3 32 0*4", 0, 13, 0, 0},
    {"7*32 " MARK " 0*3 1 0*3 32 0*3 1", 0, 13, 0, 0},
    {"7*32032 " FRAMES_1001, 0, 14, 0, 0},
    {"7*64 " TRAILER("0*3 2", "0*3 63"), 0, 14, 0, 0},
    {"7*63 " TWO_FRAMES, 1, 14, 0, 0},
    {WRAPPING, 0, 14, 0, 0},
    /* two faults */
    {"81 79 76 76 8 0*11", 0, 13, 0, 0},
    {"7*32 81 79 76 76 0*3 1 0*3 32 0*4", 1, 13, 0, 0},
    {MARK " 0*11 1", LARGEST, 13, 0, 0},
    {NULL, LARGEST, 13, 0, 0},
    {"7*63 " TWO_FRAMES, 2, 14, 0, 0},
    {"7*64 " TRAILER("0*3 2", "0*3 63"), WRAPPING_FRAME, 14, 0, 0},
    {"7*32032 " FRAMES_1001, 1001, 14, 0, 0},
    {WRAPPING, LARGEST, 14, 0, 0},
    /* three faults */
    {"81 79 76 76 8 0*11", LARGEST, 13, 0, 0},
    {"7*63 " MARK " 0*3 2 0*3 64 0*3 1", 2, 13, 0, 0},
};

static int read_as_expected(const struct read_row *row)
{
    static struct lent8 book;
    lend8(&book, row->book);
    blentovar_part_answer answer = blentovar_read_book(book.places, book.length, row->i);
    blentovar_part_answer expected = {row->number, 0, row->offset, row->length};
    return SAME_BYTES(answer, expected) && as_expected8(&book);
}

/* Where done is absent the book is to be as lent. */
struct write_row {
    const char *frames, *book;
    uint32_t number;
    const char *done;
};

static const struct write_row write_rows[] = {
    {"", "7*16", 0, NO_FRAMES},
    {NULL, "7*16", 0, NO_FRAMES},
    {"1*32", "7*48", 0, "1*32 " ONE_FRAME},
    {"1*31 2 3*31 4", "255*80", 0, "1*31 2 3*31 4 " TWO_FRAMES},
    {"0 1*127 2*127 3", "7*272", 0, "0 1*127 2*127 3 " EIGHT_FRAMES},
    {"4*8000 5*192", "7*8208", 0, "4*8000 5*192 " FRAMES_256},
    {"0*16000 6*15968 5*31 4", "7*32016", 0, "0*16000 6*15968 5*31 4 " FRAMES_1000},
    /* frames that reading refuses */
    {"255*32", "7*48", 0, "255*32 " ONE_FRAME},
    {"7*16 " FRAMES_1001, "7*48", 0, "7*16 " FRAMES_1001 " " ONE_FRAME},
    {"1*32032", "7*32048", 14, NULL},
    {"1*1", "7*17", 9, NULL},
    {"1*31", "7*47", 9, NULL},
    {"1*33", "7*49", 9, NULL},
    {"1*31999", "7*32015", 9, NULL},
    {"", "7*15", 4, NULL},
    {"", "7*17", 4, NULL},
    {"", "7*48", 4, NULL},
    {"", "", 4, NULL},
    {NULL, NULL, 4, NULL},
    {"1*32", "7*47", 4, NULL},
    {"1*32", "7*49", 4, NULL},
    {"1*32", "7*16", 4, NULL},
    {"1*32", "7*32", 4, NULL},
    {"1*32", "7*80", 4, NULL},
    {"1*32", "", 4, NULL},
    {"1*32", NULL, 4, NULL},
    {"1*32000", "7*32015", 4, NULL},
    {"1*32000", "7*32017", 4, NULL},
    {"1*32000", "7*32000", 4, NULL},
    {"1*32000", NULL, 4, NULL},
    /* two faults */
    {"1*32001", "7*32017", 14, NULL},
    {"1*32031", "7*32047", 14, NULL},
    {"1*32032", "7*32016", 14, NULL},
    {"1*32032", "7*32047", 14, NULL},
    {"1*32032", NULL, 14, NULL},
    {"1*33", "7*48", 9, NULL},
    {"1*33", "7*80", 9, NULL},
    {"1*31", NULL, 9, NULL},
    {"1*31999", "7*32016", 9, NULL},
    /* three faults */
    {"1*32001", "7*32016", 14, NULL},
    {"1*32001", "7*15", 14, NULL},
    {"1*32001", NULL, 14, NULL},
};

static int write_as_expected(const struct write_row *row)
{
    static struct lent8 frames, book;
    lend8(&frames, row->frames);
    lend8(&book, row->book);
    if (row->done != NULL) {
        expect8(&book, row->done);
    }
    uint32_t number = blentovar_write_book(frames.places, frames.length, book.places, book.length);
    return number == row->number && as_expected8(&frames) && as_expected8(&book);
}

static void check_look(void)
{
    for (size_t i = 0; i < sizeof look_rows / sizeof *look_rows; i++) {
        report("look_at_book", i, look_as_expected(&look_rows[i]));
    }
}

static void check_read(void)
{
    for (size_t i = 0; i < sizeof read_rows / sizeof *read_rows; i++) {
        report("read_book", i, read_as_expected(&read_rows[i]));
    }
}

static void check_write(void)
{
    for (size_t i = 0; i < sizeof write_rows / sizeof *write_rows; i++) {
        report("write_book", i, write_as_expected(&write_rows[i]));
    }
}

void check_books(void)
{
    check_look();
    check_read();
    check_write();
}
