/* Making and reading frames. */
#include "blentovar.h"
#include "checks.h"
#include "lent.h"

/* Where 6 is expected no code word is near, as the second program finds too. */
#define MADE_UP_BYTES "2 3 4 5 6 7 8 9 10 11 12 13 14 15 16 17 18 19 20 21 22 23 24 25 26 27 28 29 30 31"

/* In a frame that is rightly encoded the first 99 bits are the message, which begins
 * with the lead; the others stand as the second program writes them. */

/* House 65534, poll 32769, counter 81985529216486895, all but the first byte, which
 * begins with the lead. */
#define FIELDS "255 208 0 32 36 104 172 241 53 121 189"
#define PARITY_BYTES "62 23 78 92 10 21 242 83 104 179 87 65 161 203 154 152"
#define AFTER_BYTE_0 FIELDS " 247 241 9 13 " PARITY_BYTES

/* The same with the lead 000, as version 0.5 made it. */
#define OLD_AFTER_BYTE_0 FIELDS " 226 52 100 77 96 169 123 238 109 142 83 130 211 131 83 244 40 184 124 70"

/* House 0, poll 0, counter 0; after this parity comes the byte that ends with the pad. */
#define ZEROS_PARITY "21 197 109 64 94 190 53 178 103 155 161 209 187 48 4 181 137 115 230"
#define ZEROS_FRAME "160 0*11 " ZEROS_PARITY " 222"

/* House 65535, poll 65535, counter 2^64 - 1. */
#define ONES_FRAME "191 255*11 247 40 146 42 140 76 29 180 60 241 191 32 228 181 87 183 5 203 60 114"

struct make_row {
    uint16_t house, poll;
    uint64_t counter;
    const char *frame;
    uint32_t number;
    const char *done;
};

static const struct make_row make_rows[] = {
    {0, 0, 0, "7*32", 0, ZEROS_FRAME},
    {65535, 65535, UINT64_MAX, "0*32", 0, ONES_FRAME},
    {65534, 32769, 81985529216486895, "255*32", 0, "191 " AFTER_BYTE_0},
    {1, 2, 3, "7*31", 9, NULL},
    {1, 2, 3, "7*33", 9, NULL},
    {1, 2, 3, "", 9, NULL},
    {1, 2, 3, NULL, 9, NULL},
};

static int make_as_expected(const struct make_row *row)
{
    static struct lent8 frame;
    lend8(&frame, row->frame);
    if (row->done != NULL) {
        expect8(&frame, row->done);
    }
    uint32_t number = blentovar_make_frame(row->house, row->poll, row->counter,
                                           frame.places, frame.length);
    return number == row->number && as_expected8(&frame);
}

struct read_row {
    const char *frame;
    uint32_t number;
    uint16_t house, poll;
    uint64_t counter;
    size_t wrong;
};

static const struct read_row read_rows[] = {
    {ZEROS_FRAME, 0, 0, 0, 0, 0},
    {"160 0*4 129 0*6 " ZEROS_PARITY " 222", 0, 0, 0, 0, 2},
    {"95 255 254 0*9 " ZEROS_PARITY " 222", 0, 0, 0, 0, 23},
    {ONES_FRAME, 0, 65535, 65535, UINT64_MAX, 0},
    {"191 " AFTER_BYTE_0, 0, 65534, 32769, 81985529216486895, 0},
    {"191 " FIELDS " 246 247 9 141 " PARITY_BYTES, 0, 65534, 32769, 81985529216486895, 4},
    /* a lead that is right once it is mended, received as 111, 000 and 010 */
    {"255 " AFTER_BYTE_0, 0, 65534, 32769, 81985529216486895, 1},
    {"31 " AFTER_BYTE_0, 0, 65534, 32769, 81985529216486895, 2},
    {"95 " AFTER_BYTE_0, 0, 65534, 32769, 81985529216486895, 3},
    {"160 0*11 " ZEROS_PARITY, 9, 0, 0, 0, 0},
    {ZEROS_FRAME " 0", 9, 0, 0, 0, 0},
    {"", 9, 0, 0, 0, 0},
    {NULL, 9, 0, 0, 0, 0},
    {"160 0*11 " ZEROS_PARITY " 223", 10, 0, 0, 0, 0},
    {"95 255*2 0*9 " ZEROS_PARITY " 222", 6, 0, 0, 0, 0},
    {"161 " MADE_UP_BYTES " 32", 6, 0, 0, 0, 0},
    /* the seven other leads, rightly encoded */
    {"31 " OLD_AFTER_BYTE_0, 11, 0, 0, 0, 0},
    {"63 " FIELDS " 230 95 210 167 217 112 138 203 140 9 115 237 94 38 7 208 85 162 29 128", 11, 0, 0, 0, 0},
    {"95 " FIELDS " 234 227 9 152 19 26 153 165 174 128 19 93 200 201 251 188 210 140 191 202", 11, 0, 0, 0, 0},
    {"127 " FIELDS " 238 136 191 114 170 195 104 128 79 7 51 50 69 108 175 152 175 150 222 12", 11, 0, 0, 0, 0},
    {"159 " FIELDS " 243 154 191 231 135 206 191 121 235 146 210 60 229 22 3 101 220 209 251 94", 11, 0, 0, 0, 0},
    {"223 " FIELDS " 251 77 210 50 244 125 93 50 40 156 146 227 254 92 171 45 38 229 56 210", 11, 0, 0, 0, 0},
    {"255 " FIELDS " 255 38 100 216 77 164 172 23 201 27 178 140 115 249 255 9 91 255 89 20", 11, 0, 0, 0, 0},
    /* the first of them again, received with the lead 101 */
    {"191 " OLD_AFTER_BYTE_0, 11, 0, 0, 0, 0},
    /* a line stuck at zero, with up to 23 bits changed */
    {"0*32", 11, 0, 0, 0, 0},
    {"0*5 129 0*26", 11, 0, 0, 0, 0},
    {"255*2 254 0*29", 11, 0, 0, 0, 0},
    {"0*28 1 255*2 252", 11, 0, 0, 0, 0},
    /* a line stuck at one, with up to 23 bits changed besides the pad */
    {"255*31 254", 11, 0, 0, 0, 0},
    {"254 255*30 254", 11, 0, 0, 0, 0},
    {"0*2 1 255*28 254", 11, 0, 0, 0, 0},
    {"255*28 254 0*2 2", 11, 0, 0, 0, 0},
    /* either line with changes that make its lead 101 */
    {"160 0*31", 11, 0, 0, 0, 0},
    {"160 0*9 255*2 31 0*19", 11, 0, 0, 0, 0},
    {"191 255*30 254", 11, 0, 0, 0, 0},
    {"191 0*2 192 255*27 254", 11, 0, 0, 0, 0},
    /* two faults */
    {ZEROS_FRAME " 1", 9, 0, 0, 0, 0},
    {"161 " MADE_UP_BYTES " 32 0", 9, 0, 0, 0, 0},
    {"0*5", 9, 0, 0, 0, 0},
    {"0*31", 9, 0, 0, 0, 0},
    {"0*33", 9, 0, 0, 0, 0},
    {"161 " MADE_UP_BYTES " 33", 10, 0, 0, 0, 0},
    {"0*31 1", 10, 0, 0, 0, 0},
    {"191 255*31", 10, 0, 0, 0, 0},
    {"255*32", 10, 0, 0, 0, 0},
    {"1 " MADE_UP_BYTES " 32", 6, 0, 0, 0, 0},
    {"225 " MADE_UP_BYTES " 32", 6, 0, 0, 0, 0},
    {"255*3 0*29", 6, 0, 0, 0, 0},
    /* three faults */
    {"255*31", 9, 0, 0, 0, 0},
    {"255*33", 9, 0, 0, 0, 0},
    {"0*30 1", 9, 0, 0, 0, 0},
    {"0*31 1 1", 9, 0, 0, 0, 0},
    {"1 " MADE_UP_BYTES " 33", 10, 0, 0, 0, 0},
    {"225 " MADE_UP_BYTES " 33", 10, 0, 0, 0, 0},
};

static int read_as_expected(const struct read_row *row)
{
    static struct lent8 frame;
    lend8(&frame, row->frame);
    blentovar_read_answer answer = blentovar_read_frame(frame.places, frame.length);
    blentovar_read_answer expected = {row->number, row->house, row->poll, row->counter, row->wrong};
    return SAME_BYTES(answer, expected) && as_expected8(&frame);
}

static void check_make(void)
{
    for (size_t i = 0; i < sizeof make_rows / sizeof *make_rows; i++) {
        report("make_frame", i, make_as_expected(&make_rows[i]));
    }
}

static void check_read(void)
{
    for (size_t i = 0; i < sizeof read_rows / sizeof *read_rows; i++) {
        report("read_frame", i, read_as_expected(&read_rows[i]));
    }
}

void check_frames(void)
{
    check_make();
    check_read();
}
