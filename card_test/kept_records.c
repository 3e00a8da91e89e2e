/* Open, Splice and Decode kept. Records are of m 4 and t 3 where nothing else is said. */
#include "blentovar.h"
#include "checks.h"
#include "lent.h"

#define LARGEST ((size_t)-1)

/* What is not told of bits and sums is 0. */
struct record_text {
    size_t m, t;
    const char *bits, *sums;
};

static const struct record_text empty = {4, 3, "0*15", "0*3"};
/* {0,1,2,3}, near to no code word. */
static const struct record_text far = {4, 3, "1*4", "15 15 1"};
/* {0,1,2,4}, three places from a code word; 1 + a + a^2 + a^4 is 4, and so on. */
static const struct record_text near = {4, 3, "1*3 0 1", "4 10 6"};

static blentovar_kept record_of(const struct record_text *text)
{
    blentovar_kept record;
    uint16_t bits[BLENTOVAR_BITS];
    memset(&record, 0, sizeof record);
    record.m = text->m;
    record.t = text->t;
    size_t length = put_text(bits, BLENTOVAR_BITS, text->bits);
    for (size_t i = 0; i < length; i++) {
        record.bits[i] = (uint8_t)bits[i];
    }
    put_text(record.sums, BLENTOVAR_SUMS, text->sums);
    return record;
}

/* What is handed in holds something in the fields that come back as 0. */
static blentovar_kept handed_in(const struct record_text *text)
{
    blentovar_kept record = record_of(text);
    record.zero_after_bits = UINT8_MAX;
    record.zero_after_sums = UINT16_MAX;
    return record;
}

/* In rows of Open and Splice, the buffer and the place that come with 5, and zeros where another number stands. */
struct open_row {
    size_t m, t;
    const char *word;
    uint32_t number, buffer;
    size_t place;
    struct record_text record;
};

static const struct open_row open_rows[] = {
    {4, 3, "0*15", 0, 0, 0, {4, 3, "", ""}},
    {4, 3, "1*4 0*11", 0, 0, 0, {4, 3, "1*4", "15 15 1"}},
    {4, 3, "1*3 0 1 0*10", 0, 0, 0, {4, 3, "1*3 0 1", "4 10 6"}},
    {4, 2, "0*3 1 0*11", 0, 0, 0, {4, 2, "0*3 1", "8 10"}},
    {3, 1, "1*7", 0, 0, 0, {3, 1, "1*7", ""}},
    {10, 255, "1*1023", 0, 0, 0, {10, 255, "1*1023", ""}},
    {10, 255, "0*1023", 0, 0, 0, {10, 255, "", ""}},
    /* 1 at place 0 adds 1 to each sum */
    {10, 255, "0 1*1022", 0, 0, 0, {10, 255, "0 1*1022", "1*255"}},
    {2, 1, "1*3", 1, 0, 0, {0, 0, "", ""}},
    {11, 1, "1*1023", 1, 0, 0, {0, 0, "", ""}},
    {LARGEST, 3, "1*15", 1, 0, 0, {0, 0, "", ""}},
    {4, 4, "1*15", 2, 0, 0, {0, 0, "", ""}},
    {7, 8, "1*127", 2, 0, 0, {0, 0, "", ""}},
    {10, 256, "1*1023", 2, 0, 0, {0, 0, "", ""}},
    {4, 3, "1*14", 3, 0, 0, {0, 0, "", ""}},
    {4, 3, "1*16", 3, 0, 0, {0, 0, "", ""}},
    {4, 3, "", 3, 0, 0, {0, 0, "", ""}},
    {4, 3, NULL, 3, 0, 0, {0, 0, "", ""}},
    {4, 3, "2 1*14", 5, 0, 0, {0, 0, "", ""}},
    {4, 3, "1*14 255", 5, 0, 14, {0, 0, "", ""}},
    {4, 3, "1*7 2 1 3 1*5", 5, 0, 7, {0, 0, "", ""}},
    {10, 255, "0*1022 2", 5, 0, 1022, {0, 0, "", ""}},
    /* two faults */
    {2, 0, "1*15", 1, 0, 0, {0, 0, "", ""}},
    {4, 4, "1*14", 2, 0, 0, {0, 0, "", ""}},
    {4, 3, "1*15 2", 3, 0, 0, {0, 0, "", ""}},
};

static int open_as_expected(const struct open_row *row)
{
    static struct lent8 word;
    lend8(&word, row->word);
    blentovar_kept_answer answer = blentovar_open(row->m, row->t, word.places, word.length);
    blentovar_kept_answer expected = {row->number, row->buffer, row->place, record_of(&row->record)};
    return SAME_BYTES(answer, expected) && as_expected8(&word);
}

/* Where done is absent the record is to come back as it went in. */
struct splice_row {
    struct record_text record;
    size_t start;
    const char *stretch;
    uint32_t number, buffer;
    size_t place;
    const struct record_text *done;
};

static const struct record_text by_hand = {4, 3, "1", "2 6"};
static const struct record_text ones = {4, 3, "1*15", ""};
static const struct record_text all_ones = {10, 255, "1*1023", ""};
static const struct record_text past_n = {3, 1, "0*6 1 2", "5 8"};

static const struct splice_row splice_rows[] = {
    {{4, 3, "", ""}, 0, "1*4", 0, 0, 0, &far},
    {{4, 3, "1*4", "15 15 1"}, 3, "0 1", 0, 0, 0, &near},
    {{4, 3, "1*4", "15 15 1"}, 0, "0*15", 0, 0, 0, &empty},
    {{4, 3, "1*4", "15 15 1"}, 0, "1*15", 0, 0, 0, &ones},
    {{4, 3, "1*4", "15 15 1"}, 0, "1*4", 0, 0, 0, &far},
    {{4, 3, "1*4", "15 15 1"}, 15, "", 0, 0, 0, &far},
    {{4, 3, "1*4", "15 15 1"}, 0, NULL, 0, 0, 0, &far},
    {{10, 255, "", ""}, 0, "1*1023", 0, 0, 0, &all_ones},
    /* built by hand: sums that are not those of the bits are added to */
    {{4, 3, "", "3 7 1"}, 0, "1", 0, 0, 0, &by_hand},
    /* built by hand: what stands past n and past t stays; a^6 is 5 where m is 3 */
    {{3, 1, "0*7 2", "0 8"}, 6, "1", 0, 0, 0, &past_n},
    {{0, 0, "", ""}, 0, "1", 1, 0, 0, NULL},
    {{11, 1, "", ""}, 0, "1", 1, 0, 0, NULL},
    {{LARGEST, LARGEST, "1*1023", "9*255"}, 0, "1", 1, 0, 0, NULL},
    {{4, 4, "", ""}, 0, "1", 2, 0, 0, NULL},
    {{10, 256, "", ""}, 0, "1", 2, 0, 0, NULL},
    {{4, 3, "2", ""}, 0, "1", 7, 0, 0, NULL},
    {{4, 3, "0*14 255", ""}, 0, "1", 7, 0, 0, NULL},
    {{4, 3, "", "16"}, 0, "1", 7, 0, 0, NULL},
    {{4, 3, "", "0*2 65535"}, 0, "1", 7, 0, 0, NULL},
    {{10, 255, "0*1022 2", ""}, 0, "", 7, 0, 0, NULL},
    {{10, 255, "", "0*254 1024"}, 0, "", 7, 0, 0, NULL},
    {{4, 3, "1*4", "15 15 1"}, 15, "1", 12, 0, 0, NULL},
    {{4, 3, "1*4", "15 15 1"}, 0, "1*16", 12, 0, 0, NULL},
    {{4, 3, "1*4", "15 15 1"}, 16, "", 12, 0, 0, NULL},
    {{4, 3, "1*4", "15 15 1"}, 16, NULL, 12, 0, 0, NULL},
    {{4, 3, "1*4", "15 15 1"}, LARGEST, "1", 12, 0, 0, NULL},
    {{4, 3, "1*4", "15 15 1"}, LARGEST, "1 0", 12, 0, 0, NULL},
    {{4, 3, "1*4", "15 15 1"}, LARGEST, NULL, 12, 0, 0, NULL},
    {{4, 3, "1*4", "15 15 1"}, 0, "2", 5, 0, 0, NULL},
    {{4, 3, "1*4", "15 15 1"}, 0, "0*14 255", 5, 0, 14, NULL},
    /* the place is counted in the stretch, not in the word */
    {{4, 3, "1*4", "15 15 1"}, 10, "1 0 2", 5, 0, 2, NULL},
    {{10, 255, "1*1023", ""}, 1000, "0*22 3", 5, 0, 22, NULL},
    /* two faults */
    {{2, 0, "", ""}, 0, "1", 1, 0, 0, NULL},
    {{4, 4, "2", ""}, 0, "1", 2, 0, 0, NULL},
    {{4, 3, "2", ""}, 15, "1", 7, 0, 0, NULL},
    {{4, 3, "", "16"}, LARGEST, "1", 7, 0, 0, NULL},
    {{4, 3, "1*4", "15 15 1"}, 15, "2", 12, 0, 0, NULL},
    {{4, 3, "1*4", "15 15 1"}, LARGEST, "2", 12, 0, 0, NULL},
};

static int splice_as_expected(const struct splice_row *row)
{
    static struct lent8 stretch;
    lend8(&stretch, row->stretch);
    blentovar_kept_answer answer =
        blentovar_splice(handed_in(&row->record), row->start, stretch.places, stretch.length);
    const struct record_text *record = row->done != NULL ? row->done : &row->record;
    blentovar_kept_answer expected = {row->number, row->buffer, row->place, record_of(record)};
    return SAME_BYTES(answer, expected) && as_expected8(&stretch);
}

struct decode_row {
    struct record_text record;
    const char *word, *list;
    uint32_t number;
    size_t wrong;
    const char *done_word, *done_list;
};

static const struct decode_row decode_rows[] = {
    {{4, 3, "", ""}, "7*15", "7*3", 0, 0, "0*15", "0*3"},
    {{4, 3, "1*3 0 1", "4 10 6"}, "7*15", "7*3", 0, 3, "1*3 0 1*2 0*2 1 0 1 0*4", "5 8 10"},
    {{4, 2, "0*3 1", "8 10"}, "7*15", "7*2", 0, 1, "0*15", "3 0"},
    {{10, 255, "0 1*1022", "1*255"}, "7*1023", "7*255", 0, 1, "1*1023", "0*255"},
    /* built by hand: the stored sums are believed */
    {{4, 3, "1*3 0 1", ""}, "7*15", "7*3", 0, 0, "1*3 0 1 0*10", "0*3"},
    {{4, 3, "1*15", "4 10 6"}, "7*15", "7*3", 0, 3, "1*5 0 1*2 0 1 0 1*4", "5 8 10"},
    /* built by hand: what stands past n and past t is not looked at */
    {{3, 1, "0*6 1 2", "5 8"}, "7*7", "7*1", 0, 1, "0*7", "6"},
    {{4, 3, "1*4", "15 15 1"}, "7*15", "7*3", 6, 0, NULL, NULL},
    {{0, 0, "", ""}, "7*15", "7*3", 1, 0, NULL, NULL},
    {{11, 1, "", ""}, "7*15", "7*1", 1, 0, NULL, NULL},
    {{4, 4, "", ""}, "7*15", "7*4", 2, 0, NULL, NULL},
    {{4, 3, "0*14 2", ""}, "7*15", "7*3", 7, 0, NULL, NULL},
    {{4, 3, "", "0*2 16"}, "7*15", "7*3", 7, 0, NULL, NULL},
    {{4, 3, "", ""}, "7*14", "7*3", 4, 0, NULL, NULL},
    {{4, 3, "", ""}, "7*16", "7*3", 4, 0, NULL, NULL},
    {{4, 3, "", ""}, "", "7*3", 4, 0, NULL, NULL},
    {{4, 3, "", ""}, NULL, "7*3", 4, 0, NULL, NULL},
    {{4, 3, "", ""}, "7*15", "7*2", 4, 0, NULL, NULL},
    {{4, 3, "", ""}, "7*15", "7*4", 4, 0, NULL, NULL},
    {{4, 3, "", ""}, "7*15", "", 4, 0, NULL, NULL},
    {{4, 3, "", ""}, "7*15", NULL, 4, 0, NULL, NULL},
    /* two faults */
    {{2, 0, "", ""}, "7*15", "7*3", 1, 0, NULL, NULL},
    {{4, 4, "2", ""}, "7*15", "7*4", 2, 0, NULL, NULL},
    {{4, 3, "2", ""}, "7*14", "7*3", 7, 0, NULL, NULL},
    {{4, 3, "", "16"}, "7*15", "7*4", 7, 0, NULL, NULL},
    {{4, 3, "1*4", "15 15 1"}, "7*16", "7*3", 4, 0, NULL, NULL},
    {{4, 3, "1*4", "15 15 1"}, "7*15", "7*2", 4, 0, NULL, NULL},
};

static int decode_as_expected(const struct decode_row *row)
{
    static struct lent8 word;
    static struct lent16 list;
    lend8(&word, row->word);
    lend16(&list, row->list);
    if (row->done_word != NULL) {
        expect8(&word, row->done_word);
        expect16(&list, row->done_list);
    }
    blentovar_decode_kept_answer answer = blentovar_decode_kept(
        handed_in(&row->record), word.places, word.length, list.places, list.length);
    blentovar_decode_kept_answer expected = {row->number, 0, row->wrong};
    return SAME_BYTES(answer, expected) && as_expected8(&word) && as_expected16(&list);
}

static void check_open(void)
{
    for (size_t i = 0; i < sizeof open_rows / sizeof *open_rows; i++) {
        report("open", i, open_as_expected(&open_rows[i]));
    }
}

static void check_splice(void)
{
    for (size_t i = 0; i < sizeof splice_rows / sizeof *splice_rows; i++) {
        report("splice", i, splice_as_expected(&splice_rows[i]));
    }
}

static void check_decode_kept(void)
{
    for (size_t i = 0; i < sizeof decode_rows / sizeof *decode_rows; i++) {
        report("decode_kept", i, decode_as_expected(&decode_rows[i]));
    }
}

void check_kept_records(void)
{
    check_open();
    check_splice();
    check_decode_kept();
}
