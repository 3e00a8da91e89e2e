/* Sizes, Describe, Encode, Decode and Edit. Words are of m 4 and t 3 where nothing else is said. */
#include "blentovar.h"
#include "checks.h"
#include "lent.h"

/* The word that carries the message {0,2,4}: {0,1,2,6,9,10,12,14}. */
#define SENT "1*3 0*3 1 0*2 1*2 0 1 0 1"
/* {0,1,2,3}, near to no code word. */
#define FAR "1*4 0*11"
/* The code word {0,1,2,4,5,8,10}, which is the generator. */
#define GENERATOR "1*3 0 1*2 0*2 1 0 1"

#define LARGEST ((size_t)-1)

struct sizes_row {
    size_t m, t;
    uint32_t number;
    size_t n, k;
};

static const struct sizes_row sizes_rows[] = {
    {3, 1, 0, 7, 4},
    {4, 1, 0, 15, 11},
    {4, 2, 0, 15, 7},
    {4, 3, 0, 15, 5},
    {8, 23, 0, 255, 99},
    {10, 255, 0, 1023, 11},
    {2, 1, 1, 0, 0},
    {11, 1, 1, 0, 0},
    {260, 3, 1, 0, 0},
    {LARGEST, 3, 1, 0, 0},
    {3, 3, 2, 0, 0},
    {4, 0, 2, 0, 0},
    {4, 4, 2, 0, 0},
    {4, 7, 2, 0, 0},
    {4, 259, 2, 0, 0},
    {4, LARGEST, 2, 0, 0},
    {7, 8, 2, 0, 0},
    {10, 256, 2, 0, 0},
    /* two faults */
    {2, 0, 1, 0, 0},
    {LARGEST, LARGEST, 1, 0, 0},
};

static int sizes_as_expected(const struct sizes_row *row)
{
    blentovar_sizes_answer answer = blentovar_sizes(row->m, row->t);
    blentovar_sizes_answer expected = {row->number, 0, row->n, row->k};
    return SAME_BYTES(answer, expected);
}

/* Where done is absent the buffer is to be as lent. */
struct describe_row {
    size_t m, t;
    const char *generator;
    uint32_t number;
    size_t n, k;
    const char *done;
};

static const struct describe_row describe_rows[] = {
    /* with t 1 the generator is the field polynomial */
    {3, 1, "7*4", 0, 7, 4, "1 1 0 1"},
    {4, 1, "7*5", 0, 15, 11, "1 1 0 0 1"},
    {5, 1, "7*6", 0, 31, 26, "1 0 1 0 0 1"},
    {6, 1, "7*7", 0, 63, 57, "1 1 0*4 1"},
    {7, 1, "7*8", 0, 127, 120, "1 1 0*5 1"},
    {8, 1, "7*9", 0, 255, 247, "1 0 1*3 0*3 1"},
    {9, 1, "7*10", 0, 511, 502, "1 0*3 1 0*4 1"},
    {10, 1, "7*11", 0, 1023, 1013, "1 0*2 1 0*6 1"},
    {4, 2, "7*9", 0, 15, 7, "1 0*3 1 0 1*3"},
    {4, 3, "255*11", 0, 15, 5, GENERATOR},
    {2, 1, "7*4", 1, 0, 0, NULL},
    {11, 1, "7*12", 1, 0, 0, NULL},
    {260, 3, "7*11", 1, 0, 0, NULL},
    {LARGEST, 3, "7*11", 1, 0, 0, NULL},
    {4, 0, "7*1", 2, 0, 0, NULL},
    {4, 4, "7*15", 2, 0, 0, NULL},
    {4, 259, "7*11", 2, 0, 0, NULL},
    {4, LARGEST, "7*11", 2, 0, 0, NULL},
    {7, 8, "7*57", 2, 0, 0, NULL},
    {10, 256, "7*1013", 2, 0, 0, NULL},
    {4, 3, "7*10", 4, 0, 0, NULL},
    {4, 3, "7*12", 4, 0, 0, NULL},
    {4, 3, "", 4, 0, 0, NULL},
    {4, 3, NULL, 4, 0, 0, NULL},
    {10, 255, "7*1012", 4, 0, 0, NULL},
    {10, 255, "7*1014", 4, 0, 0, NULL},
    /* two faults */
    {2, 0, "7*4", 1, 0, 0, NULL},
    {4, 4, "7*10", 2, 0, 0, NULL},
};

static int describe_as_expected(const struct describe_row *row)
{
    static struct lent8 generator;
    lend8(&generator, row->generator);
    if (row->done != NULL) {
        expect8(&generator, row->done);
    }
    blentovar_describe_answer answer =
        blentovar_describe(row->m, row->t, generator.places, generator.length);
    blentovar_describe_answer expected = {row->number, 0, row->n, row->k};
    return SAME_BYTES(answer, expected) && as_expected8(&generator);
}

static uint8_t before(const uint8_t *coefficients, size_t i, size_t back)
{
    return i < back ? 0 : coefficients[i - back];
}

/* The powers of a that (10, 255) leaves out are 1 and the conjugates of 1/a, so
 * its generator times (x + 1)(x^10 + x^7 + 1) is x^1023 + 1, and each
 * coefficient follows from those before it. */
static void put_largest_generator(uint8_t *to)
{
    for (size_t i = 0; i < 1013; i++) {
        to[i] = (i == 0) ^ before(to, i, 1) ^ before(to, i, 7) ^ before(to, i, 8)
            ^ before(to, i, 10) ^ before(to, i, 11);
    }
}

static int largest_as_expected(void)
{
    static struct lent8 generator;
    lend8(&generator, "7*1013");
    put_largest_generator(generator.expected + GUARD);
    blentovar_describe_answer answer =
        blentovar_describe(10, 255, generator.places, generator.length);
    blentovar_describe_answer expected = {BLENTOVAR_DONE, 0, 1023, 11};
    return SAME_BYTES(answer, expected) && as_expected8(&generator);
}

/* From here on a row also has the buffer and the place that come with 5, and zeros where another number stands. */
struct encode_row {
    size_t m, t;
    const char *message, *word;
    uint32_t number, buffer;
    size_t place;
    const char *done;
};

static const struct encode_row encode_rows[] = {
    {4, 1, "1 0*10", "7*15", 0, 0, 0, "1*2 0*2 1 0*10"},
    {4, 2, "1 0*6", "7*15", 0, 0, 0, "1 0*3 1 0 1*3 0*6"},
    {4, 3, "1 0 1 0 1", "7*15", 0, 0, 0, SENT},
    {4, 3, "1*5", "255*15", 0, 0, 0, "1*15"},
    {4, 3, "0*5", "7*15", 0, 0, 0, "0*15"},
    {10, 255, "1*11", "7*1023", 0, 0, 0, "1*1023"},
    {2, 1, "1*1", "7*3", 1, 0, 0, NULL},
    {11, 1, "0*1036", "7*1039", 1, 0, 0, NULL},
    {4, 0, "1*15", "7*15", 2, 0, 0, NULL},
    {10, 256, "1*11", "7*1023", 2, 0, 0, NULL},
    {4, 3, "1*4", "7*15", 3, 0, 0, NULL},
    {4, 3, "1*6", "7*15", 3, 0, 0, NULL},
    {4, 3, "", "7*15", 3, 0, 0, NULL},
    {4, 3, NULL, "7*15", 3, 0, 0, NULL},
    {4, 3, "1*5", "7*14", 4, 0, 0, NULL},
    {4, 3, "1*5", "7*16", 4, 0, 0, NULL},
    {4, 3, "1*5", "", 4, 0, 0, NULL},
    {4, 3, "1*5", NULL, 4, 0, 0, NULL},
    {4, 3, "2 1*4", "7*15", 5, 0, 0, NULL},
    {4, 3, "1*4 255", "7*15", 5, 0, 4, NULL},
    {10, 255, "1*10 2", "7*1023", 5, 0, 10, NULL},
    {4, 3, "1 2 1 3 255", "7*15", 5, 0, 1, NULL},
    {10, 1, "0*1012 2", "7*1023", 5, 0, 1012, NULL},
    /* two faults */
    {2, 0, "1*5", "7*15", 1, 0, 0, NULL},
    {4, 4, "1*6", "7*15", 2, 0, 0, NULL},
    {4, 3, "1*4", "7*14", 3, 0, 0, NULL},
    {4, 3, "1*4 2", "7*16", 4, 0, 0, NULL},
    {4, 3, NULL, NULL, 3, 0, 0, NULL},
};

static int encode_as_expected(const struct encode_row *row)
{
    static struct lent8 message, word;
    lend8(&message, row->message);
    lend8(&word, row->word);
    if (row->done != NULL) {
        expect8(&word, row->done);
    }
    blentovar_encode_answer answer = blentovar_encode(row->m, row->t, message.places, message.length,
                                                      word.places, word.length);
    blentovar_encode_answer expected = {row->number, row->buffer, row->place};
    return SAME_BYTES(answer, expected) && as_expected8(&message) && as_expected8(&word);
}

struct decode_row {
    size_t m, t;
    const char *received, *word, *list;
    uint32_t number, buffer;
    size_t place, wrong;
    const char *done_word, *done_list;
};

static const struct decode_row decode_rows[] = {
    {4, 3, SENT, "7*15", "7*3", 0, 0, 0, 0, SENT, "0*3"},
    {4, 3, "0 1*2 0*3 1 0*3 1 0 1 0*2", "7*15", "7*3", 0, 0, 0, 3, SENT, "0 9 14"},
    {4, 3, "1*3 0 1 0*10", "7*15", "65535*3", 0, 0, 0, 3, GENERATOR " 0*4", "5 8 10"},
    {4, 1, "1*2 0*13", "7*15", "7*1", 0, 0, 0, 1, "1*2 0*2 1 0*10", "4"},
    {3, 1, "1*2 0*5", "7*7", "7*1", 0, 0, 0, 1, "1*2 0 1 0*3", "3"},
    {4, 2, "1 0*3 1 0 1 0*8", "7*15", "7*2", 0, 0, 0, 2, "1 0*3 1 0 1*3 0*6", "7 8"},
    {4, 2, "0*3 1 0*11", "7*15", "7*2", 0, 0, 0, 1, "0*15", "3 0"},
    {10, 255, "0 1*499 0 1*521 0", "7*1023", "7*255", 0, 0, 0, 3, "1*1023", "0 500 1022 0*252"},
    {4, 3, FAR, "7*15", "7*3", 6, 0, 0, 0, NULL, NULL},
    {2, 1, "0*3", "7*3", "7*1", 1, 0, 0, 0, NULL, NULL},
    {LARGEST, 3, SENT, "7*15", "7*3", 1, 0, 0, 0, NULL, NULL},
    {7, 8, "0*127", "7*127", "7*8", 2, 0, 0, 0, NULL, NULL},
    {4, 3, "0*14", "7*15", "7*3", 3, 0, 0, 0, NULL, NULL},
    {4, 3, "0*16", "7*15", "7*3", 3, 0, 0, 0, NULL, NULL},
    {4, 3, "", "7*15", "7*3", 3, 0, 0, 0, NULL, NULL},
    {4, 3, NULL, "7*15", "7*3", 3, 0, 0, 0, NULL, NULL},
    {4, 3, SENT, "7*14", "7*3", 4, 0, 0, 0, NULL, NULL},
    {4, 3, SENT, "7*16", "7*3", 4, 0, 0, 0, NULL, NULL},
    {4, 3, SENT, "", "7*3", 4, 0, 0, 0, NULL, NULL},
    {4, 3, SENT, NULL, "7*3", 4, 0, 0, 0, NULL, NULL},
    {4, 3, SENT, "7*15", "7*2", 4, 0, 0, 0, NULL, NULL},
    {4, 3, SENT, "7*15", "7*4", 4, 0, 0, 0, NULL, NULL},
    {4, 3, SENT, "7*15", "", 4, 0, 0, 0, NULL, NULL},
    {4, 3, SENT, "7*15", NULL, 4, 0, 0, 0, NULL, NULL},
    {4, 3, "2 0*14", "7*15", "7*3", 5, 0, 0, 0, NULL, NULL},
    {4, 3, "0*14 255", "7*15", "7*3", 5, 0, 14, 0, NULL, NULL},
    {4, 3, "1*7 2 1 3 1*5", "7*15", "7*3", 5, 0, 7, 0, NULL, NULL},
    {10, 255, "0*1022 2", "7*1023", "7*255", 5, 0, 1022, 0, NULL, NULL},
    /* two faults */
    {2, 0, SENT, "7*15", "7*3", 1, 0, 0, 0, NULL, NULL},
    {4, 4, "0*14", "7*15", "7*4", 2, 0, 0, 0, NULL, NULL},
    {4, 3, "0*14", "7*14", "7*3", 3, 0, 0, 0, NULL, NULL},
    {4, 3, "0*16", "7*15", "7*4", 3, 0, 0, 0, NULL, NULL},
    {4, 3, "0*14 2", "7*14", "7*3", 4, 0, 0, 0, NULL, NULL},
    {4, 3, "0*14 2", "7*15", "7*4", 4, 0, 0, 0, NULL, NULL},
    {4, 3, "1*4 0*10 2", "7*15", "7*3", 5, 0, 14, 0, NULL, NULL},
    {4, 3, NULL, NULL, NULL, 3, 0, 0, 0, NULL, NULL},
};

static int decode_as_expected(const struct decode_row *row)
{
    static struct lent8 received, word;
    static struct lent16 list;
    lend8(&received, row->received);
    lend8(&word, row->word);
    lend16(&list, row->list);
    if (row->done_word != NULL) {
        expect8(&word, row->done_word);
        expect16(&list, row->done_list);
    }
    blentovar_decode_answer answer =
        blentovar_decode(row->m, row->t, received.places, received.length,
                         word.places, word.length, list.places, list.length);
    blentovar_decode_answer expected = {row->number, row->buffer, row->place, row->wrong};
    return SAME_BYTES(answer, expected)
        && as_expected8(&received) && as_expected8(&word) && as_expected16(&list);
}

struct edit_row {
    size_t m, t;
    const char *word;
    size_t start;
    const char *stretch;
    uint32_t number, buffer;
    size_t place;
    const char *done;
};

static const struct edit_row edit_rows[] = {
    {4, 3, "0*15", 0, "1 0 1 0 1", 0, 0, 0, SENT},
    {4, 3, SENT, 0, "0*5", 0, 0, 0, "0*15"},
    /* the generator, one place up, is added */
    {4, 3, SENT, 1, "1", 0, 0, 0, "1 0*2 1 0 1 0*4 1*3 0 1"},
    /* no code word: the generator is added to {14} */
    {4, 3, "0*14 1", 0, "1", 0, 0, 0, GENERATOR " 0*3 1"},
    {4, 3, SENT, 5, "", 0, 0, 0, SENT},
    {4, 3, SENT, 0, NULL, 0, 0, 0, SENT},
    {10, 255, "0*1023", 0, "1*11", 0, 0, 0, "1*1023"},
    {2, 1, "0*3", 0, "1", 1, 0, 0, NULL},
    {11, 1, "0*1039", 0, "1", 1, 0, 0, NULL},
    {4, 4, "0*15", 0, "1", 2, 0, 0, NULL},
    {4, 3, "0*14", 0, "1", 3, 0, 0, NULL},
    {4, 3, "0*16", 0, "1", 3, 0, 0, NULL},
    {4, 3, "", 0, "1", 3, 0, 0, NULL},
    {4, 3, NULL, 0, "1", 3, 0, 0, NULL},
    {4, 3, SENT, 5, "1", 12, 0, 0, NULL},
    {4, 3, SENT, 0, "1*6", 12, 0, 0, NULL},
    {4, 3, SENT, 6, "", 12, 0, 0, NULL},
    {4, 3, SENT, 6, NULL, 12, 0, 0, NULL},
    {4, 3, SENT, LARGEST, "1", 12, 0, 0, NULL},
    {4, 3, SENT, LARGEST, "1 0", 12, 0, 0, NULL},
    {4, 3, SENT, LARGEST, NULL, 12, 0, 0, NULL},
    {4, 3, "2 0*14", 0, "1", 5, 0, 0, NULL},
    {4, 3, "0*7 2 0*7", 0, "", 5, 0, 7, NULL},
    {4, 3, "0*14 255", 0, "1", 5, 0, 14, NULL},
    {4, 3, SENT, 0, "1*4 2", 5, 1, 4, NULL},
    {4, 3, SENT, 0, "1 3", 5, 1, 1, NULL},
    /* the place is counted in the stretch, not in the message */
    {4, 3, SENT, 2, "0 2 2", 5, 1, 1, NULL},
    /* the whole word is looked at before the stretch */
    {4, 3, "0*7 2 0*7", 0, "3", 5, 0, 7, NULL},
    {4, 3, "0*14 2", 0, "2", 5, 0, 14, NULL},
    /* two faults */
    {2, 0, "0*15", 0, "1", 1, 0, 0, NULL},
    {4, 4, "0*14", 0, "1", 2, 0, 0, NULL},
    {4, 3, "0*14", 5, "1", 3, 0, 0, NULL},
    {4, 3, "0*14 2", 5, "1", 12, 0, 0, NULL},
    {4, 3, SENT, 5, "2", 12, 0, 0, NULL},
    {4, 3, SENT, LARGEST, "2", 12, 0, 0, NULL},
    {4, 3, NULL, 0, NULL, 3, 0, 0, NULL},
};

static int edit_as_expected(const struct edit_row *row)
{
    static struct lent8 word, stretch;
    lend8(&word, row->word);
    lend8(&stretch, row->stretch);
    if (row->done != NULL) {
        expect8(&word, row->done);
    }
    blentovar_edit_answer answer = blentovar_edit(row->m, row->t, word.places, word.length, row->start,
                                                  stretch.places, stretch.length);
    blentovar_edit_answer expected = {row->number, row->buffer, row->place};
    return SAME_BYTES(answer, expected) && as_expected8(&word) && as_expected8(&stretch);
}

static void check_sizes(void)
{
    for (size_t i = 0; i < sizeof sizes_rows / sizeof *sizes_rows; i++) {
        report("sizes", i, sizes_as_expected(&sizes_rows[i]));
    }
}

static void check_describe(void)
{
    for (size_t i = 0; i < sizeof describe_rows / sizeof *describe_rows; i++) {
        report("describe", i, describe_as_expected(&describe_rows[i]));
    }
    report("describe of the largest code", 0, largest_as_expected());
}

static void check_encode(void)
{
    for (size_t i = 0; i < sizeof encode_rows / sizeof *encode_rows; i++) {
        report("encode", i, encode_as_expected(&encode_rows[i]));
    }
}

static void check_decode(void)
{
    for (size_t i = 0; i < sizeof decode_rows / sizeof *decode_rows; i++) {
        report("decode", i, decode_as_expected(&decode_rows[i]));
    }
}

static void check_edit(void)
{
    for (size_t i = 0; i < sizeof edit_rows / sizeof *edit_rows; i++) {
        report("edit", i, edit_as_expected(&edit_rows[i]));
    }
}

void check_whole_words(void)
{
    check_sizes();
    check_describe();
    check_encode();
    check_decode();
    check_edit();
}
