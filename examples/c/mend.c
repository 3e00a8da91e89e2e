/* What a program does with Blentovar: it mends a word, reads a damaged frame and a poll book, and says two refusals in words. */
#include <inttypes.h>
#include <stdio.h>
#include <stdlib.h>
#include <string.h>

#include "blentovar.h"

/* Functions, structs and the frame may change with the second part of the version. */
#if BLENTOVAR_VERSION_NUMBER < 600 || BLENTOVAR_VERSION_NUMBER >= 700
#error "this program was written for Blentovar 0.6"
#endif

/* What each number says. 8 is struck, so nothing stands there. */
static const char *const sheet[] = {
    [BLENTOVAR_DONE] = "done",
    [BLENTOVAR_FIELD_SIZE] = "m is not 3 to 10",
    [BLENTOVAR_NOT_LISTED] = "t is not listed for m",
    [BLENTOVAR_INPUT_LENGTH] = "the message is not k long; a received or edited word is not n long",
    [BLENTOVAR_OUTPUT_LENGTH] = "an output buffer has the wrong length, longer or shorter",
    [BLENTOVAR_BIT_ABOVE_ONE] = "a bit of a lent message, word or stretch is above 1",
    [BLENTOVAR_NOTHING_NEAR] = "no code word within t (Decode, reading a frame); "
                               "no set of at most t places with the kept sums (Decode kept)",
    [BLENTOVAR_RECORD_CONTENTS] = "in a kept record one of the first n bits is above 1 "
                                  "or one of the first t sums is 2^m or more",
    [BLENTOVAR_FRAME_LENGTH] = "a frame, or the buffer for one, is not 32 bytes; "
                               "the frames to be written to a book are no multiple of 32 bytes",
    [BLENTOVAR_PAD_BIT] = "a frame's last bit is 1",
    [BLENTOVAR_LEAD_BITS] = "a decoded frame's lead bits are wrong",
    [BLENTOVAR_STRETCH_END] = "a stretch runs past the end: k for Edit, n for Splice",
    [BLENTOVAR_NO_TRAILER] = "a book is shorter than 16 bytes, or its mark or its last number is wrong",
    [BLENTOVAR_BOOK_SIZE] = "a book's count is above 1,000, its distance is not 32 times the count, "
                            "or it reaches before the start; the frames to be written are above 32,000 bytes",
    [BLENTOVAR_NO_SUCH_FRAME] = "a book has no frame with this number",
};

static const char *condition(uint32_t number) {
    const char *stands = number < sizeof sheet / sizeof *sheet ? sheet[number] : NULL;
    return stands ? stands : "a number that the sheet does not have";
}

static void stop(const char *why) {
    fprintf(stderr, "mend: %s\n", why);
    exit(EXIT_FAILURE);
}

/* Stops the program unless a call answered the number that is due. */
static void expect(uint32_t due, uint32_t number) {
    if (number != due)
        stop(condition(number));
}

static void print_bits(const char *name, const uint8_t *bits, size_t places) {
    printf("%-8s", name);
    for (size_t i = 0; i < places; i++)
        printf(" %d", bits[i]);
    printf("\n");
}

static void mend_a_word(size_t m, size_t t) {
    const uint8_t message[] = {1, 0, 1, 0, 1};
    const size_t turned[] = {0, 9, 14};
    /* There is room for every code. Lengths are exact, so what is lent of it is what Sizes says. */
    uint8_t sent[BLENTOVAR_BITS], received[BLENTOVAR_BITS], mended[BLENTOVAR_BITS];
    uint16_t list[BLENTOVAR_SUMS];

    blentovar_sizes_answer code = blentovar_sizes(m, t);
    expect(BLENTOVAR_DONE, code.number);
    printf("m %zu, t %zu: %zu places, %zu of them for the message\n", m, t, code.n, code.k);
    expect(BLENTOVAR_DONE, blentovar_encode(m, t, message, sizeof message, sent, code.n).number);
    print_bits("sent", sent, code.n);

    memcpy(received, sent, code.n);
    for (size_t i = 0; i < sizeof turned / sizeof *turned; i++)
        received[turned[i]] ^= 1;
    print_bits("received", received, code.n);

    blentovar_decode_answer answer = blentovar_decode(m, t, received, code.n, mended, code.n, list, t);
    expect(BLENTOVAR_DONE, answer.number);
    print_bits("mended", mended, code.n);
    printf("%zu wrong places:", answer.wrong);
    for (size_t i = 0; i < answer.wrong; i++)
        printf(" %" PRIu16, list[i]);
    printf("\n");
    if (memcmp(mended, sent, code.n) != 0)
        stop("the mended word is not the sent one");
    printf("the mended word is the sent one\n");
}

static void print_reading(const uint8_t *frame, size_t bytes) {
    blentovar_read_answer answer = blentovar_read_frame(frame, bytes);
    expect(BLENTOVAR_DONE, answer.number);
    printf("house %" PRIu16 ", poll %" PRIu16 ", counter %" PRIu64 ", %zu wrong places\n",
           answer.house, answer.poll, answer.counter, answer.wrong);
}

static void read_a_damaged_frame(void) {
    uint8_t frame[BLENTOVAR_FRAME_BYTES];
    expect(BLENTOVAR_DONE, blentovar_make_frame(12, 1, 34567, frame, sizeof frame));
    /* The bits with the sent numbers 25 and 26. */
    frame[3] ^= 0x60;
    print_reading(frame, sizeof frame);
}

static void read_a_book(void) {
    uint8_t frames[2 * BLENTOVAR_FRAME_BYTES];
    uint8_t book[sizeof frames + BLENTOVAR_TRAILER_BYTES];
    uint8_t *second = frames + BLENTOVAR_FRAME_BYTES;
    expect(BLENTOVAR_DONE, blentovar_make_frame(12, 2, 34890, frames, BLENTOVAR_FRAME_BYTES));
    expect(BLENTOVAR_DONE, blentovar_make_frame(13, 2, 987, second, BLENTOVAR_FRAME_BYTES));
    expect(BLENTOVAR_DONE, blentovar_write_book(frames, sizeof frames, book, sizeof book));

    blentovar_look_answer seen = blentovar_look_at_book(book, sizeof book);
    expect(BLENTOVAR_DONE, seen.number);
    printf("a book of %zu frames\n", seen.count);
    for (size_t i = 0; i < seen.count; i++) {
        blentovar_part_answer part = blentovar_read_book(book, sizeof book, i);
        expect(BLENTOVAR_DONE, part.number);
        print_reading(book + part.offset, part.length);
    }
}

static void be_refused(void) {
    const uint8_t received[15] = {1, 1, 1, 1};
    uint8_t word[15];
    uint16_t list[3];
    uint32_t number = blentovar_decode(4, 3, received, 15, word, 15, list, 3).number;
    expect(BLENTOVAR_NOTHING_NEAR, number);
    printf("refused %" PRIu32 ": %s\n", number, condition(number));
}

static void be_told_which_bit(void) {
    const uint8_t stretch[] = {1, 3};
    uint8_t word[15] = {0};
    blentovar_edit_answer answer = blentovar_edit(4, 3, word, sizeof word, 0, stretch, sizeof stretch);
    expect(BLENTOVAR_BIT_ABOVE_ONE, answer.number);
    printf("refused %" PRIu32 ": %s: place %zu of buffer %" PRIu32 ", %s\n",
           answer.number, condition(answer.number), answer.place, answer.buffer,
           answer.buffer == BLENTOVAR_EDIT_STRETCH ? "the stretch" : "the word or the only one lent");
}

int main(void) {
    mend_a_word(4, 3);
    read_a_damaged_frame();
    read_a_book();
    be_refused();
    be_told_which_bit();
    return 0;
}
