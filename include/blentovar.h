/* The operations of Blentovar for C11 and C++17. docs/INTEGRATING.md says how to
 * build the library libblentovar.a and link it, and has a whole example.
 *
 * Bits are lent one to a byte, 0 or 1, except in frames and in poll books. Place
 * i of a word is the coefficient of x^i. The code of (m, t) has n = 2^m - 1
 * places, k of them for the message; t is the most wrong places that are mended.
 *
 * A frame begins with three lead bits, the highest of its first byte: 1, 0, 1. If
 * they are others after mending, the frame is refused. So a line that is stuck at
 * zero, as a receiver with its feed off hears it, or at one gives no reading,
 * also with up to 23 changed bits: BLENTOVAR_PAD_BIT if its last bit is 1, else
 * BLENTOVAR_LEAD_BITS. Frames made by version 0.5 and before carry 0, 0, 0 and
 * are refused BLENTOVAR_LEAD_BITS, so sender and reader change together.
 *
 * A poll book is frames of 32 bytes one after another as they were received, at
 * most 1,000 of them, and after them a trailer, which is always its last 16
 * bytes. The trailer has the four bytes POLL and then three 32-bit numbers,
 * highest byte first: the count of the frames, the distance in bytes from the
 * trailer's first byte back to the first frame, and 0. Other bytes may stand
 * before the first frame; they are not looked at.
 *
 * A buffer is lent as a pointer and its length, counted in elements. Lengths
 * are exact: longer is refused as shorter is. A null pointer is lawful only
 * with length 0. Buffers lent to one call must not overlap. What an output
 * buffer held before is never looked at.
 *
 * Every function answers a number of the sheet below: BLENTOVAR_DONE, or the
 * number of the first check in its order that refuses. After a refusal no lent
 * buffer has changed, and every number beside the refusal is 0, but for buffer
 * and place, which go with BLENTOVAR_BIT_ABOVE_ONE. Nothing is kept between
 * calls, nothing is allocated, and there is no state: calls may run at the same
 * time.
 *
 * The functions that look at lent bits answer which one is bad. With
 * BLENTOVAR_BIT_ABOVE_ONE, buffer says where it stands: 1 is the stretch of
 * blentovar_edit, and 0 is the word, or the only buffer whose bits are looked
 * at, so also the stretch of blentovar_splice. place is the first one in that
 * buffer, as it was lent, that holds more than 1. With every other number,
 * BLENTOVAR_DONE included, both are 0.
 *
 * The structs have no padding. Where a compiler would put some, there is a field
 * whose name begins with zero_: it is 0 in everything that comes back, and it is
 * not looked at in a record that is handed in.
 */
#ifndef BLENTOVAR_H
#define BLENTOVAR_H

#include <stddef.h>
#include <stdint.h>

#ifdef __cplusplus
extern "C" {
#endif

/* The version of this header and of the library that goes with it, and the
 * same as one number: 10,000 times the first part, 100 times the second, and
 * the third. */
#define BLENTOVAR_VERSION "0.6.0"
#define BLENTOVAR_VERSION_NUMBER 600

/* The sheet. */
enum {
    BLENTOVAR_DONE = 0,
    /* m is not 3 to 10 */
    BLENTOVAR_FIELD_SIZE = 1,
    /* t is not listed for m */
    BLENTOVAR_NOT_LISTED = 2,
    /* the message is not k long; a received or edited word is not n long */
    BLENTOVAR_INPUT_LENGTH = 3,
    /* an output buffer has the wrong length */
    BLENTOVAR_OUTPUT_LENGTH = 4,
    /* a bit of a lent message, word or stretch is above 1; buffer and place say
     * which */
    BLENTOVAR_BIT_ABOVE_ONE = 5,
    /* no code word within t; for a kept record, no set of places with its sums */
    BLENTOVAR_NOTHING_NEAR = 6,
    /* in a kept record one of the first n bits is above 1 or one of the first
     * t sums is 2^m or more */
    BLENTOVAR_RECORD_CONTENTS = 7,
    /* 8 is struck: it is never answered, and no later refusal gets it */
    /* a frame, or the buffer for one, is not 32 bytes; the frames to be written
     * to a book are no multiple of 32 bytes */
    BLENTOVAR_FRAME_LENGTH = 9,
    /* a frame's last bit is 1 */
    BLENTOVAR_PAD_BIT = 10,
    /* a decoded frame's lead bits are wrong */
    BLENTOVAR_LEAD_BITS = 11,
    /* a stretch runs past the end: k for edit, n for splice */
    BLENTOVAR_STRETCH_END = 12,
    /* a book is shorter than 16 bytes, or its mark or its last number is wrong */
    BLENTOVAR_NO_TRAILER = 13,
    /* a book's count is above 1,000, its distance is not 32 times the count, or
     * it reaches before the start; the frames to be written are above 32,000
     * bytes */
    BLENTOVAR_BOOK_SIZE = 14,
    /* a book has no frame with this number */
    BLENTOVAR_NO_SUCH_FRAME = 15
};

/* The buffer that goes with BLENTOVAR_BIT_ABOVE_ONE. */
enum {
    BLENTOVAR_WORD_OR_ONLY = 0,
    BLENTOVAR_EDIT_STRETCH = 1
};

/* The sizes: bits and sums of a kept record, which are also the largest n and
 * the largest t; bytes of a frame; bytes of a poll book's trailer, and the most
 * frames that a book holds. */
enum {
    BLENTOVAR_BITS = 1023,
    BLENTOVAR_SUMS = 255,
    BLENTOVAR_FRAME_BYTES = 32,
    BLENTOVAR_TRAILER_BYTES = 16,
    BLENTOVAR_BOOK_FRAMES = 1000
};

typedef struct blentovar_sizes_answer {
    uint32_t number;
    uint32_t zero_after_number;
    size_t n;
    size_t k;
} blentovar_sizes_answer;

typedef struct blentovar_describe_answer {
    uint32_t number;
    uint32_t zero_after_number;
    size_t n;
    size_t k;
} blentovar_describe_answer;

typedef struct blentovar_encode_answer {
    uint32_t number;
    uint32_t buffer;
    size_t place;
} blentovar_encode_answer;

typedef struct blentovar_decode_answer {
    uint32_t number;
    uint32_t buffer;
    size_t place;
    size_t wrong;
} blentovar_decode_answer;

typedef struct blentovar_edit_answer {
    uint32_t number;
    uint32_t buffer;
    size_t place;
} blentovar_edit_answer;

/* A received word with its odd sums S_1, S_3, .. S_(2t-1). It is a plain value
 * and may be built by hand: what stands past n bits and t sums is neither
 * looked at nor changed. */
typedef struct blentovar_kept {
    size_t m;
    size_t t;
    uint8_t bits[BLENTOVAR_BITS];
    uint8_t zero_after_bits;
    uint16_t sums[BLENTOVAR_SUMS];
    uint16_t zero_after_sums;
} blentovar_kept;

typedef struct blentovar_kept_answer {
    uint32_t number;
    uint32_t buffer;
    size_t place;
    blentovar_kept record;
} blentovar_kept_answer;

typedef struct blentovar_decode_kept_answer {
    uint32_t number;
    uint32_t zero_after_number;
    size_t wrong;
} blentovar_decode_kept_answer;

typedef struct blentovar_read_answer {
    uint32_t number;
    uint16_t house;
    uint16_t poll;
    uint64_t counter;
    size_t wrong;
} blentovar_read_answer;

typedef struct blentovar_look_answer {
    uint32_t number;
    uint32_t zero_after_number;
    size_t count;
} blentovar_look_answer;

/* A part of a lent buffer. */
typedef struct blentovar_part_answer {
    uint32_t number;
    uint32_t zero_after_number;
    size_t offset;
    size_t length;
} blentovar_part_answer;

/* The sizes of the code of (m, t), by which the buffers of the other functions
 * are made.
 * Checks: 1, 2.
 * Answers the number, n and k; refused, n and k are 0. */
blentovar_sizes_answer blentovar_sizes(size_t m, size_t t);

/* The code of (m, t).
 * generator: n - k + 1 places, written; place i is its coefficient of x^i.
 * Checks: 1, 2, 4.
 * Answers the number, n and k; refused, n and k are 0 and generator is as lent. */
blentovar_describe_answer blentovar_describe(size_t m, size_t t,
                                             uint8_t *generator, size_t generator_places);

/* The code word that carries a message.
 * message: k places, read. word: n places, written; parity in places 0 to
 * n-k-1, message place i in place n-k+i.
 * Checks: 1, 2, 3, 4, 5.
 * Answers the number, and with 5 the place in message; refused, word is as
 * lent. */
blentovar_encode_answer blentovar_encode(size_t m, size_t t,
                                         const uint8_t *message, size_t message_places,
                                         uint8_t *word, size_t word_places);

/* The code word within t of what was received.
 * received: n places, read. word: n places, written. list: t places, written;
 * the wrong places ascending, then zeros.
 * Checks: 1, 2, 3, 4 (word, then list), 5, 6.
 * Answers the number, with 5 the place in received, and how many places were
 * wrong, which tells how much of list are places; refused, wrong is 0 and word
 * and list are as lent. */
blentovar_decode_answer blentovar_decode(size_t m, size_t t,
                                         const uint8_t *received, size_t received_places,
                                         uint8_t *word, size_t word_places,
                                         uint16_t *list, size_t list_places);

/* Replaces message places of a word, from message place start on.
 * word: n places, read and written; it may be no code word: what changes is
 * the code word that carries the change of the message. stretch: any length,
 * read; it ends at message place k or before, and may be empty.
 * Checks: 1, 2, 3, 12, 5 (word, then stretch).
 * Answers the number, and with 5 the buffer and the place in word or in
 * stretch; refused, word is as lent. */
blentovar_edit_answer blentovar_edit(size_t m, size_t t,
                                     uint8_t *word, size_t word_places,
                                     size_t start,
                                     const uint8_t *stretch, size_t stretch_places);

/* A record of a received word.
 * word: n places, read.
 * Checks: 1, 2, 3, 5.
 * Answers the number, with 5 the place in word, and the record, zeros past n
 * bits and past t sums; refused, the record is all zeros, m and t too. */
blentovar_kept_answer blentovar_open(size_t m, size_t t,
                                     const uint8_t *word, size_t word_places);

/* Replaces places of a kept word, from place start on, and adds the sums of
 * the places that changed to the first t stored ones.
 * stretch: any length, read; it ends at place n or before, and may be empty.
 * Checks: 1, 2, 7, 12, 5.
 * Answers the number, with 5 the place in stretch, and the record; refused, it
 * is the record that came in. */
blentovar_kept_answer blentovar_splice(blentovar_kept kept, size_t start,
                                       const uint8_t *stretch, size_t stretch_places);

/* Mends a kept word by its stored sums, which are believed as they are.
 * word: n places, written. list: t places, written; the wrong places
 * ascending, then zeros.
 * Checks: 1, 2, 7, 4 (word, then list), 6.
 * Answers the number and how many places were wrong; refused, wrong is 0 and
 * word and list are as lent. */
blentovar_decode_kept_answer blentovar_decode_kept(blentovar_kept kept,
                                                   uint8_t *word, size_t word_places,
                                                   uint16_t *list, size_t list_places);

/* The frame of a reading; every value of the three fields is lawful.
 * frame: 32 bytes, written.
 * Checks: 9.
 * Answers the number; refused, frame is as lent. */
uint32_t blentovar_make_frame(uint16_t house, uint16_t poll, uint64_t counter,
                              uint8_t *frame, size_t frame_bytes);

/* The reading of a frame.
 * frame: 32 bytes, read.
 * Checks: 9, 10, 6, 11.
 * Answers the number, the reading and how many places were wrong; refused,
 * house, poll, counter and wrong are 0. */
blentovar_read_answer blentovar_read_frame(const uint8_t *frame, size_t frame_bytes);

/* How many frames a poll book holds.
 * book: any length, read.
 * Checks: 13, 14.
 * Answers the number and the count; refused, count is 0. */
blentovar_look_answer blentovar_look_at_book(const uint8_t *book, size_t book_bytes);

/* Where frame i of a poll book stands; the first one is frame 0.
 * book: any length, read.
 * Checks: 13, 14, 15.
 * Answers the number and the part of book that is the frame: offset, counted
 * from the first byte that was lent, and length, which is 32. Nothing is copied.
 * Refused, offset and length are 0. */
blentovar_part_answer blentovar_read_book(const uint8_t *book, size_t book_bytes,
                                          size_t i);

/* Writes the poll book of some frames.
 * frames: 32 bytes for each frame, at most 32,000, read; what they hold is not
 * looked at. book: as many bytes and 16 more, written; the frames, then the
 * trailer.
 * Checks: 14, 9, 4.
 * Answers the number; refused, book is as lent. */
uint32_t blentovar_write_book(const uint8_t *frames, size_t frames_bytes,
                              uint8_t *book, size_t book_bytes);

#ifdef __cplusplus
}
#endif

#endif
