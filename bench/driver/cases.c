// The cases in order, with made-up words that are the same at each start.
#include "cases.h"
#include "calls.h"
#include <stdio.h>
#include <stdlib.h>
#include <string.h>

const struct code codes[CODES] = {{4, 3, 15, 5}, {8, 23, 255, 99}, {10, 57, 1023, 513}, {10, 255, 1023, 11}};

static const struct code *const link_code = &codes[1];

uint8_t book[BOOK_BYTES];

static uint64_t state = 0x9e3779b97f4a7c15;

static uint64_t made_up(void) {
    state ^= state << 13;
    state ^= state >> 7;
    state ^= state << 17;
    return state >> 16;
}

static void fill_bits(uint8_t *bits, size_t count) {
    for (size_t i = 0; i < count; i++) bits[i] = made_up() & 1;
}

static void expect_taken(uint32_t number, const char *what) {
    if (number == 0) return;
    fprintf(stderr, "%s was refused: %u\n", what, number);
    exit(1);
}

// Turns over exactly so many places.
static void flip(uint8_t *bits, size_t n, size_t count) {
    for (size_t i = 0; i < n && count > 0; i++) {
        if (made_up() % (n - i) < count) {
            bits[i] ^= 1;
            count--;
        }
    }
}

// A stretch that differs in every place from the bits it replaces.
static void fill_stretch(const struct measured_case *c, struct input *in) {
    int is_edit = c->call == call_edit;
    size_t end = is_edit ? c->code->k : c->code->n;
    in->start = made_up() % (end - c->places + 1);
    const uint8_t *old = is_edit ? in->received + c->code->n - c->code->k : in->received;
    for (size_t i = 0; i < c->places; i++) in->stretch[i] = old[in->start + i] ^ (is_edit ? 0 : 1);
}

static void fill_frame(const struct measured_case *c, struct input *in) {
    in->house = made_up();
    in->poll = made_up();
    in->counter = made_up() << 32 ^ made_up();
    in->frame_of_book = in->counter % BLENTOVAR_BOOK_FRAMES;
    expect_taken(blentovar_make_frame(in->house, in->poll, in->counter, in->frame, BLENTOVAR_FRAME_BYTES), "making a frame");
    uint8_t wrong[255] = {0};
    flip(wrong, 255, c->wrong);
    for (size_t sent = 0; sent < 255; sent++) in->frame[sent / 8] ^= wrong[sent] << (7 - sent % 8);
}

static void fill_input(const struct measured_case *c, struct input *in) {
    const struct code *code = c->code;
    memset(in, 0, sizeof *in);
    fill_bits(in->message, code->k);
    expect_taken(blentovar_encode(code->m, code->t, in->message, code->k, in->received, code->n).number, "encoding");
    if (c->wrong == MADE_UP_BITS)
        fill_bits(in->received, code->n);
    else
        flip(in->received, code->n, c->wrong);
    blentovar_kept_answer opened = blentovar_open(code->m, code->t, in->received, code->n);
    expect_taken(opened.number, "opening");
    in->kept = opened.record;
    fill_stretch(c, in);
    if (c->code == link_code && c->wrong != MADE_UP_BITS) fill_frame(c, in);
}

static void fill_book(void) {
    static uint8_t frames[BOOK_BYTES - BLENTOVAR_TRAILER_BYTES];
    for (size_t i = 0; i < sizeof frames; i++) frames[i] = made_up();
    expect_taken(blentovar_write_book(frames, sizeof frames, book, BOOK_BYTES), "writing a book");
}

// What has at most t wrong places must be taken: a refusal would be measured in place of the work.
static void run_case(measure *measure, struct measured_case c) {
    static struct input inputs[WORDS];
    for (size_t i = 0; i < WORDS; i++) {
        fill_input(&c, &inputs[i]);
        uint32_t number = c.call(&c, &inputs[i]);
        if (c.wrong <= c.code->t) expect_taken(number, c.name);
    }
    measure(&c, inputs);
}

static void plain(measure *measure, const struct code *code, const char *operation, call *call) {
    struct measured_case c = {code, operation, call, 0, 0, ""};
    snprintf(c.name, sizeof c.name, "%s", operation);
    run_case(measure, c);
}

static void with_wrong(measure *measure, const struct code *code, const char *operation, call *call, size_t wrong) {
    struct measured_case c = {code, operation, call, wrong, 0, ""};
    if (wrong == code->t)
        snprintf(c.name, sizeof c.name, "%s, t wrong", operation);
    else if (wrong == code->t + 1)
        snprintf(c.name, sizeof c.name, "%s, t + 1 wrong", operation);
    else
        snprintf(c.name, sizeof c.name, "%s, %zu wrong", operation, wrong);
    run_case(measure, c);
}

static void with_stretches(measure *measure, const struct code *code, const char *operation, call *call, size_t end) {
    static const size_t lengths[] = {1, 8, LONGEST_STRETCH};
    for (size_t i = 0; i < 3 && lengths[i] <= end; i++) {
        struct measured_case c = {code, operation, call, 0, lengths[i], ""};
        snprintf(c.name, sizeof c.name, "%s of %zu", operation, lengths[i]);
        run_case(measure, c);
    }
}

static void decodes(measure *measure, const struct code *code) {
    const size_t wrong[] = {0, 1, 5, code->t, code->t + 1};
    for (size_t i = 0; i < 5; i++) with_wrong(measure, code, "Decode", call_decode, wrong[i]);
    struct measured_case random = {code, "Decode", call_decode, MADE_UP_BITS, 0, "Decode, random bits"};
    run_case(measure, random);
}

// These two use no words up: the other calls keep theirs, and their numbers can be compared with those from before there were these two.
static void sizes(measure *measure, const struct code *code) {
    uint64_t before = state;
    plain(measure, code, "Sizes", call_sizes);
    state = before;
}

static void bad_bit(measure *measure, const struct code *code) {
    uint64_t before = state;
    struct measured_case last = {code, "Decode", call_decode_bad_bit, 0, 0, "Decode, last bit bad"};
    run_case(measure, last);
    state = before;
}

static void each_of_code(measure *measure, const struct code *code) {
    sizes(measure, code);
    plain(measure, code, "Describe", call_describe);
    plain(measure, code, "Encode", call_encode);
    decodes(measure, code);
    bad_bit(measure, code);
    with_stretches(measure, code, "Edit", call_edit, code->k);
    plain(measure, code, "Open", call_open);
    with_stretches(measure, code, "Splice", call_splice, code->n);
    with_wrong(measure, code, "Decode kept", call_decode_kept, 0);
    with_wrong(measure, code, "Decode kept", call_decode_kept, code->t);
}

// The book uses no words up either: in the next round the other calls get the words that they got before there was a book.
static void books(measure *measure) {
    uint64_t before = state;
    const struct measured_case rows[] = {
        {link_code, "Look at a book", call_look_at_book, 0, 0, "Look at a book of 1,000"},
        {link_code, "Read a frame of a book", call_read_book, 0, 0, "Read a frame of a book of 1,000"},
        {link_code, "Write a book", call_write_book, 0, 0, "Write a book of 1,000"},
    };
    fill_book();
    for (size_t i = 0; i < sizeof rows / sizeof *rows; i++) run_case(measure, rows[i]);
    state = before;
}

void each_case(measure *measure) {
    for (size_t i = 0; i < CODES; i++) each_of_code(measure, &codes[i]);
    plain(measure, link_code, "Make a frame", call_make_frame);
    with_wrong(measure, link_code, "Read a frame", call_read_frame, 0);
    with_wrong(measure, link_code, "Read a frame", call_read_frame, 5);
    with_wrong(measure, link_code, "Read a frame", call_read_frame, link_code->t);
    books(measure);
}
