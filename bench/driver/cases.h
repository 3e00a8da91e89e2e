// What is measured: the codes, the calls, and the made-up words that each call gets in turn.
#pragma once
#include "blentovar.h"

enum { CODES = 4, WORDS = 32, LONGEST_STRETCH = 64, BOOK_BYTES = BLENTOVAR_BOOK_FRAMES * BLENTOVAR_FRAME_BYTES + BLENTOVAR_TRAILER_BYTES };

struct code {
    size_t m, t, n, k;
};

extern const struct code codes[CODES];

// A poll book of 1,000 frames. All words share it, since what its frames hold is not looked at.
extern uint8_t book[BOOK_BYTES];

// The word of a call, in every form that a call may want.
struct input {
    uint8_t message[BLENTOVAR_BITS];
    uint8_t received[BLENTOVAR_BITS];
    blentovar_kept kept;
    size_t start;
    uint8_t stretch[LONGEST_STRETCH];
    uint8_t frame[BLENTOVAR_FRAME_BYTES];
    uint16_t house, poll;
    // Which frame of the book is read, and how many of the book's first bytes are not lent.
    uint16_t frame_of_book, not_lent;
    uint64_t counter;
};

struct measured_case;
typedef uint32_t call(const struct measured_case *, struct input *);

// One call on words of one kind: how many places are wrong (or that all bits are made up), and how long a stretch is.
struct measured_case {
    const struct code *code;
    const char *operation;
    call *call;
    size_t wrong;
    size_t places;
    char name[40];
};

enum { MADE_UP_BITS = 1 << 20 };

typedef void measure(const struct measured_case *, struct input inputs[WORDS]);

// Hands every case with its words to the measure.
void each_case(measure *measure);
