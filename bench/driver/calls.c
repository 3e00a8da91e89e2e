// Each operation as a call on one input, with buffers that are there for the next call too.
#include "calls.h"

static uint8_t written_book[BOOK_BYTES];
static uint8_t word[1023];
static uint8_t generator[1024];
static uint16_t list[255];

uint32_t call_sizes(const struct measured_case *c, struct input *in) {
    (void)in;
    return blentovar_sizes(c->code->m, c->code->t).number;
}

uint32_t call_describe(const struct measured_case *c, struct input *in) {
    (void)in;
    return blentovar_describe(c->code->m, c->code->t, generator, c->code->n - c->code->k + 1).number;
}

uint32_t call_encode(const struct measured_case *c, struct input *in) {
    return blentovar_encode(c->code->m, c->code->t, in->message, c->code->k, word, c->code->n).number;
}

uint32_t call_decode(const struct measured_case *c, struct input *in) {
    return blentovar_decode(c->code->m, c->code->t, in->received, c->code->n, word, c->code->n, list, c->code->t).number;
}

// A refusal that has looked at every place; 0 where it is refused as it must be.
uint32_t call_decode_bad_bit(const struct measured_case *c, struct input *in) {
    size_t last = c->code->n - 1;
    in->received[last] = 2;
    blentovar_decode_answer answer =
        blentovar_decode(c->code->m, c->code->t, in->received, c->code->n, word, c->code->n, list, c->code->t);
    return answer.number != BLENTOVAR_BIT_ABOVE_ONE || answer.place != last;
}

// The stretch is turned over first, so that the next call changes every place of it again.
uint32_t call_edit(const struct measured_case *c, struct input *in) {
    for (size_t i = 0; i < c->places; i++) in->stretch[i] ^= 1;
    return blentovar_edit(c->code->m, c->code->t, in->received, c->code->n, in->start, in->stretch, c->places).number;
}

uint32_t call_open(const struct measured_case *c, struct input *in) {
    return blentovar_open(c->code->m, c->code->t, in->received, c->code->n).number;
}

uint32_t call_splice(const struct measured_case *c, struct input *in) {
    return blentovar_splice(in->kept, in->start, in->stretch, c->places).number;
}

uint32_t call_decode_kept(const struct measured_case *c, struct input *in) {
    return blentovar_decode_kept(in->kept, word, c->code->n, list, c->code->t).number;
}

uint32_t call_make_frame(const struct measured_case *c, struct input *in) {
    (void)c;
    return blentovar_make_frame(in->house, in->poll, in->counter, in->frame, BLENTOVAR_FRAME_BYTES);
}

uint32_t call_read_frame(const struct measured_case *c, struct input *in) {
    (void)c;
    return blentovar_read_frame(in->frame, BLENTOVAR_FRAME_BYTES).number;
}

uint32_t call_look_at_book(const struct measured_case *c, struct input *in) {
    (void)c;
    return blentovar_look_at_book(book + in->not_lent, BOOK_BYTES - in->not_lent).number;
}

uint32_t call_read_book(const struct measured_case *c, struct input *in) {
    (void)c;
    return blentovar_read_book(book + in->not_lent, BOOK_BYTES - in->not_lent, in->frame_of_book).number;
}

uint32_t call_write_book(const struct measured_case *c, struct input *in) {
    (void)c;
    return blentovar_write_book(book, BOOK_BYTES - BLENTOVAR_TRAILER_BYTES, written_book + in->not_lent, BOOK_BYTES - in->not_lent);
}
