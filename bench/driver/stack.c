// Bytes of stack that a call uses: its stack was filled with a pattern, and the deepest byte that changed tells.
#include "measures.h"
#include "own_stack.h"
#include <string.h>

enum { PATTERN = 0xa5 };

static size_t bytes_of(const struct measured_case *c, struct input *in) {
    const uint8_t *stack = memset(own_stack(), PATTERN, STACK_BYTES);
    run_on_own_stack(c->call, c, in);
    size_t untouched = 0;
    while (untouched < STACK_BYTES && stack[untouched] == PATTERN) untouched++;
    return STACK_BYTES - untouched;
}

// The same input with a fault that is seen late: a bit above 1, the pad of a frame, and a book whose first byte is not lent.
static struct input with_fault(const struct measured_case *c, struct input in) {
    in.message[c->code->k - 1] = 2;
    in.received[c->code->n - 1] = 2;
    in.kept.bits[c->code->n - 1] = 2;
    in.frame[BLENTOVAR_FRAME_BYTES - 1] |= 1;
    in.not_lent = 1;
    return in;
}

void measure_stack(const struct measured_case *c, struct input inputs[WORDS]) {
    double bytes[2 * WORDS];
    for (size_t i = 0; i < WORDS; i++) {
        bytes[i] = bytes_of(c, &inputs[i]);
        struct input faulty = with_fault(c, inputs[i]);
        bytes[WORDS + i] = bytes_of(c, &faulty);
    }
    print_spread("stack", c, bytes, 2 * WORDS);
}
