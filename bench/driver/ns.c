// ns a call: the words in turn, so that no branch learns one of them; in rounds over all cases, so that a slow moment of the machine does not fall on one case alone.
#include "measures.h"
#include <stdio.h>
#include <stdlib.h>
#include <time.h>

enum { ROUNDS = 15, MOST_CASES = 128 };

static const double run_ns = 2e7;
static double taken[MOST_CASES][ROUNDS];
static size_t current_round, current_case;

static double now_ns(void) {
    struct timespec now;
    clock_gettime(CLOCK_MONOTONIC, &now);
    return now.tv_sec * 1e9 + now.tv_nsec;
}

static double ns_a_call(const struct measured_case *c, struct input inputs[WORDS], size_t calls) {
    double start = now_ns();
    for (size_t i = 0; i < calls; i++) c->call(c, &inputs[i % WORDS]);
    return (now_ns() - start) / calls;
}

static void take(const struct measured_case *c, struct input inputs[WORDS]) {
    if (current_case == MOST_CASES) {
        fprintf(stderr, "there are more than %d cases\n", MOST_CASES);
        exit(1);
    }
    size_t calls = WORDS + (size_t)(run_ns / ns_a_call(c, inputs, WORDS));
    taken[current_case++][current_round] = ns_a_call(c, inputs, calls);
}

static void print(const struct measured_case *c, struct input inputs[WORDS]) {
    (void)inputs;
    print_spread("ns", c, taken[current_case++], ROUNDS);
}

void measure_all_ns(void) {
    for (current_round = 0; current_round < ROUNDS; current_round++) {
        current_case = 0;
        each_case(take);
    }
    current_case = 0;
    each_case(print);
}
