// Instructions a call: the processor stops after each one, and the stops are counted by address.
#define _GNU_SOURCE
#include "measures.h"
#include "own_stack.h"
#include <signal.h>
#include <stdio.h>
#include <stdlib.h>
#include <string.h>
#include <ucontext.h>

enum { STEPPED_WORDS = 3, TEXT_BYTES = 1 << 22 };

// A call with more instructions than this is counted with one word only, since each stop takes long.
static const double many = 1e6;

// Set by the linker: where the program's code begins and ends.
extern const char __executable_start, etext;

static uint32_t stops[TEXT_BYTES];
static uint64_t last;

// A repeated string instruction stops at each round; it is one instruction.
static void count_stop(int number, siginfo_t *info, void *context) {
    (void)number, (void)info;
    uint64_t at = ((ucontext_t *)context)->uc_mcontext.gregs[REG_RIP];
    uint64_t offset = at - (uint64_t)&__executable_start;
    if (at != last && offset < TEXT_BYTES) stops[offset]++;
    last = at;
}

static void stop_after_each(void) { __asm__ volatile("pushfq; orq $0x100, (%%rsp); popfq" ::: "memory", "cc"); }

static void stop_no_more(void) { __asm__ volatile("pushfq; andq $~0x100, (%%rsp); popfq" ::: "memory", "cc"); }

static void catch_stops(void) {
    static char stack[1 << 16];
    stack_t own = {.ss_sp = stack, .ss_size = sizeof stack};
    struct sigaction action = {.sa_sigaction = count_stop, .sa_flags = SA_SIGINFO | SA_ONSTACK};
    if (&etext - &__executable_start < TEXT_BYTES && sigaltstack(&own, NULL) == 0 && sigaction(SIGTRAP, &action, NULL) == 0) return;
    fprintf(stderr, "the instructions cannot be counted here\n");
    exit(1);
}

static uint64_t stops_in_all(void) {
    uint64_t sum = 0;
    for (size_t i = 0; i < TEXT_BYTES; i++) sum += stops[i];
    return sum;
}

static void print_stops(void) {
    uint64_t start = (uint64_t)&__executable_start;
    for (size_t i = 0; i < TEXT_BYTES; i++) {
        if (stops[i] > 0) printf("at\t%lx\t%u\n", start + i, stops[i]);
    }
}

static uint32_t call_with_stops(const struct measured_case *c, struct input *in) {
    stop_after_each();
    uint32_t number = c->call(c, in);
    stop_no_more();
    return number;
}

// On a stack that begins at a page: copying and filling take a few instructions more or less by where the bytes lie.
static double stepped(const struct measured_case *c, struct input *in) {
    uint64_t before = stops_in_all();
    run_on_own_stack(call_with_stops, c, in);
    return stops_in_all() - before;
}

void measure_instructions(const struct measured_case *c, struct input inputs[WORDS]) {
    double counts[STEPPED_WORDS];
    memset(stops, 0, sizeof stops);
    catch_stops();
    counts[0] = stepped(c, &inputs[0]);
    size_t words = counts[0] > many ? 1 : STEPPED_WORDS;
    for (size_t i = 1; i < words; i++) counts[i] = stepped(c, &inputs[i]);
    print_spread("instructions", c, counts, words);
    print_stops();
}
