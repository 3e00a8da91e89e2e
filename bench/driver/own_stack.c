// A call on a stack of its own, which begins at a page at every start.
#define _GNU_SOURCE
#include "own_stack.h"
#include <stdio.h>
#include <stdlib.h>
#include <sys/mman.h>
#include <ucontext.h>

static ucontext_t caller, callee;
static call *current_call;
static const struct measured_case *current_case;
static struct input *current_input;

static void run_current(void) { current_call(current_case, current_input); }

uint8_t *own_stack(void) {
    static uint8_t *stack;
    if (stack == NULL) stack = mmap(NULL, STACK_BYTES, PROT_READ | PROT_WRITE, MAP_PRIVATE | MAP_ANONYMOUS, -1, 0);
    if (stack != MAP_FAILED) return stack;
    fprintf(stderr, "there is no room for a stack\n");
    exit(1);
}

void run_on_own_stack(call *call, const struct measured_case *c, struct input *in) {
    current_call = call;
    current_case = c;
    current_input = in;
    getcontext(&callee);
    callee.uc_stack.ss_sp = own_stack();
    callee.uc_stack.ss_size = STACK_BYTES;
    callee.uc_link = &caller;
    makecontext(&callee, run_current, 0);
    swapcontext(&caller, &callee);
}
