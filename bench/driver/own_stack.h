// A call on a stack of its own, which begins at a page at every start.
#pragma once
#include "cases.h"

enum { STACK_BYTES = 1 << 18 };

uint8_t *own_stack(void);

void run_on_own_stack(call *call, const struct measured_case *c, struct input *in);
