// The three measures, and the line that each prints.
#pragma once
#include "cases.h"

measure measure_instructions, measure_stack;

// Takes the times of all cases and prints them.
void measure_all_ns(void);

// Prints the case and the least, the middle and the greatest of the values, which it sorts.
void print_spread(const char *measure, const struct measured_case *c, double *values, size_t count);
