// The line of a measure that was taken several times.
#include "measures.h"
#include <stdio.h>
#include <stdlib.h>

static int ascending(const void *x, const void *y) {
    double a = *(const double *)x, b = *(const double *)y;
    return (a > b) - (a < b);
}

void print_spread(const char *measure, const struct measured_case *c, double *values, size_t count) {
    qsort(values, count, sizeof *values, ascending);
    printf("%s\t(%zu,%zu,%zu)\t%s\t%s\t%.0f\t%.0f\t%.0f\n", measure, c->code->n, c->code->k, c->code->t, c->operation, c->name, values[0],
           values[count / 2], values[count - 1]);
    fflush(stdout);
}
