// Measures every case in one way and prints a line for each: measure, code, operation, call, then numbers, with tabs between.
#include "measures.h"
#include <stdio.h>
#include <string.h>

int main(int count, char **words) {
    const char *wanted = count == 2 ? words[1] : "";
    if (strcmp(wanted, "ns") == 0)
        measure_all_ns();
    else if (strcmp(wanted, "instructions") == 0)
        each_case(measure_instructions);
    else if (strcmp(wanted, "stack") == 0)
        each_case(measure_stack);
    else {
        fprintf(stderr, "usage: driver ns|instructions|stack\n");
        return 2;
    }
    return 0;
}
