/* Calls every function of the library and compares answers and buffers with what the definitions say. */
#include "checks.h"

#include <stdio.h>

static size_t calls;
static size_t differing;

void report(const char *operation, size_t row, int is_as_expected)
{
    calls += 1;
    if (!is_as_expected) {
        differing += 1;
        printf("card_test: %s differs, row %zu\n", operation, row);
    }
}

int main(void)
{
    check_whole_words();
    check_kept_records();
    check_frames();
    check_books();
    if (differing > 0) {
        printf("card_test: %zu calls, %zu differ\n", calls, differing);
        return 1;
    }
    printf("card_test: %zu calls, nothing differs\n", calls);
    return 0;
}
