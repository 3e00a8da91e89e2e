/* The parts of the test, and how they report a call. */
#ifndef CHECKS_H
#define CHECKS_H

#include <stddef.h>
#include <string.h>

/* Whether two structs are the same in every byte, those named zero_ too. */
#define SAME_BYTES(x, y) (memcmp(&(x), &(y), sizeof(x)) == 0)

/* Counts a call; where it differs, says which row of which operation. */
void report(const char *operation, size_t row, int is_as_expected);

void check_whole_words(void);
void check_kept_records(void);
void check_frames(void);
void check_books(void);

#endif
