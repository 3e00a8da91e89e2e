/* Buffers lent between guards, looked at whole after a call; texts for their contents. */
#ifndef LENT_H
#define LENT_H

#include <stddef.h>
#include <stdint.h>

/* There is room for a book that has a frame too many, and for some bytes before it. */
enum { GUARD = 16, ROOM = 32064 };

/* The places lent stand after GUARD others; what is expected is as long. */
struct lent8 {
    uint8_t *places;
    size_t length;
    uint8_t held[GUARD + ROOM + GUARD];
    uint8_t expected[GUARD + ROOM + GUARD];
};

struct lent16 {
    uint16_t *places;
    size_t length;
    uint16_t held[GUARD + ROOM + GUARD];
    uint16_t expected[GUARD + ROOM + GUARD];
};

/* A text is numbers with spaces between; 0*15 is fifteen zeros. Writes them
 * and gives how many; an absent text has none. */
size_t put_text(uint16_t *to, size_t room, const char *text);

/* Lends what the text says; an absent text lends a null pointer and length 0. */
void lend8(struct lent8 *buffer, const char *text);
void lend16(struct lent16 *buffer, const char *text);

/* What the places are to hold after the call, where not what was lent. */
void expect8(struct lent8 *buffer, const char *text);
void expect16(struct lent16 *buffer, const char *text);

int as_expected8(const struct lent8 *buffer);
int as_expected16(const struct lent16 *buffer);

#endif
