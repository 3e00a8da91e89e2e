/* Buffers lent between guards, looked at whole after a call; texts for their contents. */
#include "lent.h"

#include <stdio.h>
#include <stdlib.h>
#include <string.h>

enum { GUARD_BYTE = 0xA5 };

static void stop(const char *text)
{
    printf("card_test: a row is wrong: %s\n", text);
    exit(2);
}

static size_t put_again(uint16_t *to, unsigned long value, size_t count)
{
    for (size_t i = 0; i < count; i++) {
        to[i] = (uint16_t)value;
    }
    return count;
}

size_t put_text(uint16_t *to, size_t room, const char *text)
{
    size_t length = 0;
    const char *rest = text == NULL ? "" : text;
    while (*rest != '\0') {
        char *end;
        unsigned long value = strtoul(rest, &end, 10);
        unsigned long count = *end == '*' ? strtoul(end + 1, &end, 10) : 1;
        if (end == rest || value > UINT16_MAX || count > room - length) {
            stop(text);
        }
        length += put_again(to + length, value, count);
        rest = end;
    }
    return length;
}

static size_t put_bytes(uint8_t *to, const char *text)
{
    uint16_t numbers[ROOM];
    size_t length = put_text(numbers, ROOM, text);
    for (size_t i = 0; i < length; i++) {
        if (numbers[i] > UINT8_MAX) {
            stop(text);
        }
        to[i] = (uint8_t)numbers[i];
    }
    return length;
}

void lend8(struct lent8 *buffer, const char *text)
{
    memset(buffer->held, GUARD_BYTE, sizeof buffer->held);
    buffer->length = put_bytes(buffer->held + GUARD, text);
    buffer->places = text == NULL ? NULL : buffer->held + GUARD;
    memcpy(buffer->expected, buffer->held, sizeof buffer->held);
}

void lend16(struct lent16 *buffer, const char *text)
{
    memset(buffer->held, GUARD_BYTE, sizeof buffer->held);
    buffer->length = put_text(buffer->held + GUARD, ROOM, text);
    buffer->places = text == NULL ? NULL : buffer->held + GUARD;
    memcpy(buffer->expected, buffer->held, sizeof buffer->held);
}

void expect8(struct lent8 *buffer, const char *text)
{
    if (put_bytes(buffer->expected + GUARD, text) != buffer->length) {
        stop(text);
    }
}

void expect16(struct lent16 *buffer, const char *text)
{
    if (put_text(buffer->expected + GUARD, ROOM, text) != buffer->length) {
        stop(text);
    }
}

int as_expected8(const struct lent8 *buffer)
{
    return memcmp(buffer->held, buffer->expected, sizeof buffer->held) == 0;
}

int as_expected16(const struct lent16 *buffer)
{
    return memcmp(buffer->held, buffer->expected, sizeof buffer->held) == 0;
}
