/* A fax of one blank page in MMR, of one strip, made in memory: each row is one code, vertical mode 0. */
#ifndef BLANK_H
#define BLANK_H
#include <stdint.h>
#include <stdlib.h>
#include <string.h>

static uint8_t *put_number(uint8_t *to, uint32_t number, int bytes) {
    int i;
    for (i = 0; i < bytes; i++) *to++ = (uint8_t)(number >> 8 * i);
    return to;
}

static uint8_t *put_field(uint8_t *to, uint32_t tag, uint32_t type, uint32_t count, uint32_t value) {
    return put_number(put_number(put_number(put_number(to, tag, 2), type, 2), count, 4), value, 4);
}

/* Its bytes, which the caller frees; `len` is their number. */
static uint8_t *blank_fax(uint32_t width, uint32_t rows, size_t *len) {
    enum { FIELDS = 9, LONG = 4, RATIONAL = 5 };
    const uint32_t fractions = 8 + 2 + FIELDS * 12 + 4, strip = fractions + 16, bytes = (rows + 7) / 8;
    uint8_t *file = malloc(strip + bytes), *to = file;
    if (!file) exit(3);
    to = put_number(put_number(put_number(to, 0x4949, 2), 42, 2), 8, 4);
    to = put_number(to, FIELDS, 2);
    to = put_field(to, 256, LONG, 1, width);
    to = put_field(to, 257, LONG, 1, rows);
    to = put_field(to, 259, LONG - 1, 1, 4);
    to = put_field(to, 262, LONG - 1, 1, 0);
    to = put_field(to, 273, LONG, 1, strip);
    to = put_field(to, 278, LONG, 1, rows);
    to = put_field(to, 279, LONG, 1, bytes);
    to = put_field(to, 282, RATIONAL, 1, fractions);
    to = put_field(to, 283, RATIONAL, 1, fractions + 8);
    to = put_number(to, 0, 4);
    to = put_number(put_number(to, 204, 4), 1, 4);
    to = put_number(put_number(to, 196, 4), 1, 4);
    memset(to, 0xFF, bytes);
    *len = strip + bytes;
    return file;
}

#endif
