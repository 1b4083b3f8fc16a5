/* What the programs that call the exported functions share. */
#ifndef EXPECT_H
#define EXPECT_H

#include "splitter.h"

#include <stddef.h>
#include <stdint.h>
#include <stdio.h>
#include <stdlib.h>
#include <string.h>

static int failures = 0;

static void expect(int holds, const char *what, int line) {
    if (!holds) {
        fprintf(stderr, "line %d: %s\n", line, what);
        failures += 1;
    }
}

#define EXPECT(condition) expect((condition), #condition, __LINE__)

static void put(uint8_t *data, const uint16_t *words, size_t count) {
    for (size_t i = 0; i < count; i++) {
        data[2 * i] = (uint8_t)(words[i] >> 8);
        data[2 * i + 1] = (uint8_t)words[i];
    }
}

/* Writes a link row, and gives the place of the next one. */
static uint32_t *row(uint32_t *links, uint32_t parent, uint32_t position, uint32_t width, uint32_t child, uint32_t kind) {
    const uint32_t numbers[SPLITTER_LINK_NUMBERS] = {parent, position, width, child, kind};
    memcpy(links, numbers, sizeof numbers);
    return links + SPLITTER_LINK_NUMBERS;
}

static uint32_t *offset(uint32_t *links, uint32_t parent, uint32_t position, uint32_t child) {
    return row(links, parent, position, 2, child, SPLITTER_OFFSET);
}

static uint32_t *order_only(uint32_t *links, uint32_t parent, uint32_t child) {
    return row(links, parent, 0, 0, child, SPLITTER_ORDER_ONLY);
}

/* Whether so many bytes are zero. */
static int all_zero(const void *from, size_t count) {
    const uint8_t *bytes = (const uint8_t *)from;
    uint8_t any = 0;
    for (size_t i = 0; i < count; i++) {
        any |= bytes[i];
    }
    return any == 0;
}

#endif
