/* What the tests in C share: they count what holds, and print each thing that does not. */
#ifndef HOLDS_H
#define HOLDS_H

#include <stddef.h>
#include <stdint.h>
#include <stdio.h>
#include <string.h>

static int passed, failed;

static void holds(int does, const char *what)
{
    if (does) {
        passed++;
    } else {
        printf("%s: does not hold\n", what);
        failed++;
    }
}

#define HOLDS(what) holds((what), #what)

/* Prints the last line, and gives the program's status. */
static int summary(void)
{
    printf("%d passed, %d failed\n", passed, failed);
    return failed != 0;
}

/* Whether an answer is a refusal with that number and zeros beside it. */
static int refusal(const void *answer, size_t size, uint64_t number)
{
    const uint8_t *bytes = answer;
    uint64_t first;
    memcpy(&first, bytes, sizeof first);
    for (size_t i = sizeof first; i < size; i++)
        if (bytes[i] != 0)
            return 0;
    return first == number;
}

/* Writes a number to so many bytes, the lowest first. */
static inline void put(uint8_t *at, int width, uint64_t number)
{
    for (int i = 0; i < width; i++)
        at[i] = (uint8_t)(number >> (8 * i));
}

#endif
