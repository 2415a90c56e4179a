/* Counts what passed and what failed. */
#ifndef CHECK_H
#define CHECK_H

#include <stdint.h>
#include <stdio.h>
#include <stdlib.h>
#include <string.h>

static int passed, failed;

/* A case passes where the call answered this status and handed out this text, whole. */
static inline void check(const char *name, uint32_t status, const uint8_t *out, size_t needed, uint32_t wanted,
                         const char *text) {
    if (status == wanted && needed == strlen(text) && memcmp(out, text, needed) == 0) {
        passed++;
        return;
    }
    failed++;
    printf("%s: wanted status %u and '%s', got status %u and '%.*s'\n", name, wanted, text, status, (int)needed,
           (const char *)out);
}

static void check_that(const char *name, int holds) {
    if (holds) {
        passed++;
    } else {
        failed++;
        printf("%s: doesn't hold\n", name);
    }
}

/* The same of a call that hands out its text to `out`, whose length is `needed`: these are looked at after it. */
#define CHECK(name, call, wanted, text)                                         \
    do {                                                                        \
        uint32_t status = call;                                                 \
        check(name, status, out, needed, wanted, text);                         \
    } while (0)

/* Prints how many, and returns the exit status. */
static int count(void) {
    printf("%d passed, %d failed\n", passed, failed);
    return failed != 0;
}

#endif
