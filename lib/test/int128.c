/* Compares lib/glue/wasm_int128.c with the compiler's own arithmetic. */
#define __multi3 glue_multiply
#define __ashlti3 glue_shift_left
#define __lshrti3 glue_shift_right
#define __ashrti3 glue_shift_signed
#define __divti3 glue_divide
#define __udivti3 glue_divide_unsigned
#include "../glue/wasm_int128.c"

#include "check.h"

enum { NUMBERS = 3000 };

static u64 seed = 7;

static u64 any(void) {
    seed = seed * 6364136223846793005UL + 1442695040888963407UL;
    return seed ^ seed >> 29;
}

/* A number with halves that are 0, all ones, or something else, of any length. */
static u128 some(void) {
    u64 edges[] = {0, 1, ~0UL, 1UL << 63, 0xffffffff, 1UL << 32}, at = any() % 12;
    u64 low = at < 6 ? edges[at] : any() >> any() % 64, high = any() % 3 ? edges[any() % 6] : any() >> any() % 64;
    return (u128)high << 64 | low;
}

int main(void) {
    int multiplies = 1, shifts = 1, divides = 1;
    for (int i = 0; i < NUMBERS; i++) {
        u128 x = some(), y = some();
        multiplies &= glue_multiply(x, y) == x * y;
        for (int n = 0; n < 128; n++) {
            shifts &= glue_shift_left(x, n) == x << n && glue_shift_right(x, n) == x >> n;
            shifts &= glue_shift_signed((i128)x, n) == (i128)x >> n;
        }
        if (y == 0) continue;
        divides &= glue_divide_unsigned(x, y) == x / y;
        if (x != (u128)1 << 127 || y != ~(u128)0) divides &= glue_divide((i128)x, (i128)y) == (i128)x / (i128)y;
    }
    check_that("products", multiplies);
    check_that("shifts", shifts);
    check_that("quotients", divides);
    return count();
}
