/* What LLVM calls by name for 128-bit integers on WebAssembly, which has no libgcc. Shifts by 64 it writes out. */
typedef unsigned long u64;
typedef long i64;
typedef unsigned __int128 u128;
typedef __int128 i128;

static u128 joined(u64 high, u64 low) {
    return (u128)high << 64 | low;
}

/* The product of two halves, from those of their quarters. */
static u128 product(u64 a, u64 b) {
    u64 a0 = (unsigned)a, a1 = a >> 32, b0 = (unsigned)b, b1 = b >> 32;
    u64 least = a0 * b0, middle = a1 * b0 + (least >> 32), other = a0 * b1 + (unsigned)middle;
    return joined(a1 * b1 + (middle >> 32) + (other >> 32), other << 32 | (unsigned)least);
}

u128 __multi3(u128 x, u128 y) {
    u64 crosswise = (u64)x * (u64)(y >> 64) + (u64)(x >> 64) * (u64)y;
    return product((u64)x, (u64)y) + joined(crosswise, 0);
}

u128 __ashlti3(u128 x, int n) {
    u64 high = x >> 64, low = (u64)x;
    if (n & 64) return joined(low << (n & 63), 0);
    return n ? joined(high << n | low >> (64 - n), low << n) : x;
}

u128 __lshrti3(u128 x, int n) {
    u64 high = x >> 64, low = (u64)x;
    if (n & 64) return high >> (n & 63);
    return n ? joined(high >> n, low >> n | high << (64 - n)) : x;
}

i128 __ashrti3(i128 x, int n) {
    i64 high = (i64)(x >> 64);
    if (n & 64) return high >> (n & 63);
    return n ? (i128)joined((u64)(high >> n), (u64)x >> n | (u64)high << (64 - n)) : x;
}

/* The flag -expand-div-rem-bits=64 writes divisions out here. */
i128 __divti3(i128 x, i128 y) {
    return x / y;
}

u128 __udivti3(u128 x, u128 y) {
    return x / y;
}
