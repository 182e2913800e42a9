/* The operations on integers of 128 bits that clang calls functions for. On other targets its runtime library has them. */
#include <stdint.h>

typedef unsigned __int128 u128;

typedef union {
    u128 whole;
    struct {
        uint64_t low, high;
    } half;
} parts;

u128 __multi3(u128 one, u128 other);
u128 __ashlti3(u128 value, int bits);
u128 __lshrti3(u128 value, int bits);

/* The product of two numbers of 64 bits, by their halves. */
static u128 product(uint64_t one, uint64_t other) {
    uint64_t mask = UINT32_MAX;
    uint64_t low = (one & mask) * (other & mask);
    uint64_t middle = (one >> 32) * (other & mask) + (low >> 32);
    uint64_t rest = (one & mask) * (other >> 32) + (middle & mask);
    parts result;
    result.half.low = (rest << 32) | (low & mask);
    result.half.high = (one >> 32) * (other >> 32) + (middle >> 32) + (rest >> 32);
    return result.whole;
}

u128 __multi3(u128 one, u128 other) {
    parts a = {one}, b = {other}, result = {product(a.half.low, b.half.low)};
    result.half.high += a.half.high * b.half.low + a.half.low * b.half.high;
    return result.whole;
}

u128 __ashlti3(u128 value, int bits) {
    parts a = {value}, result = {value};
    if (bits == 0) return value;
    result.half.low = bits < 64 ? a.half.low << bits : 0;
    result.half.high = bits < 64 ? (a.half.high << bits) | (a.half.low >> (64 - bits)) : a.half.low << (bits - 64);
    return result.whole;
}

u128 __lshrti3(u128 value, int bits) {
    parts a = {value}, result = {value};
    if (bits == 0) return value;
    result.half.low = bits < 64 ? (a.half.low >> bits) | (a.half.high << (64 - bits)) : a.half.high >> (bits - 64);
    result.half.high = bits < 64 ? a.half.high >> bits : 0;
    return result.whole;
}
