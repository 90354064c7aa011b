/* Products and shifts of 128 bits. On WebAssembly LLVM calls these functions by name, and they are
   elsewhere in libgcc, which is not linked here. They are written with 64 bits each, because LLVM
   would compile a product of 128 bits to a call of the same function. A shift is by 0 to 127 bits.

   This file is not proved. tests/web.py runs each row of tests/rows with it.
   tests/web_functions.c calls its functions. */
typedef unsigned long long u64;
typedef union {
    unsigned __int128 whole;
    struct { u64 low, high; };
} halves;

unsigned __int128 __multi3(unsigned __int128 x, unsigned __int128 y) {
    halves a = {x}, b = {y}, product;
    u64 mask = 0xffffffff, a0 = a.low & mask, a1 = a.low >> 32, b0 = b.low & mask, b1 = b.low >> 32;
    u64 first = a0 * b0, second = a1 * b0 + (first >> 32), third = a0 * b1 + (second & mask);
    product.low = third << 32 | (first & mask);
    product.high = a1 * b1 + (second >> 32) + (third >> 32) + a.low * b.high + a.high * b.low;
    return product.whole;
}

unsigned __int128 __ashlti3(unsigned __int128 x, int bits) {
    halves a = {x}, shifted;
    int by = bits & 63;
    if (bits & 64) {
        shifted.low = 0;
        shifted.high = a.low << by;
    } else {
        shifted.low = a.low << by;
        shifted.high = a.high << by | a.low >> 1 >> (63 - by);
    }
    return shifted.whole;
}

unsigned __int128 __lshrti3(unsigned __int128 x, int bits) {
    halves a = {x}, shifted;
    int by = bits & 63;
    if (bits & 64) {
        shifted.high = 0;
        shifted.low = a.high >> by;
    } else {
        shifted.high = a.high >> by;
        shifted.low = a.low >> by | a.high << 1 << (63 - by);
    }
    return shifted.whole;
}
