// The arithmetic of 128 bits that LLVM calls by name where no libgcc is linked. None may use what it is made for.
typedef unsigned long u64;
typedef unsigned __int128 u128;
typedef union { u128 whole; struct { u64 low, high; }; } halves;

u128 __multi3(u128 x, u128 y) {
    halves a = { x }, b = { y }, product;
    u64 a0 = (unsigned)a.low, a1 = a.low >> 32, b0 = (unsigned)b.low, b1 = b.low >> 32;
    u64 first = a0 * b0;
    u64 second = a1 * b0 + (first >> 32);
    u64 third = a0 * b1 + (unsigned)second;
    product.low = third << 32 | (unsigned)first;
    product.high = a1 * b1 + (second >> 32) + (third >> 32) + a.low * b.high + a.high * b.low;
    return product.whole;
}

u128 __ashlti3(u128 x, int n) {
    halves a = { x }, shifted = { x };
    if (n >= 64) {
        shifted.low = 0;
        shifted.high = a.low << (n - 64);
    } else if (n > 0) {
        shifted.low = a.low << n;
        shifted.high = a.high << n | a.low >> (64 - n);
    }
    return shifted.whole;
}

u128 __lshrti3(u128 x, int n) {
    halves a = { x }, shifted = { x };
    if (n >= 64) {
        shifted.high = 0;
        shifted.low = a.high >> (n - 64);
    } else if (n > 0) {
        shifted.high = a.high >> n;
        shifted.low = a.low >> n | a.high << (64 - n);
    }
    return shifted.whole;
}
