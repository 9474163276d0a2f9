// Functions in integers alone, for clang: each becomes a module of its own.
typedef unsigned u32;
typedef unsigned long long u64;
typedef unsigned char u8;

u32 gcd(u32 a, u32 b) {
    while (b) {
        u32 rest = a % b;
        a = b;
        b = rest;
    }
    return a;
}

u64 power(u64 base, u32 exponent) {
    u64 result = 1;
    for (; exponent; exponent >>= 1, base *= base)
        if (exponent & 1)
            result *= base;
    return result;
}

u32 fibonacci(u32 n) { return n < 2 ? n : fibonacci(n - 1) + fibonacci(n - 2); }

u32 adler(const u8 *bytes, u32 length) {
    u32 a = 1, b = 0;
    for (u32 i = 0; i < length; i++) {
        a = (a + bytes[i]) % 65521;
        b = (b + a) % 65521;
    }
    return b << 16 | a;
}

u64 fnv(const u8 *bytes, u32 length) {
    u64 hash = 14695981039346656037u;
    while (length--)
        hash = (hash ^ *bytes++) * 1099511628211u;
    return hash;
}

int days(int month, int leap) {
    switch (month) {
    case 1: return leap ? 29 : 28;
    case 3: case 5: case 8: case 10: return 30;
    case 0: case 2: case 4: case 6: case 7: case 9: case 11: return 31;
    default: return -1;
    }
}

static int twice(int x) { return 2 * x; }
static int square(int x) { return x * x; }
static int (*const table[2])(int) = {twice, square};
int apply(u32 which, int x) { return table[which & 1](x); }

void sort(int *items, int count) {
    for (int i = 1; i < count; i++) {
        int item = items[i], j = i;
        for (; j > 0 && items[j - 1] > item; j--)
            items[j] = items[j - 1];
        items[j] = item;
    }
}

int find(const short *sorted, int count, short wanted) {
    int low = 0, high = count;
    while (low < high) {
        int middle = low + (high - low) / 2;
        if (sorted[middle] < wanted)
            low = middle + 1;
        else
            high = middle;
    }
    return low < count && sorted[low] == wanted ? low : -1;
}

static u64 state = 88172645463325252u;
u64 next(void) {
    state ^= state << 13;
    state ^= state >> 7;
    return state ^= state << 17;
}
