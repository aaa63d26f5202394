/* Counts 32-bit numbers in a hash map with open addressing, and answers 0 if each was counted as often as it came. */
enum { SLOTS = 8192, NUMBERS = 4096, ROUNDS = 36 };

struct slot {
    unsigned key, count;
};

static struct slot slots[SLOTS];

/* The number after this one (xorshift, 32 bits), which is never 0. */
static unsigned next(unsigned x) {
    x ^= x << 13;
    x ^= x >> 17;
    return x ^ x << 5;
}

/* The slot of a number, or the free one that it may take: the first of the two from its own place on. */
static struct slot *find(unsigned key) {
    unsigned at = key * 2654435769u >> 19;
    while (slots[at].key != 0 && slots[at].key != key) at = (at + 1) % SLOTS;
    return &slots[at];
}

static void count(void) {
    unsigned number = 2463534242u;
    for (int i = 0; i < NUMBERS; ++i) {
        struct slot *slot = find(number);
        slot->key = number;
        ++slot->count;
        number = next(number);
    }
}

__attribute__((export_name("invoke"))) int invoke(void) {
    for (int round = 0; round < ROUNDS; ++round) count();
    unsigned number = 2463534242u;
    for (int i = 0; i < NUMBERS; ++i) {
        if (find(number)->count != ROUNDS) return 1;
        number = next(number);
    }
    return 0;
}
