/* Sorts COUNT numbers in place (heap sort), and answers 0 if they ascend. */
#ifndef COUNT
#define COUNT 4096
#endif

static unsigned numbers[COUNT];

/* Each number from the one before it (xorshift, 32 bits). */
static void fill(void) {
    unsigned x = 2463534242u;
    for (int i = 0; i < COUNT; ++i) {
        x ^= x << 13;
        x ^= x >> 17;
        x ^= x << 5;
        numbers[i] = x;
    }
}

/* Lets the number at `at` sink below each of its children that is greater. */
static void sink(int at, int count) {
    unsigned number = numbers[at];
    for (int child = 2 * at + 1; child < count; child = 2 * at + 1) {
        if (child + 1 < count && numbers[child + 1] > numbers[child]) ++child;
        if (numbers[child] <= number) break;
        numbers[at] = numbers[child];
        at = child;
    }
    numbers[at] = number;
}

static void sort(void) {
    for (int at = COUNT / 2 - 1; at >= 0; --at) sink(at, COUNT);
    for (int last = COUNT - 1; last > 0; --last) {
        unsigned greatest = numbers[0];
        numbers[0] = numbers[last];
        numbers[last] = greatest;
        sink(0, last);
    }
}

__attribute__((export_name("invoke"))) int invoke(void) {
    fill();
    sort();
    for (int i = 1; i < COUNT; ++i)
        if (numbers[i - 1] > numbers[i]) return 1;
    return 0;
}
