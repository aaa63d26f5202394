/* Sorts COUNT numbers by quicksort, which calls itself, and sums them up, each times its place. */
#define EXPECTED 3325750161u
enum { COUNT = 17920 };

static int numbers[COUNT];

/* Each number from the one before it (xorshift, 32 bits). */
static void fill(void) {
    unsigned x = 2463534242u;
    for (int i = 0; i < COUNT; ++i) {
        x ^= x << 13;
        x ^= x >> 17;
        x ^= x << 5;
        numbers[i] = (int)x;
    }
}

/* Sorts the numbers from `first` to `last`, both included: Hoare's partition by the middle one, then each part. */
static void sort(int first, int last) {
    int low = first, high = last, pivot = numbers[first + (last - first) / 2];
    while (low <= high) {
        while (numbers[low] < pivot) ++low;
        while (numbers[high] > pivot) --high;
        if (low > high) break;
        int number = numbers[low];
        numbers[low++] = numbers[high];
        numbers[high--] = number;
    }
    if (first < high) sort(first, high);
    if (low < last) sort(low, last);
}

static unsigned answer(void) {
    fill();
    sort(0, COUNT - 1);
    unsigned sum = 0;
    for (int i = 0; i < COUNT; ++i) {
        if (i > 0 && numbers[i - 1] > numbers[i]) return 0;
        sum += (unsigned)numbers[i] * (unsigned)i;
    }
    return sum;
}

/* Answers 0 if it comes to what a native build comes to. */
__attribute__((export_name("invoke"))) int invoke(void) { return answer() != EXPECTED; }
