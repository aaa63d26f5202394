/* How many letters are put in, taken out or replaced to make one text of another (Levenshtein's distance). */
#define EXPECTED 281u
enum { LENGTH = 530, WIDTH = 510 };

static unsigned char one[LENGTH], other[WIDTH];

/* The distances of a beginning of `one` to each beginning of `other`. */
static int distance[WIDTH + 1];

/* Letters of four kinds (xorshift, 32 bits); answers the number to go on from. */
static unsigned fill(unsigned char *text, int length, unsigned x) {
    for (int i = 0; i < length; ++i) {
        x ^= x << 13;
        x ^= x >> 17;
        x ^= x << 5;
        text[i] = "ACGT"[x >> 30];
    }
    return x;
}

static int least(int a, int b) { return a < b ? a : b; }

/* From the distances of the first `at` letters to those of one letter more. */
static void next_letter(int at) {
    int diagonal = distance[0];
    distance[0] = at + 1;
    for (int i = 0; i < WIDTH; ++i) {
        int replaced = diagonal + (one[at] != other[i]);
        diagonal = distance[i + 1];
        distance[i + 1] = least(replaced, least(diagonal, distance[i]) + 1);
    }
}

static unsigned answer(void) {
    fill(other, WIDTH, fill(one, LENGTH, 2463534242u));
    for (int i = 0; i <= WIDTH; ++i) distance[i] = i;
    for (int at = 0; at < LENGTH; ++at) next_letter(at);
    return (unsigned)distance[WIDTH];
}

/* Answers 0 if it comes to what a native build comes to. */
__attribute__((export_name("invoke"))) int invoke(void) { return answer() != EXPECTED; }
