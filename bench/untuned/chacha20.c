/* The exclusive or of the words of a ChaCha20 key stream of BLOCKS blocks (RFC 8439; key and nonce of 2.3.2). */
#define EXPECTED 865584607u
enum { BLOCKS = 2900 };

static unsigned rotate(unsigned x, int n) { return x << n | x >> (32 - n); }

#define QUARTER(a, b, c, d)                \
    a += b, d = rotate(d ^ a, 16);         \
    c += d, b = rotate(b ^ c, 12);         \
    a += b, d = rotate(d ^ a, 8);          \
    c += d, b = rotate(b ^ c, 7)

static const unsigned begin[16] = {0x61707865, 0x3320646e, 0x79622d32, 0x6b206574, 0x03020100, 0x07060504,
                                   0x0b0a0908, 0x0f0e0d0c, 0x13121110, 0x17161514, 0x1b1a1918, 0x1f1e1d1c,
                                   0,          0x09000000, 0x4a000000, 0};

/* The exclusive or of the words of the block of this counter. */
static unsigned block(unsigned counter) {
    unsigned x[16], folded = 0;
    for (int i = 0; i < 16; ++i) x[i] = begin[i];
    x[12] = counter;
    for (int round = 0; round < 10; ++round) {
        QUARTER(x[0], x[4], x[8], x[12]);
        QUARTER(x[1], x[5], x[9], x[13]);
        QUARTER(x[2], x[6], x[10], x[14]);
        QUARTER(x[3], x[7], x[11], x[15]);
        QUARTER(x[0], x[5], x[10], x[15]);
        QUARTER(x[1], x[6], x[11], x[12]);
        QUARTER(x[2], x[7], x[8], x[13]);
        QUARTER(x[3], x[4], x[9], x[14]);
    }
    for (int i = 0; i < 16; ++i) folded ^= x[i] + (i == 12 ? counter : begin[i]);
    return folded;
}

static unsigned answer(void) {
    unsigned folded = 0;
    for (unsigned counter = 1; counter <= BLOCKS; ++counter) folded ^= block(counter);
    return folded;
}

/* Answers 0 if it comes to what a native build comes to. */
__attribute__((export_name("invoke"))) int invoke(void) { return answer() != EXPECTED; }
