/* SHA-256 (FIPS 180-4) of LENGTH bytes in memory, 0, 1, .. 255, 0, 1, ..: 0 if their digest is DIGEST. */
#ifndef LENGTH
#define LENGTH 8192
#define DIGEST 0xdc404a61, 0x3fedaeb5, 0x4034514b, 0xc6505f56, 0xb933caa5, 0x250299ba, 0x7d094377, 0xa51caa46
#endif

static const unsigned constants[64] = {
    0x428a2f98, 0x71374491, 0xb5c0fbcf, 0xe9b5dba5, 0x3956c25b, 0x59f111f1, 0x923f82a4, 0xab1c5ed5,
    0xd807aa98, 0x12835b01, 0x243185be, 0x550c7dc3, 0x72be5d74, 0x80deb1fe, 0x9bdc06a7, 0xc19bf174,
    0xe49b69c1, 0xefbe4786, 0x0fc19dc6, 0x240ca1cc, 0x2de92c6f, 0x4a7484aa, 0x5cb0a9dc, 0x76f988da,
    0x983e5152, 0xa831c66d, 0xb00327c8, 0xbf597fc7, 0xc6e00bf3, 0xd5a79147, 0x06ca6351, 0x14292967,
    0x27b70a85, 0x2e1b2138, 0x4d2c6dfc, 0x53380d13, 0x650a7354, 0x766a0abb, 0x81c2c92e, 0x92722c85,
    0xa2bfe8a1, 0xa81a664b, 0xc24b8b70, 0xc76c51a3, 0xd192e819, 0xd6990624, 0xf40e3585, 0x106aa070,
    0x19a4c116, 0x1e376c08, 0x2748774c, 0x34b0bcb5, 0x391c0cb3, 0x4ed8aa4a, 0x5b9cca4f, 0x682e6ff3,
    0x748f82ee, 0x78a5636f, 0x84c87814, 0x8cc70208, 0x90befffa, 0xa4506ceb, 0xbef9a3f7, 0xc67178f2};

static const unsigned expected[8] = {DIGEST};

static unsigned state[8] = {0x6a09e667, 0xbb67ae85, 0x3c6ef372, 0xa54ff53a,
                            0x510e527f, 0x9b05688c, 0x1f83d9ab, 0x5be0cd19};

/* The text, and one block of padding: a one bit, zeros, and the length in bits. */
static unsigned char text[LENGTH + 64];

static unsigned rotate(unsigned x, int n) { return x >> n | x << (32 - n); }

static unsigned word_at(const unsigned char *at) {
    return (unsigned)at[0] << 24 | (unsigned)at[1] << 16 | (unsigned)at[2] << 8 | at[3];
}

static void compress(const unsigned char *block) {
    unsigned schedule[64], v[8];
    for (int t = 0; t < 16; ++t) schedule[t] = word_at(block + 4 * t);
    for (int t = 16; t < 64; ++t) {
        unsigned a = schedule[t - 15], b = schedule[t - 2];
        schedule[t] = schedule[t - 16] + (rotate(a, 7) ^ rotate(a, 18) ^ a >> 3) + schedule[t - 7] +
                      (rotate(b, 17) ^ rotate(b, 19) ^ b >> 10);
    }
    for (int i = 0; i < 8; ++i) v[i] = state[i];
    for (int t = 0; t < 64; ++t) {
        unsigned choose = (v[4] & v[5]) ^ (~v[4] & v[6]);
        unsigned majority = (v[0] & v[1]) ^ (v[0] & v[2]) ^ (v[1] & v[2]);
        unsigned first = v[7] + (rotate(v[4], 6) ^ rotate(v[4], 11) ^ rotate(v[4], 25)) + choose + constants[t] +
                         schedule[t];
        unsigned second = (rotate(v[0], 2) ^ rotate(v[0], 13) ^ rotate(v[0], 22)) + majority;
        for (int i = 7; i > 0; --i) v[i] = v[i - 1];
        v[4] += first;
        v[0] = first + second;
    }
    for (int i = 0; i < 8; ++i) state[i] += v[i];
}

__attribute__((export_name("invoke"))) int invoke(void) {
    for (int i = 0; i < LENGTH; ++i) text[i] = (unsigned char)i;
    text[LENGTH] = 0x80;
    for (int i = 0; i < 4; ++i) text[LENGTH + 63 - i] = (unsigned char)(LENGTH * 8 >> 8 * i);
    for (int at = 0; at < LENGTH + 64; at += 64) compress(text + at);
    for (int i = 0; i < 8; ++i)
        if (state[i] != expected[i]) return 1;
    return 0;
}
