/* Multiplies two square matrices of 64-bit numbers, and sums up the product's entries, each times its place. */
#define EXPECTED 3118377527u
enum { SIZE = 82 };

typedef unsigned long long number;

static number left[SIZE][SIZE], right[SIZE][SIZE], product[SIZE][SIZE];

static void fill(void) {
    for (int row = 0; row < SIZE; ++row)
        for (int column = 0; column < SIZE; ++column) {
            left[row][column] = (number)row * 2654435769u + column;
            right[row][column] = (number)column * 2246822519u ^ row;
        }
}

static void multiply(void) {
    for (int row = 0; row < SIZE; ++row)
        for (int column = 0; column < SIZE; ++column) {
            number sum = 0;
            for (int i = 0; i < SIZE; ++i) sum += left[row][i] * right[i][column];
            product[row][column] = sum;
        }
}

static unsigned answer(void) {
    fill();
    multiply();
    number sum = 0;
    for (int row = 0; row < SIZE; ++row)
        for (int column = 0; column < SIZE; ++column) sum += product[row][column] * (SIZE * row + column);
    return (unsigned)(sum >> 32) ^ (unsigned)sum;
}

/* Answers 0 if it comes to what a native build comes to. */
__attribute__((export_name("invoke"))) int invoke(void) { return answer() != EXPECTED; }
