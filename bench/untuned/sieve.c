/* Counts the primes below LIMIT (the sieve of Eratosthenes, a byte for each number). */
#define EXPECTED 20437u
enum { LIMIT = 230000 };

static unsigned char composite[LIMIT];

static void cross_out(int prime) {
    for (int multiple = prime * prime; multiple < LIMIT; multiple += prime) composite[multiple] = 1;
}

static unsigned answer(void) {
    unsigned primes = 0;
    for (int number = 2; number < LIMIT; ++number) {
        if (composite[number]) continue;
        ++primes;
        if (number < LIMIT / number) cross_out(number);
    }
    return primes;
}

/* Answers 0 if it comes to what a native build comes to. */
__attribute__((export_name("invoke"))) int invoke(void) { return answer() != EXPECTED; }
