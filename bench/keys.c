/* Reads and writes the keys that its argument names: each is a letter, `r` or `w`, and the last 8 bytes of the key. */
#include "../examples/chaincode/fabric.h"

enum { ITEM = 9, NUMBER = 8 };

static char argument[4096];
static char key[] = "account:........";
static char value[NUMBER];
static const char zeros[NUMBER];

__attribute__((export_name("invoke"))) int invoke(void) {
    int length = get_arg(argument, sizeof argument);
    for (const char *at = argument; at + ITEM <= argument + length; at += ITEM) {
        for (int i = 0; i < NUMBER; i++) key[NUMBER + i] = at[1 + i];
        int answer = *at == 'r' ? get_state(key, 2 * NUMBER, value, NUMBER) : put_state(key, 2 * NUMBER, zeros, NUMBER);
        if (answer < FABRIC_ABSENT) return 1;
    }
    return 0;
}
