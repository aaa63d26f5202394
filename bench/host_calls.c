/* Spends all its fuel on one host call, which its argument names: `g` reads absent keys, as many as a call may, `p` puts the longest
   value at a key, and `r` sets the longest result. */
#include "../examples/chaincode/fabric.h"

enum { KEYS = 256, LONGEST = 4096 };

static char argument[1];
static char key[64];
static char value[LONGEST];

__attribute__((export_name("invoke"))) int invoke(void) {
    for (int i = 0; i < (int)sizeof key; i++) key[i] = 'k';
    get_arg(argument, sizeof argument);
    for (int number = 0;; number = (number + 1) % KEYS) {
        key[sizeof key - 1] = number;
        if (*argument == 'g') get_state(key, sizeof key, value, sizeof value);
        else if (*argument == 'p') put_state(key, sizeof key - 1, value, sizeof value);
        else set_result(value, sizeof value);
    }
}
