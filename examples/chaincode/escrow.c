/* An escrow: a buyer pays, and the seller has the money once the goods came.

     open NAME TERMS   a new deal, which is open; TERMS are buyer, seller and price; status 2 if there is one of this name
     pay NAME          from open to paid
     release NAME      from paid to done: the goods came
     refund NAME       from paid to void: they did not
     show NAME         the result is the deal

   A deal is a key `escrow/deal/` and its name. Its value is its state, a space and its terms. Status 3: there is no such deal.
   Status 4: it is in another state. Status 1: the argument is none of these. */
#define CHAINCODE "escrow"
#include "fabric.h"

enum { OK, BAD_ARGUMENT, EXISTS, MISSING, WRONG_STATE };
enum { PREFIX = sizeof OWN_KEY("deal/") - 1, MOST_NAME = 32, STATE = 4, MOST_TERMS = 64 };

struct text {
    const char *at;
    int length;
};

static char argument[128], key[PREFIX + MOST_NAME] = OWN_KEY("deal/"), deal[STATE + 1 + MOST_TERMS];

/* The next word, which is taken off with the space behind it. */
static struct text next(struct text *rest) {
    struct text word = {rest->at, 0};
    while (word.length < rest->length && word.at[word.length] != ' ') ++word.length;
    int taken = word.length + (word.length < rest->length);
    rest->at += taken;
    rest->length -= taken;
    return word;
}

static int is(struct text word, const char *text) {
    int i = 0;
    while (i < word.length && text[i] != '\0' && text[i] == word.at[i]) ++i;
    return i == word.length && text[i] == '\0';
}

static int put(int key_length, const char *state, struct text terms) {
    for (int i = 0; i < STATE; ++i) deal[i] = state[i];
    deal[STATE] = ' ';
    for (int i = 0; i < terms.length; ++i) deal[STATE + 1 + i] = terms.at[i];
    return put_state(key, key_length, deal, STATE + 1 + terms.length) == 0 ? OK : BAD_ARGUMENT;
}

/* Takes the deal from one state to the next. */
static int turn(int key_length, int length, const char *from, const char *to) {
    if (length == FABRIC_ABSENT) return MISSING;
    struct text state = {deal, STATE}, terms = {deal + STATE + 1, length - STATE - 1};
    return is(state, from) ? put(key_length, to, terms) : WRONG_STATE;
}

static int show(int length) {
    if (length == FABRIC_ABSENT) return MISSING;
    return set_result(deal, length) == 0 ? OK : BAD_ARGUMENT;
}

FABRIC_INVOKE {
    struct text terms = {argument, get_arg(argument, sizeof argument)};
    if (terms.length > (int)sizeof argument) return BAD_ARGUMENT;
    struct text verb = next(&terms), name = next(&terms);
    if (name.length < 1 || name.length > MOST_NAME || terms.length > MOST_TERMS) return BAD_ARGUMENT;
    for (int i = 0; i < name.length; ++i) key[PREFIX + i] = name.at[i];
    int size = PREFIX + name.length, length = get_state(key, size, deal, sizeof deal);
    if (length > (int)sizeof deal) return BAD_ARGUMENT;
    if (is(verb, "open") && terms.length > 0) return length == FABRIC_ABSENT ? put(size, "open", terms) : EXISTS;
    if (terms.length > 0) return BAD_ARGUMENT;
    if (is(verb, "pay")) return turn(size, length, "open", "paid");
    if (is(verb, "release")) return turn(size, length, "paid", "done");
    if (is(verb, "refund")) return turn(size, length, "paid", "void");
    return is(verb, "show") ? show(length) : BAD_ARGUMENT;
}
