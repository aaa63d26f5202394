/* A ledger in memory, on which a chaincode in C is tried natively, as shim::testing is one for Rust.

       // counter_test.c:   cc -g -o counter_test counter_test.c counter.c && ./counter_test
       #include "fabric_test.h"

       int main(void) {
           EXPECT_STATUS(ledger_call("add 3"), 0);
           ledger_commit();
           EXPECT_TEXT(ledger_get("counter/count"), "3");
           return ledger_end();
       }

   A chaincode that defines CHAINCODE writes its own keys alone. One that does not writes any key, as under rules 1.

   Each call runs in a process of its own, so its statics begin fresh, as in a module. A fault is told as the trap that the module
   would most likely have. A call that takes longer than 5 seconds counts as spent. A module has fuel, memory of 16 pages at most
   and pointers of 32 bits, and this has not: `ledger call --dry-run` has the last word. */
#ifndef FABRIC_TEST_H
#define FABRIC_TEST_H

/* mmap's anonymous memory, also where a standard is asked for. So this file comes before those of the C library. */
#ifndef _DEFAULT_SOURCE
#define _DEFAULT_SOURCE
#endif

#include "fabric.h"

#include <signal.h>
#include <stdarg.h>
#include <stdio.h>
#include <stdlib.h>
#include <string.h>
#include <sys/mman.h>
#include <sys/wait.h>
#include <unistd.h>

int invoke(void);
/* What fabric.h makes of CHAINCODE; it has no address where the chaincode does not define that. */
extern const char fabric_own_keys[] __attribute__((weak));

enum { TEST_KEY = 64, TEST_VALUE = 4096, TEST_READS = 256, TEST_WRITES = 64, TEST_RANGES = 16, TEST_STATE = 4096 };
/* How a call ended where not by a status. */
enum { LEDGER_TRAPPED = -1000001, LEDGER_SPENT = -1000002 };

struct test_bytes {
    unsigned length;
    unsigned char at[TEST_VALUE + 1];  /* behind them stands a 0, so that they can be read as a text */
};
struct test_entry {
    unsigned key_length;
    unsigned char key[TEST_KEY];
    int is_deleted;
    struct test_bytes value;
};
/* What a call did: it lies in memory that the call's process shares with the test's. */
struct test_call {
    int status;
    unsigned reads, writes, ranges;
    struct test_bytes argument, result;
    struct { unsigned length; unsigned char key[TEST_KEY]; } read[TEST_READS];
    struct test_entry write[TEST_WRITES];
};

static struct test_entry *test_state[TEST_STATE];  /* by ascending keys */
static unsigned test_count, test_failed, test_checks;
static struct test_call *test_now;

static void test_give_up(const char *why) {
    fprintf(stderr, "fabric_test: %s\n", why);
    exit(2);
}

/* What the last call did. */
static struct test_call *test_last(void) {
    if (!test_now) test_give_up("no call was made");
    return test_now;
}

/* Copies bytes, of which there may be none anywhere. */
static void test_copy(void *target, const void *source, unsigned length) {
    if (length) memcpy(target, source, length);
}

static int test_order(const void *a, unsigned m, const void *b, unsigned n) {
    int by_bytes = memcmp(a, b, m < n ? m : n);
    return by_bytes ? by_bytes : m < n ? -1 : m > n;
}

/* The place of a key in the state, or of the first one behind it. */
static unsigned test_place(const void *key, unsigned length) {
    unsigned at = 0;
    while (at < test_count && test_order(test_state[at]->key, test_state[at]->key_length, key, length) < 0) ++at;
    return at;
}

static struct test_entry *test_find(const void *key, unsigned length) {
    unsigned at = test_place(key, length);
    return at < test_count && !test_order(test_state[at]->key, test_state[at]->key_length, key, length) ? test_state[at] : 0;
}

/* ---- the host calls, as docs/MODULES.md has them */

static int test_is_key(const void *key, unsigned length) { return length >= 1 && length <= TEST_KEY && *(const char *)key != 0; }

static int test_is_own(const void *key, unsigned length) {
    if (!fabric_own_keys) return 1;
    size_t front = strlen(fabric_own_keys);
    return length >= front && !memcmp(key, fabric_own_keys, front);
}

static int test_reply(const void *bytes, unsigned length, void *target, unsigned capacity) {
    if (length <= capacity) test_copy(target, bytes, length);
    return (int)length;
}

int get_state(const void *key, unsigned key_length, void *target, unsigned capacity) {
    if (!test_is_key(key, key_length)) return FABRIC_KEY_LENGTH;
    unsigned n = 0;
    while (n < test_now->reads && test_order(test_now->read[n].key, test_now->read[n].length, key, key_length)) ++n;
    if (n == test_now->reads) {
        if (n == TEST_READS) return FABRIC_NO_ROOM;
        test_now->read[n].length = key_length;
        memcpy(test_now->read[n].key, key, key_length);
        ++test_now->reads;
    }
    struct test_entry *found = test_find(key, key_length);
    return found ? test_reply(found->value.at, found->value.length, target, capacity) : FABRIC_ABSENT;
}

static int test_write(const void *key, unsigned key_length, const void *value, unsigned length, int is_deleted) {
    if (!test_is_key(key, key_length) || !test_is_own(key, key_length)) return FABRIC_KEY_LENGTH;
    if (length > TEST_VALUE) return FABRIC_VALUE_LENGTH;
    unsigned n = 0;
    while (n < test_now->writes && test_order(test_now->write[n].key, test_now->write[n].key_length, key, key_length)) ++n;
    if (n == TEST_WRITES) return FABRIC_NO_ROOM;
    if (n == test_now->writes) ++test_now->writes;
    struct test_entry *to = &test_now->write[n];
    to->key_length = key_length, to->is_deleted = is_deleted, to->value.length = length;
    memcpy(to->key, key, key_length);
    test_copy(to->value.at, value, length);
    to->value.at[length] = 0;
    return 0;
}

int put_state(const void *key, unsigned key_length, const void *value, unsigned value_length) {
    return test_write(key, key_length, value, value_length, 0);
}

int del_state(const void *key, unsigned key_length) { return test_write(key, key_length, "", 0, 1); }

int range_state(const void *start, unsigned start_length, const void *end, unsigned end_length, unsigned limit, void *target,
                unsigned capacity) {
    static unsigned char reply[1 + 64 * (1 + TEST_KEY + 2 + TEST_VALUE)];
    if (start_length > TEST_KEY || end_length > TEST_KEY) return FABRIC_KEY_LENGTH;
    if (limit < 1 || limit > 64) return FABRIC_LIMIT;
    if (test_now->ranges == TEST_RANGES) return FABRIC_NO_ROOM;
    ++test_now->ranges;
    unsigned size = 1;
    reply[0] = 0;
    for (unsigned at = test_place(start, start_length); at < test_count && reply[0] < limit; ++at) {
        struct test_entry *it = test_state[at];
        if (end_length && test_order(it->key, it->key_length, end, end_length) >= 0) break;
        if (it->key[0] == 0) continue;
        ++reply[0];
        reply[size++] = (unsigned char)it->key_length;
        memcpy(reply + size, it->key, it->key_length), size += it->key_length;
        reply[size++] = it->value.length & 255, reply[size++] = it->value.length >> 8;
        memcpy(reply + size, it->value.at, it->value.length), size += it->value.length;
    }
    return test_reply(reply, size, target, capacity);
}

int get_arg(void *target, unsigned capacity) {
    return test_reply(test_now->argument.at, test_now->argument.length, target, capacity);
}

int set_result(const void *result, unsigned length) {
    if (length > TEST_VALUE) return FABRIC_VALUE_LENGTH;
    test_now->result.length = length;
    test_copy(test_now->result.at, result, length);
    test_now->result.at[length] = 0;
    return 0;
}

/* ---- what a test does */

/* Commits a value of a key; of a null value, that there is none. */
static void ledger_set_bytes(const void *key, unsigned key_length, const void *value, unsigned length) {
    if (key_length < 1 || key_length > TEST_KEY) test_give_up("a key has 1 to 64 bytes");
    if (length > TEST_VALUE) test_give_up("a value has up to 4,096 bytes");
    unsigned at = test_place(key, key_length);
    struct test_entry *found = test_find(key, key_length);
    if (!value) {
        if (found) free(found), memmove(test_state + at, test_state + at + 1, (--test_count - at) * sizeof *test_state);
        return;
    }
    if (!found) {
        if (test_count == TEST_STATE || !(found = calloc(1, sizeof *found))) test_give_up("the state is full");
        memmove(test_state + at + 1, test_state + at, (test_count++ - at) * sizeof *test_state);
        test_state[at] = found;
        found->key_length = key_length;
        memcpy(found->key, key, key_length);
    }
    found->value.length = length;
    test_copy(found->value.at, value, length);
    found->value.at[length] = 0;
}

__attribute__((unused)) static void ledger_set(const char *key, const char *value) {
    ledger_set_bytes(key, (unsigned)strlen(key), value, value ? (unsigned)strlen(value) : 0);
}

/* The committed value of a key as a text, or null. */
__attribute__((unused)) static const char *ledger_get(const char *key) {
    struct test_entry *found = test_find(key, (unsigned)strlen(key));
    return found ? (const char *)found->value.at : 0;
}

__attribute__((unused)) static void ledger_clear(void) { while (test_count) free(test_state[--test_count]); }

/* Runs `invoke` in a process of its own. Says how a signal ended it, if one did. */
static void test_run(void) {
    fflush(0);
    pid_t child = fork();
    if (child < 0) test_give_up("no process can be begun");
    if (!child) {
        alarm(5);
        test_now->status = invoke();
        fflush(0);
        _exit(0);
    }
    int ended = 0;
    waitpid(child, &ended, 0);
    if (!WIFSIGNALED(ended)) return;
    int number = WTERMSIG(ended);
    if (number == SIGALRM) test_now->status = LEDGER_SPENT;
    fprintf(stderr, "  the call `%s` %s\n", (char *)test_now->argument.at,
            number == SIGALRM                        ? "took longer than 5 seconds: 403 on a ledger"
            : number == SIGFPE                       ? "divided by zero or overflowed: trap 2 or 3 on a ledger"
            : number == SIGSEGV || number == SIGBUS  ? "left its memory: trap 4 on a ledger, or worse, no trap"
                                                     : "was aborted: trap 1 on a ledger");
}

/* Calls `invoke` with these bytes on the state, which stays as it is. How it ended: its status, LEDGER_TRAPPED or
   LEDGER_SPENT. Of any but status 0 the result alone is kept. */
static int ledger_call_bytes(const void *argument, unsigned length) {
    if (!test_now) {
        test_now = mmap(0, sizeof *test_now, PROT_READ | PROT_WRITE, MAP_SHARED | MAP_ANONYMOUS, -1, 0);
        if (test_now == MAP_FAILED) test_give_up("there is no memory");
    }
    if (length > TEST_VALUE) test_give_up("an argument has up to 4,096 bytes");
    memset(test_now, 0, sizeof *test_now);
    test_copy(test_now->argument.at, argument, test_now->argument.length = length);
    /* So it stays where a sanitizer ends the process. */
    test_now->status = LEDGER_TRAPPED;
    test_run();
    if (test_now->status) test_now->reads = test_now->writes = test_now->ranges = 0;
    return test_now->status;
}

/* The same of a text, which is made as by printf. */
__attribute__((unused, format(printf, 1, 2))) static int ledger_call(const char *format, ...) {
    char text[TEST_VALUE + 1];
    va_list values;
    va_start(values, format);
    int length = vsnprintf(text, sizeof text, format, values);
    va_end(values);
    return ledger_call_bytes(text, (unsigned)length);
}

/* What the last call answered, as a text. */
__attribute__((unused)) static const char *ledger_result(void) { return (const char *)test_last()->result.at; }

/* Whether it read a key. */
__attribute__((unused)) static int ledger_has_read(const char *key) {
    struct test_call *last = test_last();
    for (unsigned n = 0; n < last->reads; ++n)
        if (!test_order(last->read[n].key, last->read[n].length, key, (unsigned)strlen(key))) return 1;
    return 0;
}

/* How many keys it wrote. */
__attribute__((unused)) static unsigned ledger_writes(void) { return test_last()->writes; }

/* Commits what it wrote. */
__attribute__((unused)) static void ledger_commit(void) {
    struct test_call *last = test_last();
    for (unsigned n = 0; n < last->writes; ++n) {
        struct test_entry *it = &last->write[n];
        ledger_set_bytes(it->key, it->key_length, it->is_deleted ? 0 : it->value.at, it->value.length);
    }
}

static int test_check(int is_right, const char *file, int line, const char *what) {
    ++test_checks;
    if (!is_right) ++test_failed, fprintf(stderr, "%s:%d: %s\n", file, line, what);
    return is_right;
}

#define EXPECT(condition) test_check(!!(condition), __FILE__, __LINE__, #condition)
#define EXPECT_STATUS(call, wanted)                                                                             \
    do {                                                                                                        \
        int got_ = (call), wanted_ = (wanted);                                                                  \
        if (!test_check(got_ == wanted_, __FILE__, __LINE__, #call))                                            \
            fprintf(stderr, "  status %d in place of %d\n", got_, wanted_);                                     \
    } while (0)
#define EXPECT_TEXT(text, wanted)                                                                               \
    do {                                                                                                        \
        const char *got_ = (text), *wanted_ = (wanted);                                                         \
        if (!test_check(got_ == wanted_ || (got_ && wanted_ && !strcmp(got_, wanted_)), __FILE__, __LINE__, #text)) \
            fprintf(stderr, "  \"%s\" in place of \"%s\"\n", got_ ? got_ : "(none)", wanted_ ? wanted_ : "(none)"); \
    } while (0)

/* Says how many checks passed. The status of the test. */
static int ledger_end(void) {
    printf("%u of %u checks passed\n", test_checks - test_failed, test_checks);
    return test_failed ? 1 : 0;
}

#endif
