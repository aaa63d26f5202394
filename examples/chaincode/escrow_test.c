/* Tries escrow.c natively:   cc -g -o escrow_test escrow_test.c escrow.c && ./escrow_test */
#include "fabric_test.h"

static void a_deal_is_opened_paid_and_done_once(void) {
    EXPECT_STATUS(ledger_call("pay d1"), 3);
    EXPECT_STATUS(ledger_call("open d1 Anna Ben 100"), 0);
    EXPECT(ledger_has_read("escrow/deal/d1") && ledger_writes() == 1);
    ledger_commit();
    EXPECT_TEXT(ledger_get("escrow/deal/d1"), "open Anna Ben 100");
    EXPECT_STATUS(ledger_call("open d1 Anna Ben 100"), 2);
    EXPECT_STATUS(ledger_call("release d1"), 4);
    EXPECT_STATUS(ledger_call("pay d1"), 0);
    ledger_commit();
    EXPECT_STATUS(ledger_call("pay d1"), 4);
    EXPECT_STATUS(ledger_call("release d1"), 0);
    ledger_commit();
    EXPECT_STATUS(ledger_call("refund d1"), 4);
    EXPECT_STATUS(ledger_call("show d1"), 0);
    EXPECT_TEXT(ledger_result(), "done Anna Ben 100");
}

static void what_is_no_argument_is_refused(void) {
    EXPECT_STATUS(ledger_call("show %032d", 7), 3);
    EXPECT_STATUS(ledger_call("show %033d", 7), 1);
    EXPECT_STATUS(ledger_call("open d2 %064d", 7), 0);
    EXPECT_STATUS(ledger_call("open d2 %065d", 7), 1);
    EXPECT_STATUS(ledger_call("open d2"), 1);
    EXPECT_STATUS(ledger_call("pay d1 now"), 1);
    EXPECT_STATUS(ledger_call("pays d1"), 1);
    EXPECT_STATUS(ledger_call("%s", ""), 1);
}

int main(void) {
    a_deal_is_opened_paid_and_done_once();
    what_is_no_argument_is_refused();
    return ledger_end();
}
