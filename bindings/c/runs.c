/* A run through C: the worked talk, its stream in pieces and its replies byte by byte, and the ends
   that it can have. It prints each difference and ends with 1 where there is one. */
#include "worked.h"

static const uint8_t seed[SIP_SEED];
static const sip_question sub = {1, 2, SIP_SUB, 0};
static const sip_update three[3] = {{0, 3, 0}, {2, 5, 0}, {3, 1, 0}};

static void run_wants(sip_run *run, uint8_t wanted) {
    uint8_t is = 0;
    same("wants", sip_run_wants(run, &is), SIP_OK);
    same("wanted", is, wanted);
}

/* What is due while the stream goes by is this. */
static void run_due(sip_run *run, const char *hex) {
    static uint8_t is[SIP_MOST_FRAME];
    uint8_t wanted[128];
    size_t count = 0, size = bytes_of(hex, wanted);
    run_wants(run, SIP_WANTS_SEND);
    same("room", sip_run_due(run, is, SIP_MOST_FRAME - 1, &count), SIP_NO_ROOM);
    same("room", count, SIP_MOST_FRAME);
    same("due", sip_run_due(run, is, SIP_MOST_FRAME, &count), SIP_OK);
    same("size", count, size);
    same("bytes", (unsigned long long)memcmp(is, wanted, size), 0);
    same("due once", sip_run_due(run, is, SIP_MOST_FRAME, &count), SIP_OK);
    same("size", count, 0);
}

/* The run of the worked stream, all of which was sent, is asked. */
static void asked(sip_asking *asking) {
    sip_run run = SIP_EMPTY_HANDLE;
    sip_ending ending;
    size_t taken = 7;
    same("begin", sip_run_begin(&run, seed, SIP_SEED, 2, &sub, 1, &ending), SIP_OK);
    same("update", sip_run_update(&run, three, 3, &taken), SIP_OK);
    same("none before the opening", taken, 0);
    run_due(&run, "01 0002 01 02");
    run_wants(&run, SIP_WANTS_UPDATES);
    same("update", sip_run_update(&run, three, 2, &taken), SIP_OK);
    same("taken", taken, 2);
    same("not yet", sip_run_ask(&run, asking, &ending), SIP_NOT_NOW);
    same("update", sip_run_update(&run, three + 2, 1, &taken), SIP_OK);
    same("end", sip_run_end(&run), SIP_OK);
    same("end once", sip_run_end(&run), SIP_NOT_NOW);
    run_due(&run, "02 0029 0003 00 00000000 0000000000000003 00 00000002 0000000000000005"
                  "00 00000003 0000000000000001 03 0000");
    run_wants(&run, SIP_WANTS_ASK);
    same("ask", sip_run_ask(&run, asking, &ending), SIP_OK);
    same("the run went", sip_run_end(&run), SIP_EMPTY);
    due(asking, "04 0009 01 00000001 00000002");
}

static void worked(void) {
    sip_asking asking = SIP_EMPTY_HANDLE;
    sip_ending ending;
    uint8_t file[1];
    size_t size = 0;
    asked(&asking);
    feed(&asking, sub_replies);
    due(&asking, sub_reveal);
    same("nothing is stored", sip_asking_to_store(&asking, file, 1, &size), SIP_NOT_NOW);
    same("nothing is stored", sip_asking_stored(&asking), SIP_NOT_NOW);
    feed(&asking, sub_last);
    read_sub(&asking);
    same("not over", sip_asking_ended(&asking, &ending), SIP_NOT_NOW);
    same("next", sip_asking_next(&asking), SIP_OK);
    due(&asking, "06 0000");
    wants(&asking, SIP_WANTS_NOTHING);
    same("ended", sip_asking_ended(&asking, &ending), SIP_OK);
    same("none is next", sip_asking_next(&asking), SIP_NOT_NOW);
    sip_asking_free(&asking);
    sip_asking_free(&asking);
}

/* A run is asked for large entries, in version 2. */
static void large(void) {
    sip_run run = SIP_EMPTY_HANDLE;
    sip_asking asking = SIP_EMPTY_HANDLE;
    sip_ending ending;
    size_t taken = 0;
    same("begin", sip_run_begin(&run, seed, SIP_SEED, 2, &above, 1, &ending), SIP_OK);
    run_due(&run, "01 0002 02 02");
    same("update", sip_run_update(&run, four, 4, &taken), SIP_OK);
    same("taken", taken, 4);
    same("end", sip_run_end(&run), SIP_OK);
    run_due(&run, "02 0046 0004 00 0000000000000001 0000000000000005"
                  "00 0000000000000002 fffffffffffffff7 00 0000000000000003 0000000000000004"
                  "00 0000000000000003 ffffffffffffffff 03 0000");
    same("ask", sip_run_ask(&run, &asking, &ending), SIP_OK);
    read_large(&asking);
    same("next", sip_asking_next(&asking), SIP_OK);
    due(&asking, "06 0000");
    same("ended", sip_asking_ended(&asking, &ending), SIP_OK);
    sip_asking_free(&asking);
}

static void ends(void) {
    sip_run run = SIP_EMPTY_HANDLE;
    sip_asking asking = SIP_EMPTY_HANDLE;
    sip_ending ending;
    size_t taken = 0;
    const sip_question none = {0, 0, 12, 0}, wide = {1, 4, SIP_SUB, 0};
    const sip_update bad[4] = {{0, 3, 0}, {4, 1, 0}, {1, 1, 2}, {1, 0, 1}};
    asked(&asking);
    /* The entry is 6 in place of 5: what is wrong shows at the root, behind the last reply. */
    feed(&asking, sub_wrong);
    due(&asking, sub_reveal);
    feed(&asking, sub_last);
    wants(&asking, SIP_WANTS_NOTHING);
    same("rejected", sip_asking_ended(&asking, &ending), SIP_REJECTED);
    same("question", ending.question, 1);
    same("round", ending.round, 2);
    same("reason", ending.reason, SIP_REASON_ROOT);
    same("full", sip_run_ask(&run, &asking, &ending), SIP_FULL);
    sip_asking_free(&asking);
    same("empty", sip_run_ask(&run, &asking, &ending), SIP_EMPTY);
    same("seed", sip_run_begin(&run, seed, 31, 2, &sub, 1, &ending), SIP_BAD_LENGTH);
    same("count", sip_run_begin(&run, seed, SIP_SEED, 2, &sub, 0, &ending), SIP_BAD_LENGTH);
    same("depth", sip_run_begin(&run, seed, SIP_SEED, 49, &sub, 1, &ending), SIP_BAD_DEPTH);
    same("kind", sip_run_begin(&run, seed, SIP_SEED, 2, &none, 1, &ending), SIP_BAD_CODE);
    same("unfit", sip_run_begin(&run, seed, SIP_SEED, 2, &wide, 1, &ending), SIP_UNFIT);
    same("question", ending.question, 1);
    same("begin", sip_run_begin(&run, seed, SIP_SEED, 2, &sub, 1, &ending), SIP_OK);
    same("full", sip_run_begin(&run, seed, SIP_SEED, 2, &sub, 1, &ending), SIP_FULL);
    run_due(&run, "01 0002 01 02");
    same("item", sip_run_update(&run, bad, 4, &taken), SIP_BAD_ITEM);
    same("those before it", taken, 1);
    same("side", sip_run_update(&run, bad + 2, 2, &taken), SIP_BAD_SIDE);
    same("those before it", taken, 0);
    same("delta", sip_run_update(&run, bad + 3, 1, &taken), SIP_ZERO_DELTA);
    sip_run_free(&run);
    sip_run_free(&run);
    asked(&asking);
    same("close", sip_asking_close(&asking), SIP_OK);
    same("closed", sip_asking_ended(&asking, &ending), SIP_REJECTED);
    same("reason", ending.reason, SIP_REASON_CLOSED);
    sip_asking_free(&asking);
}

int main(void) {
    worked();
    large();
    ends();
    return ended("runs: all as worked out");
}
