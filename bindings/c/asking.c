/* A sketch that is asked through C: the worked talk byte by byte, in pieces of one byte, and the ends
   that it can have. It prints each difference and ends with 1 where there is one. */
#include "worked.h"

static void begin(sip_sketch *sketch) {
    const uint8_t kinds[2] = {SIP_ENTRIES, SIP_SUMS_0};
    const uint8_t seed[SIP_SEED] = {0};
    const sip_update three[3] = {{0, 3, 0}, {2, 5, 0}, {3, 1, 0}};
    size_t at = 0;
    same("begin", sip_sketch_begin(sketch, seed, 32, 2, 1, 1, kinds, 2), SIP_OK);
    same("update", sip_sketch_update(sketch, three, 3, &at), SIP_OK);
}

static const char held[] = "26 0020 0000000000000003 0000000000000009"
                           "0000000000000000 b8261ae7db4fab00";

static void store(sip_asking *asking) {
    static const char digest[] = "5b713ec80a21a3cbb6e9fafab4619c3a7badd422da5887d05ab43e7cfdccf64f";
    uint8_t file[152], wanted[32];
    size_t size = 0;
    sip_sketch again = SIP_EMPTY_HANDLE;
    bool is_used = false;
    uint8_t kind = 0;
    wants(asking, SIP_WANTS_STORE);
    same("room", sip_asking_to_store(asking, file, 151, &size), SIP_NO_ROOM);
    same("size", size, 152);
    same("file", sip_asking_to_store(asking, file, 152, &size), SIP_OK);
    bytes_of(digest, wanted);
    same("used", file[53], 1);
    same("digest", (unsigned long long)memcmp(file + 120, wanted, 32), 0);
    same("load", sip_sketch_load(&again, file, 152, &size), SIP_OK);
    same("seat", sip_sketch_seat(&again, 0, &kind, &is_used), SIP_OK);
    same("used", is_used, 1);
    sip_sketch_free(&again);
    same("stored", sip_asking_stored(asking), SIP_OK);
    same("stored once", sip_asking_stored(asking), SIP_NOT_NOW);
}

static void worked(void) {
    const sip_question sub = {1, 2, SIP_SUB, 0};
    sip_sketch sketch = SIP_EMPTY_HANDLE;
    sip_asking asking = SIP_EMPTY_HANDLE;
    sip_ending ending;
    sip_answer answer;
    size_t count = 0;
    uint8_t more = 0;
    begin(&sketch);
    same("ask", sip_asking_begin(&asking, &sketch, &sub, 1, &ending), SIP_OK);
    same("the sketch went", sip_sketch_save(&sketch, &more, 1, &count), SIP_EMPTY);
    due(&asking, "01 0002 01 02 27 0008 0000000000000003");
    feed(&asking, held);
    store(&asking);
    due(&asking, "04 0009 01 00000001 00000002");
    feed(&asking, sub_replies);
    due(&asking, sub_reveal);
    same("no answer yet", sip_asking_answer(&asking, &answer), SIP_NOT_NOW);
    feed(&asking, sub_last);
    read_sub(&asking);
    same("not over", sip_asking_ended(&asking, &ending), SIP_NOT_NOW);
    same("next", sip_asking_next(&asking), SIP_OK);
    due(&asking, "06 0000");
    wants(&asking, SIP_WANTS_NOTHING);
    same("ended", sip_asking_ended(&asking, &ending), SIP_OK);
    sip_asking_free(&asking);
    sip_asking_free(&asking);
    sip_sketch_free(&sketch);
}

/* A sketch is asked for large entries, where one is below 0. */
static void large(void) {
    const uint8_t kinds[1] = {SIP_ABOVE_0}, seed[SIP_SEED] = {0};
    const sip_question heavy = {6, 0, SIP_HEAVY, 0};
    const sip_question none = {0, 0, SIP_ABOVE, 0};
    sip_sketch sketch = SIP_EMPTY_HANDLE;
    sip_asking asking = SIP_EMPTY_HANDLE;
    sip_ending ending;
    uint8_t file[118];
    size_t at = 0, size = 0;
    same("begin", sip_sketch_begin(&sketch, seed, 32, 2, 1, 1, kinds, 1), SIP_OK);
    same("update", sip_sketch_update(&sketch, four, 4, &at), SIP_OK);
    same("signed", sip_asking_begin(&asking, &sketch, &heavy, 1, &ending), SIP_SIGNED);
    same("unfit", sip_asking_begin(&asking, &sketch, &none, 1, &ending), SIP_UNFIT);
    same("ask", sip_asking_begin(&asking, &sketch, &above, 1, &ending), SIP_OK);
    due(&asking, "01 0002 02 02 27 0008 0000000000000004");
    feed(&asking, "26 0020 0000000000000004 0000000000000013 0000000000000000 da3a3f7e3cbe724e");
    same("file", sip_asking_to_store(&asking, file, 118, &size), SIP_OK);
    same("size", size, 118);
    same("used", file[53], 1);
    same("stored", sip_asking_stored(&asking), SIP_OK);
    read_large(&asking);
    same("next", sip_asking_next(&asking), SIP_OK);
    due(&asking, "06 0000");
    same("ended", sip_asking_ended(&asking, &ending), SIP_OK);
    sip_asking_free(&asking);
    sip_sketch_free(&sketch);
}

static void ends(void) {
    const sip_question sub = {1, 2, SIP_SUB, 0}, none = {0, 0, 12, 0}, wide = {1, 4, SIP_SUB, 0};
    const sip_question twice[2] = {{1, 2, SIP_SUB, 0}, {0, 0, SIP_INDEX, 0}};
    sip_sketch sketch = SIP_EMPTY_HANDLE;
    sip_asking asking = SIP_EMPTY_HANDLE;
    sip_ending ending;
    memset(&ending, 0, sizeof ending);
    same("empty", sip_asking_begin(&asking, &sketch, &sub, 1, &ending), SIP_EMPTY);
    same("empty", sip_asking_close(&asking), SIP_EMPTY);
    begin(&sketch);
    same("count", sip_asking_begin(&asking, &sketch, &sub, 0, &ending), SIP_BAD_LENGTH);
    same("kind", sip_asking_begin(&asking, &sketch, &none, 1, &ending), SIP_BAD_CODE);
    same("unfit", sip_asking_begin(&asking, &sketch, &wide, 1, &ending), SIP_UNFIT);
    same("question", ending.question, 1);
    same("no seat", sip_asking_begin(&asking, &sketch, twice, 2, &ending), SIP_NO_SEAT);
    same("question", ending.question, 2);
    same("ask", sip_asking_begin(&asking, &sketch, &sub, 1, &ending), SIP_OK);
    same("full", sip_asking_begin(&asking, &sketch, &sub, 1, &ending), SIP_FULL);
    due(&asking, "01 0002 01 02 27 0008 0000000000000003");
    feed(&asking, held);
    store(&asking);
    due(&asking, "04 0009 01 00000001 00000002");
    /* The entry is 6 in place of 5: what is wrong shows at the root, behind the last reply. */
    feed(&asking, sub_wrong);
    due(&asking, sub_reveal);
    feed(&asking, sub_last);
    wants(&asking, SIP_WANTS_NOTHING);
    same("rejected", sip_asking_ended(&asking, &ending), SIP_REJECTED);
    same("question", ending.question, 1);
    same("round", ending.round, 2);
    same("reason", ending.reason, SIP_REASON_ROOT);
    sip_asking_free(&asking);
    begin(&sketch);
    same("ask", sip_asking_begin(&asking, &sketch, &sub, 1, &ending), SIP_OK);
    due(&asking, "01 0002 01 02 27 0008 0000000000000003");
    feed(&asking, "26 0020 0000000000000002 0000000000000008 0000000000000000 0000000000000001");
    same("other stream", sip_asking_ended(&asking, &ending), SIP_OUT_OF_STEP);
    same("records", ending.records, 2);
    same("fingerprint", ending.fingerprint, 1);
    sip_asking_free(&asking);
    begin(&sketch);
    same("ask", sip_asking_begin(&asking, &sketch, &sub, 1, &ending), SIP_OK);
    due(&asking, "01 0002 01 02 27 0008 0000000000000003");
    same("close", sip_asking_close(&asking), SIP_OK);
    same("closed", sip_asking_ended(&asking, &ending), SIP_PEER_CLOSED);
    /* A handle that is taken for one of another type. */
    same("other handle", sip_sketch_keep_tables((sip_sketch *)(void *)&asking), SIP_OTHER_HANDLE);
    sip_asking_free(&asking);
    sip_sketch_free(&sketch);
}

int main(void) {
    worked();
    large();
    ends();
    return ended("asking: all as worked out");
}
