/* What the programs of this folder share: how a difference is told, and the worked talk about the
   entries 1 to 2 of (3, 0, 5, 1). */
#include "sip.h"

#include <stdio.h>
#include <stdlib.h>
#include <string.h>

static int failures;

static void same(const char *what, unsigned long long is, unsigned long long wanted) {
    if (is != wanted) {
        printf("%s: %llu in place of %llu\n", what, is, wanted);
        failures++;
    }
}

static int ended(const char *how) {
    if (failures) return EXIT_FAILURE;
    puts(how);
    return EXIT_SUCCESS;
}

static size_t bytes_of(const char *hex, uint8_t *to) {
    size_t count = 0;
    int half = -1;
    for (; *hex; hex++) {
        int digit = *hex <= '9' ? *hex - '0' : *hex - 'a' + 10;
        if (*hex == ' ') continue;
        if (half < 0) {
            half = digit;
        } else {
            to[count++] = (uint8_t)(16 * half + digit);
            half = -1;
        }
    }
    return count;
}

static void wants(sip_asking *asking, uint8_t wanted) {
    uint8_t is = 0;
    same("wants", sip_asking_wants(asking, &is), SIP_OK);
    same("wanted", is, wanted);
}

/* What is due is this. */
static void due(sip_asking *asking, const char *hex) {
    uint8_t wanted[SIP_MOST_DUE], is[SIP_MOST_DUE];
    size_t count = 0, size = bytes_of(hex, wanted);
    wants(asking, SIP_WANTS_SEND);
    same("due", sip_asking_due(asking, is, SIP_MOST_DUE - 1, &count), SIP_NO_ROOM);
    same("room", count, SIP_MOST_DUE);
    same("due", sip_asking_due(asking, is, SIP_MOST_DUE, &count), SIP_OK);
    same("size", count, size);
    same("bytes", (unsigned long long)memcmp(is, wanted, size), 0);
}

/* This comes, byte by byte, and all of it is taken. */
static void feed(sip_asking *asking, const char *hex) {
    uint8_t bytes[256];
    size_t size = bytes_of(hex, bytes), taken = 0;
    wants(asking, SIP_WANTS_BYTES);
    for (size_t i = 0; i < size; i++) {
        same("feed", sip_asking_feed(asking, bytes + i, 1, &taken), SIP_OK);
        same("taken", taken, 1);
    }
}

/* The replies up to the challenge, with an entry that is 6 in place of 5; the challenge; the last. */
static const char sub_replies[] = "13 000e 0001 00000002 0000000000000005"
                                  "14 0011 03 0000000000000003 0000000000000001";
static const char sub_wrong[] = "13 000e 0001 00000002 0000000000000006"
                                "14 0011 03 0000000000000003 0000000000000001";
static const char sub_reveal[] = "05 0008 1207be3415bc170e";
static const char sub_last[] = "14 0001 00";

/* The answer is the entry 5 at item 2, to the first question, and nothing more is taken. */
static void read_sub(sip_asking *asking) {
    sip_answer answer;
    sip_entry pairs[2];
    size_t count = 0, taken = 7;
    uint8_t more = 0;
    wants(asking, SIP_WANTS_READ);
    same("feed", sip_asking_feed(asking, &more, 1, &taken), SIP_OK);
    same("nothing more is taken", taken, 0);
    same("answer", sip_asking_answer(asking, &answer), SIP_OK);
    same("kind", answer.kind, SIP_PAIRS);
    same("question", answer.question, 1);
    same("pairs", answer.pairs, 1);
    same("pairs", sip_asking_pairs(asking, 0, pairs, 2, &count), SIP_OK);
    same("count", count, 1);
    same("item", pairs[0].item, 2);
    same("value", (unsigned long long)pairs[0].value, 5);
}

/* Large entries of (0, 5, -9, 3), which was added with the weights (0, 5, 9, 5): none is 6 or more,
   though the weight of an entry below 0 is. */
static const sip_update four[4] = {{1, 5, 0}, {2, -9, 0}, {3, 4, 0}, {3, -1, 0}};
static const sip_question above = {6, 0, SIP_ABOVE, 0};

/* They are asked for, and none is the answer. */
static void read_large(sip_asking *asking) {
    sip_answer answer;
    due(asking, "04 000a 07 00 0000000000000006");
    feed(asking, "28 0032 0002 0000000000000002 fffffffffffffff7 0000000000000009"
                 "0000000000000003 0000000000000003 0000000000000005 17 0000");
    due(asking, sub_reveal);
    feed(asking, "16 001a 0001 0000000000000000 08fa4650cfaca6d1 0000000000000005 17 0000");
    same("answer", sip_asking_answer(asking, &answer), SIP_OK);
    same("kind", answer.kind, SIP_PAIRS);
    same("pairs", answer.pairs, 0);
}
