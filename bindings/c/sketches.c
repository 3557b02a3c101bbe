/* Sketches through C: the worked sketch of three updates, each status that a sketch can have, blocks
   of any length, and threads. It prints the first difference and ends with 1. */
#include "sip.h"

#include <pthread.h>
#include <stdio.h>
#include <stdlib.h>
#include <string.h>

static int failures;

static void same(const char *what, unsigned long long is, unsigned long long wanted) {
    if (is != wanted) {
        printf("%s: %llu in place of %llu\n", what, is, wanted);
        failures++;
    }
}

static const uint8_t seed[SIP_SEED];

/* The three updates behind which side 0 is (3, 0, 5, 1). */
static const sip_update three[3] = {{0, 3, 0}, {2, 5, 0}, {3, 1, 0}};

/* The same as records of 13 and of 17 bytes. */
static const uint8_t narrow[39] = {0, 0, 0, 0, 0, 0, 0, 0, 0, 0, 0, 0, 3, 0, 0, 0, 0, 2, 0, 0,
                                   0, 0, 0, 0, 0, 5, 0, 0, 0, 0, 3, 0, 0, 0, 0, 0, 0, 0, 1};
static const uint8_t wide[51] = {0, 0, 0, 0, 0, 0, 0, 0, 0, 0, 0, 0, 0, 0, 0, 0, 3,
                                 0, 0, 0, 0, 0, 0, 0, 0, 2, 0, 0, 0, 0, 0, 0, 0, 5,
                                 0, 0, 0, 0, 0, 0, 0, 0, 3, 0, 0, 0, 0, 0, 0, 0, 1};

/* The sketch of these updates at depth 2, with a seat for entries and one for sums:
   every byte is worked out from the rules of the file. */
static const char *const file_of_three =
    "5349504b 01 02 00000001 00000001 00000001"
    "0000000000000009 0000000000000000 0000000000000003 00 b8261ae7db4fab00 02"
    "01 00 1207be3415bc170e 0517b0ca7cad4ba8 0862b3b8b01c7e21 0000000000000000"
    "02 00 035db1b417033a57 18e1aef1799de6d5 05f4ed565388ba7b 0000000000000000"
    "53a7f34491198a391b46471c9e7fef22dbf4b0c314e9c2196b726fa14c715b1f";

static size_t bytes_of(const char *hex, uint8_t *to) {
    size_t count = 0;
    int half = -1;
    for (; *hex; hex++) {
        int digit = *hex <= '9' ? *hex - '0' : *hex - 'a' + 10;
        if (*hex == ' ') continue;
        if (half < 0) {
            half = digit;
        } else {
            to[count++] = (uint8_t)(16 * half + digit);
            half = -1;
        }
    }
    return count;
}

static void is_three(const char *how, sip_sketch *sketch) {
    uint8_t wanted[152], bytes[152];
    size_t size = 0, count = bytes_of(file_of_three, wanted);
    same("bytes of the worked sketch", count, 152);
    same(how, sip_sketch_save(sketch, bytes, sizeof bytes, &size), SIP_OK);
    same(how, size, 152);
    same(how, (unsigned long long)memcmp(bytes, wanted, sizeof bytes), 0);
}

static void worked(void) {
    const uint8_t kinds[2] = {SIP_ENTRIES, SIP_SUMS_0};
    sip_sketch sketch = SIP_EMPTY_HANDLE, again = SIP_EMPTY_HANDLE;
    sip_told told;
    uint8_t bytes[152], kind;
    bool is_used;
    size_t at = 77, size = 0;
    same("begin", sip_sketch_begin(&sketch, seed, 32, 2, 1, 1, kinds, 2), SIP_OK);
    same("update", sip_sketch_update(&sketch, three, 3, &at), SIP_OK);
    same("the place stays", at, 77);
    is_three("updates", &sketch);
    same("told", sip_sketch_told(&sketch, &told), SIP_OK);
    same("records", told.records, 3);
    same("weight", told.weight_0, 9);
    same("weight of side 1", told.weight_1, 0);
    same("fingerprint", told.fingerprint, 0xb8261ae7db4fab00u);
    same("parts", told.parts, 1);
    same("seats", told.seats, 2);
    same("depth", told.depth, 2);
    same("negative", told.negative_0 || told.negative_1, 0);
    same("seat", sip_sketch_seat(&sketch, 1, &kind, &is_used), SIP_OK);
    same("kind", kind, SIP_SUMS_0);
    same("used", is_used, 0);
    same("no seat", sip_sketch_seat(&sketch, 2, &kind, &is_used), SIP_BAD_LENGTH);
    same("save", sip_sketch_save(&sketch, bytes, sizeof bytes, &size), SIP_OK);
    same("load", sip_sketch_load(&again, bytes, size, &at), SIP_OK);
    is_three("load", &again);
    sip_sketch_free(&again);
    same("begin again", sip_sketch_begin(&again, seed, 32, 2, 1, 1, kinds, 2), SIP_OK);
    same("narrow", sip_sketch_update_records(&again, SIP_BINARY, narrow, 39, &at), SIP_OK);
    is_three("narrow records", &again);
    sip_sketch_free(&again);
    same("begin again", sip_sketch_begin(&again, seed, 32, 2, 1, 1, kinds, 2), SIP_OK);
    same("wide", sip_sketch_update_records(&again, SIP_WIDE, wide, 51, &at), SIP_OK);
    is_three("wide records", &again);
    sip_sketch_free(&again);
    sip_sketch_free(&sketch);
}

static void statuses(void) {
    const uint8_t kinds[2] = {SIP_ENTRIES, SIP_SUMS_0}, bad[1] = {9};
    const sip_update zero = {0, 0, 0}, side = {0, 1, 2}, item = {4, 1, 0};
    const sip_update heavy[2] = {{0, 1, 0}, {0, 1073741823, 0}};
    sip_sketch s = SIP_EMPTY_HANDLE;
    uint8_t bytes[152], kind = 9;
    bool is_used = true;
    sip_told told;
    size_t at = 77, size = 88;
    same("empty", sip_sketch_save(&s, bytes, 152, &size), SIP_EMPTY);
    same("empty", sip_sketch_update(&s, three, 3, &at), SIP_EMPTY);
    same("empty", sip_sketch_told(&s, &told), SIP_EMPTY);
    same("empty", sip_sketch_keep_tables(&s), SIP_EMPTY);
    same("empty", sip_sketch_seat(&s, 0, &kind, &is_used), SIP_EMPTY);
    same("nothing written", at + size + kind + is_used, 77 + 88 + 9 + 1);
    same("short seed", sip_sketch_begin(&s, seed, 31, 2, 1, 1, kinds, 2), SIP_BAD_LENGTH);
    same("no seats", sip_sketch_begin(&s, seed, 32, 2, 1, 1, kinds, 0), SIP_BAD_LENGTH);
    same("depth", sip_sketch_begin(&s, seed, 32, 49, 1, 1, kinds, 2), SIP_BAD_DEPTH);
    same("depth", sip_sketch_begin(&s, seed, 32, 0, 1, 1, kinds, 2), SIP_BAD_DEPTH);
    same("part", sip_sketch_begin(&s, seed, 32, 2, 2, 1, kinds, 2), SIP_BAD_PART);
    same("kind", sip_sketch_begin(&s, seed, 32, 2, 1, 1, bad, 1), SIP_BAD_CODE);
    same("begin", sip_sketch_begin(&s, seed, 32, 2, 1, 1, kinds, 2), SIP_OK);
    same("full", sip_sketch_begin(&s, seed, 32, 2, 1, 1, kinds, 2), SIP_FULL);
    same("full", sip_sketch_load(&s, bytes, 0, &at), SIP_FULL);
    same("zero", sip_sketch_update(&s, &zero, 1, &at), SIP_ZERO_DELTA);
    same("place", at, 0);
    same("side", sip_sketch_update(&s, &side, 1, &at), SIP_BAD_SIDE);
    same("item", sip_sketch_update(&s, &item, 1, &at), SIP_BAD_ITEM);
    same("heavy", sip_sketch_update(&s, heavy, 2, &at), SIP_TOO_HEAVY);
    same("place", at, 1);
    same("form", sip_sketch_update_records(&s, 3, narrow, 39, &at), SIP_BAD_CODE);
    same("cut", sip_sketch_update_records(&s, SIP_BINARY, narrow, 38, &at), SIP_BAD_LENGTH);
    same("told", sip_sketch_told(&s, &told), SIP_OK);
    same("nothing came", told.records, 0);
    same("none", sip_sketch_update(&s, three, 0, &at), SIP_OK);
    same("room", sip_sketch_save(&s, bytes, 151, &size), SIP_NO_ROOM);
    same("size", size, 152);
    same("save", sip_sketch_save(&s, bytes, 152, &size), SIP_OK);
    sip_sketch_free(&s);
    bytes[5] = 49;
    same("no sketch", sip_sketch_load(&s, bytes, 152, &at), SIP_BAD_SKETCH);
    same("offset", at, 5);
    sip_sketch_free(&s);
    sip_sketch_free(&s);
}

static void parts(void) {
    const uint8_t kinds[2] = {SIP_ENTRIES, SIP_SUMS_0};
    sip_sketch one = SIP_EMPTY_HANDLE, two = SIP_EMPTY_HANDLE;
    sip_told told;
    size_t at = 0;
    same("one", sip_sketch_begin(&one, seed, 32, 2, 1, 2, kinds, 2), SIP_OK);
    same("none", sip_sketch_absorb(&one, &two), SIP_EMPTY);
    same("none", sip_sketch_absorb(&two, &one), SIP_EMPTY);
    same("two", sip_sketch_begin(&two, seed, 32, 2, 2, 2, kinds, 2), SIP_OK);
    same("one", sip_sketch_update(&one, three, 2, &at), SIP_OK);
    same("two", sip_sketch_update(&two, three + 2, 1, &at), SIP_OK);
    same("not next", sip_sketch_absorb(&two, &one), SIP_NOT_NEXT);
    same("absorb", sip_sketch_absorb(&one, &two), SIP_OK);
    same("told", sip_sketch_told(&one, &told), SIP_OK);
    same("records", told.records, 3);
    same("last", told.last_part, 2);
    same("fingerprint", told.fingerprint, 0xb8261ae7db4fab00u);
    same("whole", sip_sketch_absorb(&two, &one), SIP_WHOLE);
    sip_sketch_free(&two);
    same("shape", sip_sketch_begin(&two, seed, 32, 2, 2, 2, kinds, 1), SIP_OK);
    same("shape", sip_sketch_absorb(&one, &two), SIP_OTHER_SHAPE);
    sip_sketch_free(&one);
    sip_sketch_free(&two);
}

/* 1,300 updates in one call, whose last one may not come, and then without it. */
static void blocks(void) {
    const uint8_t kinds[1] = {SIP_ENTRIES};
    static sip_update many[1300];
    sip_sketch all = SIP_EMPTY_HANDLE, each = SIP_EMPTY_HANDLE;
    uint8_t bytes[2][SIP_MOST_SKETCH];
    size_t at = 0, sizes[2];
    for (size_t i = 0; i < 1300; i++) many[i] = (sip_update){i % 16, i % 3 ? 2 : -1, i % 5 == 0};
    many[1299].delta = 0;
    same("begin", sip_sketch_begin(&all, seed, 32, 4, 1, 1, kinds, 1), SIP_OK);
    same("begin", sip_sketch_begin(&each, seed, 32, 4, 1, 1, kinds, 1), SIP_OK);
    same("zero", sip_sketch_update(&all, many, 1300, &at), SIP_ZERO_DELTA);
    same("place", at, 1299);
    same("tables", sip_sketch_keep_tables(&all), SIP_OK);
    same("all", sip_sketch_update(&all, many, 1299, &at), SIP_OK);
    for (size_t i = 0; i < 1299; i++)
        same("each", sip_sketch_update(&each, many + i, 1, &at), SIP_OK);
    same("save", sip_sketch_save(&all, bytes[0], SIP_MOST_SKETCH, &sizes[0]), SIP_OK);
    same("save", sip_sketch_save(&each, bytes[1], SIP_MOST_SKETCH, &sizes[1]), SIP_OK);
    same("size", sizes[0], sizes[1]);
    same("bytes", (unsigned long long)memcmp(bytes[0], bytes[1], sizes[0]), 0);
    sip_sketch_free(&all);
    sip_sketch_free(&each);
}

static void *thread(void *unused) {
    (void)unused;
    worked();
    return NULL;
}

/* A sketch that another thread watches. */
static void *watch(void *given) {
    sip_sketch *sketch = given;
    size_t at = 0;
    same("watch", sip_sketch_update(sketch, three, 3, &at), SIP_OK);
    return NULL;
}

static void moved(void) {
    const uint8_t kinds[2] = {SIP_ENTRIES, SIP_SUMS_0};
    sip_sketch sketch = SIP_EMPTY_HANDLE;
    pthread_t other;
    same("begin", sip_sketch_begin(&sketch, seed, 32, 2, 1, 1, kinds, 2), SIP_OK);
    pthread_create(&other, NULL, watch, &sketch);
    pthread_join(other, NULL);
    is_three("a sketch of another thread", &sketch);
    sip_sketch_free(&sketch);
}

static void texts(void) {
    char text[64];
    size_t size = 0;
    same("version", sip_version(), SIP_VERSION_NUMBER);
    same("text", sip_status_text(SIP_EMPTY, text, sizeof text, &size), SIP_OK);
    same("text", size, 19);
    same("text", (unsigned long long)memcmp(text, "the handle is empty", 19), 0);
    same("room", sip_status_text(SIP_EMPTY, text, 18, &size), SIP_NO_ROOM);
}

int main(void) {
    pthread_t threads[4];
    texts();
    worked();
    statuses();
    parts();
    blocks();
    moved();
    for (int i = 0; i < 4; i++) pthread_create(&threads[i], NULL, thread, NULL);
    for (int i = 0; i < 4; i++) pthread_join(threads[i], NULL);
    if (failures) return EXIT_FAILURE;
    puts("sketches: all as worked out");
    return EXIT_SUCCESS;
}
