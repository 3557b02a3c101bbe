/* Each request for memory refused in turn: the call that wanted it answers SIP_NO_MEMORY, nothing is
   lost that a handle had, and all of it is given back. It is linked such that the library's requests
   come here. */
#include "sip.h"

#include <stdio.h>
#include <stdlib.h>

void *__real_malloc(size_t size);
void *__real_realloc(void *at, size_t size);
void *__wrap_malloc(size_t size);
void *__wrap_realloc(void *at, size_t size);

/* How many requests came, and which one is refused; none below 0. */
static long requests, refused = -1;

static int refuses(void) { return requests++ == refused; }

void *__wrap_malloc(size_t size) { return refuses() ? NULL : __real_malloc(size); }

void *__wrap_realloc(void *at, size_t size) { return refuses() ? NULL : __real_realloc(at, size); }

static int failures;

static void same(const char *what, unsigned long long is, unsigned long long wanted) {
    if (is != wanted) {
        printf("request %ld, %s: %llu in place of %llu\n", refused, what, is, wanted);
        failures++;
    }
}

/* A sketch is begun, watched, saved, loaded and begins to be asked, up to the first other status. */
static sip_status steps(sip_sketch *sketch, sip_sketch *again, sip_asking *asking) {
    const uint8_t kinds[2] = {SIP_ENTRIES, SIP_HEAVY_0}, seed[SIP_SEED] = {0};
    const sip_update three[3] = {{0, 3, 0}, {2, 5, 0}, {3, 1, 0}};
    const sip_question questions[2] = {{1, 2, SIP_SUB, 0}, {4, 0, SIP_HEAVY, 0}};
    uint8_t file[SIP_MOST_SKETCH];
    size_t at = 0, size = 0;
    sip_ending ending;
    sip_status status = sip_sketch_begin(sketch, seed, 32, 2, 1, 1, kinds, 2);
    if (status == SIP_OK) status = sip_sketch_keep_tables(sketch);
    if (status == SIP_OK) status = sip_sketch_update(sketch, three, 3, &at);
    if (status == SIP_OK) status = sip_sketch_save(sketch, file, sizeof file, &size);
    if (status == SIP_OK) status = sip_sketch_load(again, file, size, &at);
    if (status == SIP_OK) status = sip_asking_begin(asking, again, questions, 2, &ending);
    return status;
}

/* A run begins, is sent a stream, and begins to be asked, up to the first other status. */
static sip_status run_steps(sip_run *run, sip_asking *asking) {
    static uint8_t frame[SIP_MOST_FRAME];
    const uint8_t seed[SIP_SEED] = {0};
    const sip_update three[3] = {{0, 3, 0}, {2, 5, 0}, {3, 1, 0}};
    const sip_question questions[2] = {{1, 2, SIP_SUB, 0}, {4, 0, SIP_HEAVY, 0}};
    size_t count = 0;
    sip_ending ending;
    sip_status status = sip_run_begin(run, seed, 32, 2, questions, 2, &ending);
    if (status == SIP_OK) status = sip_run_due(run, frame, sizeof frame, &count);
    if (status == SIP_OK) status = sip_run_update(run, three, 3, &count);
    if (status == SIP_OK) status = sip_run_end(run);
    if (status == SIP_OK) status = sip_run_due(run, frame, sizeof frame, &count);
    if (status == SIP_OK) status = sip_run_ask(run, asking, &ending);
    return status;
}

/* Of a run only the tables are for speed alone: without them it goes on. */
static long refused_runs(void) {
    sip_run run = SIP_EMPTY_HANDLE;
    sip_asking asking = SIP_EMPTY_HANDLE;
    long all;
    requests = 0;
    same("all memory", run_steps(&run, &asking), SIP_OK);
    all = requests;
    for (long i = 0; i <= all; i++) {
        sip_status status;
        uint8_t wants;
        sip_asking_free(&asking);
        sip_run_free(&run);
        requests = 0;
        refused = i;
        status = run_steps(&run, &asking);
        refused = -1;
        if (status != SIP_OK) same("status", status, SIP_NO_MEMORY);
        /* What could not be asked is gone, and what was not begun is not there. */
        if (status != SIP_OK) same("run", sip_run_wants(&run, &wants), SIP_EMPTY);
        if (status != SIP_OK) same("asking", sip_asking_wants(&asking, &wants), SIP_EMPTY);
    }
    sip_asking_free(&asking);
    sip_run_free(&run);
    return all;
}

int main(void) {
    sip_sketch sketch = SIP_EMPTY_HANDLE, again = SIP_EMPTY_HANDLE;
    sip_asking asking = SIP_EMPTY_HANDLE;
    long all, runs;
    same("all memory", steps(&sketch, &again, &asking), SIP_OK);
    all = requests;
    for (long i = 0; i <= all; i++) {
        sip_told told;
        sip_asking_free(&asking);
        sip_sketch_free(&again);
        sip_sketch_free(&sketch);
        requests = 0;
        refused = i;
        same("status", steps(&sketch, &again, &asking), i < all ? SIP_NO_MEMORY : SIP_OK);
        refused = -1;
        /* What was loaded is where it was, or is asked. */
        if (sip_sketch_told(&again, &told) == SIP_OK) same("records", told.records, 3);
    }
    sip_asking_free(&asking);
    sip_sketch_free(&again);
    sip_sketch_free(&sketch);
    runs = refused_runs();
    if (failures) return EXIT_FAILURE;
    printf("memory: each of %ld and of %ld requests refused in turn is a status\n", all, runs);
    return EXIT_SUCCESS;
}
