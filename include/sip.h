/*
 * sip: what a verifier of streaming interactive proofs keeps of a stream.
 *
 * A sketch keeps a few numbers of a stream of updates, at secret challenges. Later it is asked:
 * whoever has the stream answers, and each answer is proved to the sketch. Nothing here opens a file
 * or a socket: bytes are handed over in any pieces, and bytes that are due are taken. The other end
 * is `sip serve`, or whatever keeps to its protocol.
 *
 * HANDLES. What the library keeps stands behind a handle, a small struct of the caller's. All zeros
 * are an empty one: `sip_sketch sketch = SIP_EMPTY_HANDLE;`. A call that begins something wants an
 * empty handle, and a free leaves an empty one: freeing an empty handle does nothing, so that
 * freeing twice is harmless. The parts of a handle are the library's: read and write none, and copy
 * no handle (a copy of a full one would be freed twice).
 *
 * THREADS. One call at a time uses a handle. A handle may go from thread to thread, with whatever
 * orders the two (a lock, a start, a join). The library has no state of its own: calls on different
 * handles never meet.
 *
 * POINTERS. Each is to memory of the stated size, which no other argument of the call shares and no
 * other thread reads or writes during it. None is null, also none to no elements.
 *
 * ANSWERS. Each call answers a status. Where it is not SIP_OK the call has changed nothing and
 * written nothing, but for what its comment says. No call aborts, waits or calls back. Memory comes
 * from the program's malloc and realloc and goes to its free; want of it is an answer.
 *
 * SECRETS. A sketch has the challenges by which answers are judged. Whoever reads them, in memory
 * or in its saved bytes, can make any answer accepted. Nothing here wipes memory.
 */
#ifndef SIP_H
#define SIP_H

#include <stdbool.h>
#include <stddef.h>
#include <stdint.h>

#ifdef __cplusplus
extern "C" {
#endif

/* The version of this header, as text and as sip_version() answers it. */
#define SIP_VERSION "0.1.0"
#define SIP_VERSION_NUMBER 0x000100u

/* What a call answers. */
typedef enum sip_status {
    SIP_OK = 0,
    SIP_NO_MEMORY = 1,    /* memory was refused */
    SIP_EMPTY = 2,        /* the handle is empty: nothing was begun in it, or it was freed */
    SIP_FULL = 3,         /* the handle in which something was to begin is not empty */
    SIP_OTHER_HANDLE = 4, /* the handle has something of another type */
    SIP_NO_ROOM = 5,      /* the buffer is too short; the size that is wanted was written */
    SIP_NOT_NOW = 6,      /* the call is not for this step */
    SIP_BAD_LENGTH = 7,   /* a count or a length is out of its range */
    SIP_BAD_CODE = 8,     /* a number stands for no kind of seat and for no form of records */
    SIP_BAD_DEPTH = 16,   /* the depth is not 1 to 48 */
    SIP_BAD_PART = 17,    /* the part is not 1 to the number of parts */
    SIP_SEED_SPENT = 18,  /* eight words of the seed's generator in turn give no challenge */
    SIP_BAD_SKETCH = 19,  /* the bytes are no sketch; the offset of the first fault was written */
    SIP_BAD_SIDE = 24,    /* the side of an update is not 0 or 1; its place was written */
    SIP_BAD_ITEM = 25,    /* its item is not below 2^depth; its place was written */
    SIP_ZERO_DELTA = 26,  /* its delta is 0; its place was written */
    SIP_TOO_HEAVY = 27,   /* with it, or with a part, a side would weigh more than 2^30 - 1 */
    SIP_OTHER_SHAPE = 32, /* the part has another depth, number of parts, kinds or challenges */
    SIP_WHOLE = 33,       /* all parts are in the part: a sum of it would be a copy to be asked */
    SIP_USED_SEAT = 34,   /* a question has used a seat of the part */
    SIP_NOT_NEXT = 35,    /* the part's first part is not the one behind the sketch's last */
    SIP_NOT_WHOLE = 40,   /* not all parts of the stream are in the sketch */
    SIP_UNFIT = 41,       /* a question does not fit the depth */
    SIP_SIGNED = 42,      /* a question is for heavy hitters of a side that had a delta below 0 */
    SIP_NO_SEAT = 43,     /* no unused seat serves a question */
    SIP_TOO_WIDE = 44,    /* an answer may have more entries than a reply has room for */
    SIP_TOO_HIGH = 45,    /* a moment may be greater than a claim */
    SIP_REJECTED = 48,    /* the replies to a question have a fault: they are not believed */
    SIP_OUT_OF_STEP = 49, /* the other end holds another stream */
    SIP_BAD_FRAME = 50,   /* what came first does not say what the other end holds */
    SIP_PEER_CLOSED = 51  /* the other end closed before the end of the talk */
} sip_status;

/* The version of the library: the first number times 2^16, the second times 2^8, and the third. */
uint32_t sip_version(void);

/* Writes what a status says, a line in ASCII with no end and at most 63 bytes, to the front of
   `to`; *size is its length. SIP_NO_ROOM with room for less: *size is written alone. */
sip_status sip_status_text(sip_status status, char *to, size_t room, size_t *size);

typedef struct sip_sketch {
    void *at;
    bool full;
} sip_sketch;

#ifdef __cplusplus
#define SIP_EMPTY_HANDLE {}
#else
#define SIP_EMPTY_HANDLE {0}
#endif

/* What a seat serves, and so what is kept for it. A seat serves one question. */
typedef enum sip_seat_kind {
    SIP_ENTRIES = 1, /* entries of side 0: sub-vectors and lookups */
    SIP_SUMS_0 = 2,  /* range sums, second moments and higher ones of side 0 */
    SIP_SUMS_1 = 3,  /* the same of side 1 */
    SIP_PRODUCTS = 4, /* inner products of the sides */
    SIP_HEAVY_0 = 5, /* heavy hitters of side 0 */
    SIP_HEAVY_1 = 6, /* heavy hitters of side 1 */
    SIP_ABOVE_0 = 7, /* large entries of side 0, also where others are below 0 */
    SIP_ABOVE_1 = 8  /* large entries of side 1 */
} sip_seat_kind;

/* How records lie as bytes: the side in one, the item in four or eight and the delta in eight, each
   number big endian and the delta in two's complement. */
typedef enum sip_form {
    SIP_BINARY = 1, /* 13 bytes a record; items below 2^32 */
    SIP_WIDE = 2    /* 17 bytes a record */
} sip_form;

#define SIP_SEED 32           /* bytes of a seed */
#define SIP_MOST_SEATS 64     /* seats of a sketch */
#define SIP_MOST_SKETCH 25812 /* bytes of a saved sketch: 84, and 18 + 8 * depth for each seat */

/* Adds `delta` to the entry `item` of a side. */
typedef struct sip_update {
    uint64_t item; /* below 2^depth */
    int64_t delta; /* not 0; the absolute values of all that a side adds come to 2^30 - 1 at most */
    uint8_t side;  /* 0 or 1 */
} sip_update;

/* What is told of a sketch. It has none of its secrets. */
typedef struct sip_told {
    uint64_t records;     /* how many updates came */
    uint64_t weight_0;    /* the sum of the absolute values of the deltas of side 0 */
    uint64_t weight_1;    /* of side 1 */
    uint64_t fingerprint; /* of the updates, whatever their order */
    uint32_t parts;       /* how many parts the stream has */
    uint32_t first_part;  /* the first that is in, from 1 */
    uint32_t last_part;   /* the last that is in */
    uint32_t seats;       /* how many seats there are */
    uint8_t depth;        /* there are 2^depth items */
    bool negative_0;      /* whether a delta of side 0 was below 0 */
    bool negative_1;      /* whether one of side 1 was */
} sip_told;

/* Begins the sketch of the empty stream in an empty handle: a seat of each of `kinds` (codes of
   sip_seat_kind), in order, with the challenges that the seed gives, and one part in. A seed begins
   one sketch and its parts, and is used for nothing else.
   seed: SIP_SEED bytes. depth: 1 to 48. part: from 1 to `parts`, the number of collectors whose
   sketches add up; 1 of 1 for a stream in one piece. kinds: 1 to SIP_MOST_SEATS.
   The first of: SIP_FULL; SIP_BAD_LENGTH; SIP_BAD_DEPTH; SIP_BAD_PART; SIP_BAD_CODE;
   SIP_SEED_SPENT; SIP_NO_MEMORY. Takes depth draws and about 600 bytes a seat. */
sip_status sip_sketch_begin(sip_sketch *sketch, const uint8_t *seed, size_t seed_length,
                            uint8_t depth, uint32_t part, uint32_t parts, const uint8_t *kinds,
                            size_t kinds_length);

/* Loads a sketch of its saved bytes into an empty handle.
   SIP_FULL; SIP_BAD_SKETCH: *offset is where the first field begins that has none of its values;
   SIP_NO_MEMORY. */
sip_status sip_sketch_load(sip_sketch *sketch, const uint8_t *bytes, size_t length,
                           size_t *offset);

/* Saves a sketch: *size is the number of its bytes, which are written to the front of `to`.
   SIP_EMPTY; SIP_NO_ROOM with room for less: *size is written alone, so that any buffer of one byte
   asks for it; SIP_NO_MEMORY. Takes memory for the bytes until it returns, and their SHA-256. */
sip_status sip_sketch_save(sip_sketch *sketch, uint8_t *to, size_t room, size_t *size);

/* Keeps tables of the challenges of each unused seat, by which updates are added faster from now on:
   2 KiB for a seat and eight levels, 4 for heavy hitters, none for large entries, till the sketch is
   freed. They are not saved. SIP_EMPTY; SIP_NO_MEMORY. */
sip_status sip_sketch_keep_tables(sip_sketch *sketch);

/* Adds updates, in any number: all of them, or none.
   SIP_EMPTY; SIP_BAD_SIDE, SIP_BAD_ITEM, SIP_ZERO_DELTA, SIP_TOO_HEAVY: *at is the place, from 0,
   of the first update that may not come behind those before it. No memory; about 60 KB of stack. A
   call costs some microseconds, so hand over many updates at once. */
sip_status sip_sketch_update(sip_sketch *sketch, const sip_update *updates, size_t count,
                             size_t *at);

/* The same of whole records as they lie in a file of this form (a sip_form), the number of bytes
   being `length`. SIP_BAD_CODE of the form; SIP_BAD_LENGTH where the last record is cut; else as
   above. */
sip_status sip_sketch_update_records(sip_sketch *sketch, uint8_t form, const uint8_t *records,
                                     size_t length, size_t *at);

/* Adds the next part of the stream, which another collector kept at the same seed. `part` stays as
   it is, and is another handle than `sketch`.
   SIP_EMPTY of either; the first of SIP_OTHER_SHAPE, SIP_WHOLE, SIP_USED_SEAT, SIP_NOT_NEXT,
   SIP_TOO_HEAVY. No memory. */
sip_status sip_sketch_absorb(sip_sketch *sketch, sip_sketch *part);

/* Tells what a sketch is. SIP_EMPTY. */
sip_status sip_sketch_told(sip_sketch *sketch, sip_told *told);

/* Tells what the seat at this place, from 0, serves (a sip_seat_kind), and whether a question has
   used it. SIP_EMPTY; SIP_BAD_LENGTH where there is no such seat. */
sip_status sip_sketch_seat(sip_sketch *sketch, size_t place, uint8_t *kind, bool *is_used);

/* Lets go of a sketch. The handle is empty then. */
void sip_sketch_free(sip_sketch *sketch);

/* ---- a sketch that is asked ---- */

/* What is asked. */
typedef enum sip_question_kind {
    SIP_SUB = 1,     /* the entries of side 0 from lo to hi that are not 0: pairs */
    SIP_RANGE = 2,   /* the sum of the entries of the side from lo to hi */
    SIP_F2 = 3,      /* the sum of the squares of the entries of the side */
    SIP_INNER = 4,   /* the inner product of the sides */
    SIP_HEAVY = 5,   /* the entries of the side of at least lo, which is at least 1: pairs */
    SIP_SHARE = 6,   /* the entries of the side of at least lo/hi of its total: pairs */
    SIP_INDEX = 7,   /* the value of side 0 at item lo */
    SIP_PRED = 8,    /* the nearest entry of side 0 that is not 0, at item lo or below */
    SIP_SUCC = 9,    /* the same at item lo or above */
    SIP_MOMENT = 10, /* the sum of the power lo, 3 to 8, of the entries of the side */
    SIP_ABOVE = 11   /* the entries of the side of at least lo, 1 to 2^63 - 1, whatever was added to
                        others: pairs */
} sip_question_kind;

#define SIP_MOST_QUESTIONS 16
#define SIP_MOST_DUE 64 /* bytes that are due at once */

typedef struct sip_question {
    uint64_t lo, hi; /* what the kind has no use for is not looked at */
    uint8_t kind;    /* a sip_question_kind */
    uint8_t side;    /* 0 or 1 */
} sip_question;

typedef struct sip_entry {
    uint64_t item;
    int64_t value;
} sip_entry;

/* What an answer is. */
typedef enum sip_answer_kind {
    SIP_NUMBER = 1, /* `number` */
    SIP_PAIRS = 2,  /* so many `pairs`, which sip_asking_pairs copies */
    SIP_NEAREST = 3, /* the entry of `item` with the value `number` */
    SIP_NONE = 4    /* that there is no such entry */
} sip_answer_kind;

typedef struct sip_answer {
    int64_t number;
    uint64_t item;
    size_t pairs;
    uint8_t question; /* its number, from 1 */
    uint8_t kind;     /* a sip_answer_kind */
} sip_answer;

/* Why replies were rejected. */
typedef enum sip_reason {
    SIP_REASON_CLOSED = 1,         /* the other end closed inside the reply */
    SIP_REASON_BAD_KIND = 2,       /* a frame that may not stand there */
    SIP_REASON_BAD_LENGTH = 3,     /* a length that the frame does not have */
    SIP_REASON_BAD_COUNT = 4,      /* a count, a code or flags that do not fit the length */
    SIP_REASON_BAD_NUMBER = 5,     /* a number out of its range */
    SIP_REASON_REFUSED = 6,        /* the other end refused, with this `refusal` */
    SIP_REASON_BAD_ORDER = 7,      /* an item out of order, out of place or known already */
    SIP_REASON_TOO_MANY = 8,       /* more than an answer may have */
    SIP_REASON_BAD_FLAGS = 9,      /* other siblings than were asked for */
    SIP_REASON_HEAVY_SIBLING = 10, /* a node that would have to be shown is hidden */
    SIP_REASON_PAIRS = 11,         /* a node without its sibling */
    SIP_REASON_LIGHT_PARENT = 12,  /* a pair that need not be shown */
    SIP_REASON_SUM = 13,           /* a round polynomial that does not sum to what it must */
    SIP_REASON_TOTAL = 14,         /* another total */
    SIP_REASON_ROOT = 15,          /* another value at the end than the sketch has */
    SIP_REASON_BAD_FOUND = 16,     /* a place that answers no such question */
    SIP_REASON_NOT_ALONE = 17      /* other entries between */
} sip_reason;

/* How asking ended, or why it does not begin, beside the status. What the status says nothing of is
   0. */
typedef struct sip_ending {
    uint64_t records;     /* SIP_OUT_OF_STEP: how many records the other end holds */
    uint64_t weight_0;    /* and their weight of side 0 */
    uint64_t weight_1;    /* of side 1 */
    uint64_t fingerprint; /* and fingerprint */
    uint8_t question;     /* the number of the question that is meant, from 1 */
    uint8_t round;        /* SIP_REJECTED: the number of the reply, or the depth behind the last */
    uint8_t reason;       /* SIP_REJECTED: a sip_reason */
    uint8_t refusal;      /* SIP_REASON_REFUSED: the code */
} sip_ending;

/* What is wanted before anything goes on. */
typedef enum sip_wants {
    SIP_WANTS_SEND = 1,    /* send what is due: sip_asking_due, sip_run_due */
    SIP_WANTS_BYTES = 2,   /* hand over what comes, or that nothing will: sip_asking_feed, _close */
    SIP_WANTS_STORE = 3,   /* store the file: sip_asking_to_store, _stored */
    SIP_WANTS_READ = 4,    /* read the answer: sip_asking_answer, _pairs, _next */
    SIP_WANTS_NOTHING = 5, /* it ended: sip_asking_ended */
    SIP_WANTS_UPDATES = 6, /* hand over updates, or that none are left: sip_run_update, _end */
    SIP_WANTS_ASK = 7      /* all of the stream was sent, so ask: sip_run_ask */
} sip_wants;

/* What is asked: a sketch, or a run (below). The calls are the same for both. */
typedef struct sip_asking {
    void *at;
    bool full;
} sip_asking;

/* Begins to ask a sketch 1 to SIP_MOST_QUESTIONS questions, in order, in an empty handle. On SIP_OK
   the sketch is in `asking` and its own handle is empty: what is left of it then is what was stored.
   Else the sketch stays where it is. No seat is used by that.
   The first of: SIP_FULL; SIP_EMPTY of the sketch; SIP_BAD_LENGTH; SIP_BAD_CODE; SIP_NOT_WHOLE;
   SIP_UNFIT; SIP_SIGNED, SIP_NO_SEAT; SIP_TOO_WIDE, SIP_TOO_HIGH: from SIP_NOT_WHOLE on *ending is
   written. SIP_NO_MEMORY at any step. All memory is taken here: the sketch once more, a frame of
   8,709 bytes, and for each question that takes a seat a frame and room for its answer. */
sip_status sip_asking_begin(sip_asking *asking, sip_sketch *sketch, const sip_question *questions,
                            size_t count, sip_ending *ending);

/* Tells what is wanted, a sip_wants. SIP_EMPTY. */
sip_status sip_asking_wants(sip_asking *asking, uint8_t *wants);

/* Hands out the bytes that are due, each once: *count of them, 0 where none are.
   SIP_EMPTY; SIP_NO_ROOM with room for less than SIP_MOST_DUE, which is written to *count. */
sip_status sip_asking_due(sip_asking *asking, uint8_t *to, size_t room, size_t *count);

/* Takes bytes that came, in any pieces: *taken of them, which are all while some are awaited, and
   none behind the last one that is. SIP_EMPTY. */
sip_status sip_asking_feed(sip_asking *asking, const uint8_t *bytes, size_t length,
                           size_t *taken);

/* The other end closed: where bytes were to come, it ended for that. SIP_EMPTY. */
sip_status sip_asking_close(sip_asking *asking);

/* Writes the bytes of the sketch with the next question's seat used to the front of `to`: *size of
   them. Store them in the place of the sketch so that no crash brings it back as it was: in a new
   file, synced, which is renamed to its name, and the folder synced.
   SIP_EMPTY; SIP_NOT_NOW, of a run always; SIP_NO_ROOM with room for less: *size is written. */
sip_status sip_asking_to_store(sip_asking *asking, uint8_t *to, size_t room, size_t *size);

/* They are stored: from here on bytes of the question are due, and its seat is used. To say so too
   early breaks the one rule that a sketch has, that no seat serves two questions.
   SIP_EMPTY; SIP_NOT_NOW. */
sip_status sip_asking_stored(sip_asking *asking);

/* Tells the answer to the question at hand. SIP_EMPTY; SIP_NOT_NOW. */
sip_status sip_asking_answer(sip_asking *asking, sip_answer *answer);

/* Copies the pairs of the answer from the place `from` on, rising by item, to the front of `to`:
   *count of them, as many as there are and there is room for. SIP_EMPTY. */
sip_status sip_asking_pairs(sip_asking *asking, size_t from, sip_entry *to, size_t room,
                            size_t *count);

/* The answer was read: the next question has its turn, or the farewell is due. SIP_EMPTY;
   SIP_NOT_NOW; of a run SIP_NO_MEMORY, with which it ended. */
sip_status sip_asking_next(sip_asking *asking);

/* How it ended: SIP_OK where each question was answered; SIP_REJECTED, SIP_OUT_OF_STEP,
   SIP_BAD_FRAME, SIP_PEER_CLOSED, SIP_NO_MEMORY, with *ending; SIP_NOT_NOW where it has not.
   SIP_EMPTY. */
sip_status sip_asking_ended(sip_asking *asking, sip_ending *ending);

/* Lets go of it. The handle is empty then. A seat whose file was stored stays used. */
void sip_asking_free(sip_asking *asking);

/* ---- a run: a stream that is sent as it goes by, and then questions ---- */

#define SIP_MOST_FRAME 8709 /* bytes that are due of a run at once */

typedef struct sip_run {
    void *at;
    bool full;
} sip_run;

/* Begins a run of 1 to SIP_MOST_QUESTIONS questions in an empty handle, before anything is said.
   The other end is `sip help` where all are queries, and else a helper of questions of every kind,
   or whatever keeps to the protocol of these. `sip helplook` and `sip helpmom` are none: their talks
   have a farewell of their own.
   seed: SIP_SEED bytes, for this run alone. depth: 1 to 48.
   The first of: SIP_FULL; SIP_BAD_LENGTH; SIP_BAD_DEPTH; SIP_BAD_CODE; SIP_UNFIT: *ending is
   written; SIP_SEED_SPENT; SIP_NO_MEMORY. Takes about 12 KB and a seat for each question. */
sip_status sip_run_begin(sip_run *run, const uint8_t *seed, size_t seed_length, uint8_t depth,
                         const sip_question *questions, size_t count, sip_ending *ending);

/* Tells what is wanted: SIP_WANTS_SEND, SIP_WANTS_UPDATES or SIP_WANTS_ASK. SIP_EMPTY. */
sip_status sip_run_wants(sip_run *run, uint8_t *wants);

/* Hands out the bytes that are due, each once: *count of them, 0 where none are: the opening first,
   a frame behind each 512 updates, and behind the end the rest.
   SIP_EMPTY; SIP_NO_ROOM with room for less than SIP_MOST_FRAME, which is written to *count. */
sip_status sip_run_due(sip_run *run, uint8_t *to, size_t room, size_t *count);

/* Takes updates of the stream, in pieces of any lengths: *taken of them, which are all while
   updates are wanted. None are taken while bytes are due, and none behind the end.
   SIP_EMPTY; SIP_BAD_SIDE, SIP_BAD_ITEM, SIP_ZERO_DELTA, SIP_TOO_HEAVY of the one at the place
   *taken, from 0, where those before it are taken. No memory. */
sip_status sip_run_update(sip_run *run, const sip_update *updates, size_t count, size_t *taken);

/* The same of whole records as they lie in a file of this form (a sip_form), the number of bytes
   being `length`. SIP_BAD_CODE of the form; SIP_BAD_LENGTH where the last record is cut; else as
   above. */
sip_status sip_run_update_records(sip_run *run, uint8_t form, const uint8_t *records,
                                  size_t length, size_t *taken);

/* The stream ends: the rest of it is due. SIP_EMPTY; SIP_NOT_NOW where no updates are wanted. */
sip_status sip_run_end(sip_run *run);

/* Begins to ask the questions, in order, in an empty handle: what is asked is in `asking` then, for
   whose calls see above; nothing of it is stored. The handle of the run is empty then, whatever
   comes of it, but for the first four:
   SIP_FULL of `asking`; SIP_EMPTY; SIP_OTHER_HANDLE; SIP_NOT_NOW where not all was sent;
   SIP_TOO_WIDE, SIP_TOO_HIGH: *ending is written; SIP_NO_MEMORY. Takes a frame of 8,709 bytes, and
   room for the answer; so does sip_asking_next for each question behind the first. */
sip_status sip_run_ask(sip_run *run, sip_asking *asking, sip_ending *ending);

/* Lets go of a run. The handle is empty then. */
void sip_run_free(sip_run *run);

#ifdef __cplusplus
}
#endif

#endif
