/* Wubraken: a pool of arrivals over memory that the caller lends, a dealer of its
 * workers' turns, an echogram that adds up what was taken, and how it decays.
 *
 * The pool keeps nothing of its own: every call gets the shape, a store of
 * words and a table with one record a worker. A call of a worker begins with
 * wubraken_enqueue or wubraken_dequeue and goes on by wubraken_step, one shared
 * word a step, until the step answers STORED, TOOK or EMPTY. The handle
 * wubraken_pool, at the end, keeps shape and memory together: begin there.
 *
 * Where calls do not overlap, a dequeue takes the earliest arrival in the pool: that
 * of the lowest time; at equal times of the lowest order, the direct sound before a
 * first reflection; at equal orders the one whose enqueue began first, which has the
 * lower ticket. (What holds where they overlap: docs/READING.md.)
 *
 * Which calls to use:
 * - Where only the pool has written to the memory since its opening, the narrow
 *   calls, as the handle does: they look only at what they need, and a turn costs
 *   the same at every shape.
 * - For memory that came from elsewhere, wubraken_enqueue, wubraken_dequeue and
 *   wubraken_step, which look at every field of store and table each time; or
 *   wubraken_pool_audit, which does so once, and then the narrow calls.
 * - Where many turns are known beforehand, as in a turn file, wubraken_run_batch,
 *   which looks at every field once a batch.
 * - Where the turns are to go round among the workers, a dealer: wubraken_pool_deal,
 *   or wubraken_deal and wubraken_deal_run for memory that came from elsewhere.
 * - For an echogram wubraken_clear_row, then wubraken_record, or for many taken
 *   arrivals at once wubraken_record_series. It is handed a row of its own, and
 *   knows no pool.
 * - For the decay of such a row wubraken_early_decay and wubraken_t20; for its levels
 *   wubraken_decay_curve, or wubraken_level for one slot. They only read the row.
 *
 * What the caller owes: a pointer leads to as many elements as its length says,
 * is aligned, and is not null even for a length of 0; a buffer that is written
 * lies apart from the others of its call; nobody else uses what is written, or
 * writes what is read, during the call. Nothing more. Any shape, length, content and
 * argument may be handed in; an opening, a start, a turn, a recording or a measurement
 * that cannot be done is refused by a number and changes nothing.
 *
 * Link target/staticlib/libwubraken.a; for wubraken_run_batch
 * target/staticlib/libwubraken_batch.a, for a dealer target/staticlib/libdealer.a, for
 * an echogram target/staticlib/libechogram.a, and for the decay of a row
 * target/staticlib/libdecay.a (x86-64, System V). None needs another.
 */
#ifndef WUBRAKEN_H
#define WUBRAKEN_H

#include <stddef.h>
#include <stdint.h>

#ifdef __cplusplus
extern "C" {
#endif

/* Limits, all included. */
enum {
    WUBRAKEN_MAX_WORKERS = 64,
    WUBRAKEN_MAX_NODES = 4096,
    WUBRAKEN_MAX_BUCKETS = 256,
    WUBRAKEN_MAX_WIDTH = 65535,
    WUBRAKEN_MAX_PATH = 65535,
    WUBRAKEN_MAX_ORDER = 63,
    WUBRAKEN_MAX_DISTANCE = 1024,
    WUBRAKEN_MAX_SLOTS = 16384,
    WUBRAKEN_MAX_SLOT_LENGTH = 4800
};

/* What a pool is made for; each field is at least 1. Lend wubraken_words(shape)
 * words and shape.workers records, or more: what lies beyond is not touched. */
typedef struct {
    uint64_t workers; /* to WUBRAKEN_MAX_WORKERS */
    uint64_t nodes;   /* to WUBRAKEN_MAX_NODES: arrivals that it can hold */
    uint64_t buckets; /* to WUBRAKEN_MAX_BUCKETS */
    uint64_t width;   /* to WUBRAKEN_MAX_WIDTH: samples of time in one bucket; the last takes all later ones, too */
} wubraken_shape;

/* The words for a number of nodes and buckets within their limits, as a constant:
 * static uint64_t store[WUBRAKEN_WORDS(100, 16)]; */
#define WUBRAKEN_WORDS(nodes, buckets) (3 + (buckets) + 8 * (nodes))

typedef struct {
    uint32_t time;     /* samples, any number */
    uint32_t path;     /* 0 to WUBRAKEN_MAX_PATH */
    uint32_t order;    /* reflections, 0 to WUBRAKEN_MAX_ORDER */
    uint32_t distance; /* metres, 1 to WUBRAKEN_MAX_DISTANCE */
} wubraken_arrival;

/* A worker's record. The caller lends it and need not look inside.
 *
 * A node's number is below `nodes`; `nodes` itself stands for the end of a list.
 * A cell is a word that leads to a node: cell c below `buckets` is the head of
 * bucket c, cell buckets + n is the link of node n. */
typedef struct {
    uint64_t stage;   /* 0 idle; 1 to 3 search; 4 to 7 enqueue; 8 to 13 dequeue */
    uint64_t kind;    /* 0 enqueue, 1 dequeue */
    uint64_t own;     /* node being put in, or marked to be taken */
    uint64_t bucket;  /* bucket at work in */
    uint64_t left;    /* cell before the place searched for */
    uint64_t right;   /* node behind that place, or looked at by a dequeue; or the end */
    uint64_t seen;    /* link as last read */
    uint64_t current; /* store word 0 as read at stages 4, 6, 8 or written at 12 */
    uint64_t ticket;  /* place of the call among all calls begun */
} wubraken_worker;

/* The words of the store, for a debugger:
 *
 *   0                      current bucket << 32 | epoch
 *   1                      calls begun
 *   2                      node handed out last
 *   3 + b                  head of bucket b: a link, never marked
 *   3 + buckets + 8 n + f  field f of node n:
 *       0 link      successor << 1 | mark; marked: taken, and to be unlinked
 *       1 time      2 ticket    3 path      4 order     5 distance
 *       6 epoch     of word 0 when the node was about to be linked
 *       7 standing  0 never used, 1 in use, 2 + s unlinked when s calls had begun
 *
 * The nodes of a list stand by time, then order, then ticket.
 */

/* Kinds of answers. */
enum {
    WUBRAKEN_OPEN = 0,   /* the pool is open and empty */
    WUBRAKEN_BEGUN = 1,  /* a call has begun: ticket */
    WUBRAKEN_ON = 2,     /* the call goes on */
    WUBRAKEN_STORED = 3, /* an enqueue has ended: ticket */
    WUBRAKEN_TOOK = 4,   /* a dequeue has ended: time, path, order, distance, energy */
    WUBRAKEN_EMPTY = 5,  /* a dequeue has ended, and found the pool empty */
    WUBRAKEN_REFUSED = 6 /* an opening, a start or a turn is refused: number */
};

/* Why a call is refused. Of several reasons the lowest number is answered. */
enum {
    WUBRAKEN_BAD_SHAPE = 1,      /* a field of the shape is outside its limits */
    WUBRAKEN_TOO_SHORT = 2,      /* store or table are too short for the shape, or the parts of a series differ in length */
    WUBRAKEN_OUT_OF_RANGE = 3,   /* a word of the store or a field of the table is out of its range */
    WUBRAKEN_NO_WORKER = 4,      /* the shape has no such worker */
    WUBRAKEN_BAD_ARRIVAL = 5,    /* path, order or distance is outside its limits */
    WUBRAKEN_TOO_LATE = 6,       /* not given since Q-1 */
    WUBRAKEN_UNKNOWN_MARK = 7,   /* a turn file has two letters that begin no record */
    WUBRAKEN_CUT_RECORD = 8,     /* a turn file ends inside a record */
    WUBRAKEN_BUSY = 9,           /* the worker has a call in progress */
    WUBRAKEN_IDLE = 10,          /* the worker has no call in progress */
    WUBRAKEN_EXHAUSTED = 11,     /* tickets or epochs are used up: open the pool again */
    WUBRAKEN_NO_NODE = 12,       /* every node is in use or may still be stood on */
    WUBRAKEN_BAD_ROW = 13,       /* the row or the slot length is outside its limits */
    WUBRAKEN_PAST_ROW = 14,      /* the slot of the time lies past the row */
    WUBRAKEN_SUM_TOO_LARGE = 15, /* the slot or the sum of all slots would pass 2^32 - 1, or the sum is above it */
    WUBRAKEN_ALL_IDLE = 16,      /* no worker has a call in progress */
    WUBRAKEN_SILENT_ROW = 17,    /* every slot of the row is zero */
    WUBRAKEN_SHORT_BUFFER = 19   /* the buffer has fewer places than the row has slots */
};

/* What is wrong, and what to do. */
static inline const char *wubraken_refusal_text(uint64_t number)
{
    switch (number) {
    case WUBRAKEN_BAD_SHAPE:
        return "the shape is outside its limits; workers 1 to 64, nodes 1 to 4096, buckets 1 to 256, width 1 to 65535";
    case WUBRAKEN_TOO_SHORT:
        return "the memory is too short: lend the words that the shape needs, and a record for each worker; or the times, energies and answers of a series are not equally many";
    case WUBRAKEN_OUT_OF_RANGE:
        return "the memory is out of range; lend it as the pool left it, or open the pool again";
    case WUBRAKEN_NO_WORKER:
        return "there is no such worker; the first is 0, and the shape says how many there are";
    case WUBRAKEN_BAD_ARRIVAL:
        return "the arrival is outside its limits; path 0 to 65535, order 0 to 63, distance 1 to 1024";
    case WUBRAKEN_TOO_LATE:
        return "not given since Q-1; every time has a bucket";
    case WUBRAKEN_UNKNOWN_MARK:
        return "the turn file has an unknown mark; records begin with OP, PU, TA or TU";
    case WUBRAKEN_CUT_RECORD:
        return "the turn file ends inside a record; hand in the rest of it, too";
    case WUBRAKEN_BUSY:
        return "the worker has a call in progress; step it to its end first";
    case WUBRAKEN_IDLE:
        return "the worker has no call in progress; begin one first";
    case WUBRAKEN_EXHAUSTED:
        return "the tickets or the epochs are used up; open the pool again";
    case WUBRAKEN_NO_NODE:
        return "no node is free; end calls in progress, take arrivals, or open the pool with more nodes";
    case WUBRAKEN_BAD_ROW:
        return "the row or the slot length is outside its limits; slots 1 to 16384, slot length 1 to 4800";
    case WUBRAKEN_PAST_ROW:
        return "the slot lies past the row; use more slots, or longer ones";
    case WUBRAKEN_SUM_TOO_LARGE:
        return "the slot or the sum of all slots would pass 4294967295, or the sum is above it; clear the row, or use another";
    case WUBRAKEN_ALL_IDLE:
        return "no worker has a call in progress; begin one first";
    case WUBRAKEN_SILENT_ROW:
        return "every slot of the row is zero; record something first";
    case WUBRAKEN_SHORT_BUFFER:
        return "the buffer is too short; lend a place for each slot of the row";
    default:
        return "no refusal has this number";
    }
}

/* Fields that an answer does not carry are 0. */
typedef struct {
    uint64_t kind;
    uint64_t number;
    uint64_t ticket;
    uint64_t time, path, order, distance;
    uint64_t energy; /* 2^24 / distance^2, rounded down; 0 at distance 0 */
} wubraken_answer;

/* Words to lend for a shape; 0 if the shape is outside its limits. */
uint64_t wubraken_words(wubraken_shape shape);

/* The bucket of a time: the last one has all times from (buckets - 1) * width on,
 * so its list grows with the arrivals that come late. If the shape is outside its
 * limits, shape.buckets, which is no bucket. */
static inline uint64_t wubraken_bucket_of(wubraken_shape shape, uint32_t time)
{
    uint64_t bucket;
    if (wubraken_words(shape) == 0)
        return shape.buckets;
    bucket = time / shape.width;
    return bucket < shape.buckets ? bucket : shape.buckets - 1;
}

/* Opens a pool, whatever the memory held. Refusals: 1, 2. */
wubraken_answer wubraken_open(wubraken_shape shape,
                              uint64_t *store, size_t words,
                              wubraken_worker *table, size_t records);

/* A worker begins to put an arrival in. Refusals: 1 to 5, 9, 11, 12. */
wubraken_answer wubraken_enqueue(wubraken_shape shape, uint64_t worker, wubraken_arrival arrival,
                                 uint64_t *store, size_t words,
                                 wubraken_worker *table, size_t records);

/* A worker begins to take the earliest arrival out. Refusals: 1 to 4, 9, 11. */
wubraken_answer wubraken_dequeue(wubraken_shape shape, uint64_t worker,
                                 uint64_t *store, size_t words,
                                 wubraken_worker *table, size_t records);

/* A worker's call goes on by one shared word. Refusals: 1 to 4, 10, 11. */
wubraken_answer wubraken_step(wubraken_shape shape, uint64_t worker,
                              uint64_t *store, size_t words,
                              wubraken_worker *table, size_t records);

/* The narrow calls: as the three above, but 3 looks only at what is needed: the
 * first three words of the store and the worker's own record; for an enqueue the
 * records of all workers. With the words that it finds a start or turn does what
 * it always does, so on memory that only the pool has written to since its
 * opening the answers and the memory are the same. Any memory may be handed in.
 *
 * A narrow call goes on by itself: after a start, or a turn that answered ON, come
 * at most `turns` turns of the same worker, until one answers something else than
 * ON. The last answer is the answer:
 *   BEGUN, ON            the turns are used up, and the call is in progress
 *   STORED, TOOK, EMPTY  the call has ended
 *   REFUSED              that start or turn was refused, and changed nothing; the
 *                        turns before it are done
 * With turns 0 it is the start or the turn alone. In memory that no pool has left
 * lists may lead in a circle, and a call needs a limit. */

/* Refusals: 1 to 5, 9, 11, 12; in a turn 3, 11. */
wubraken_answer wubraken_narrow_enqueue(wubraken_shape shape, uint64_t worker, wubraken_arrival arrival,
                                        uint64_t turns,
                                        uint64_t *store, size_t words,
                                        wubraken_worker *table, size_t records);

/* Refusals: 1 to 4, 9, 11; in a turn 3. */
wubraken_answer wubraken_narrow_dequeue(wubraken_shape shape, uint64_t worker, uint64_t turns,
                                        uint64_t *store, size_t words,
                                        wubraken_worker *table, size_t records);

/* One turn, then at most `turns` more. Refusals: 1 to 4, 10, 11. */
wubraken_answer wubraken_narrow_step(wubraken_shape shape, uint64_t worker, uint64_t turns,
                                     uint64_t *store, size_t words,
                                     wubraken_worker *table, size_t records);

/* Why wubraken_run_batch stopped; otherwise by WUBRAKEN_UNKNOWN_MARK or
 * WUBRAKEN_CUT_RECORD, for which no line is written. A record may be cut only
 * because the rest of it has not been handed in yet. */
enum {
    WUBRAKEN_DRAINED = 0, /* all of the input is worked through */
    WUBRAKEN_FULL = 1     /* fewer than WUBRAKEN_LINE bytes of room are left, with or without input */
};

/* No line is longer. */
enum { WUBRAKEN_LINE = 89 };

typedef struct {
    wubraken_shape shape; /* that of the last opening not refused; else as handed in */
    uint64_t read;        /* bytes of input worked through */
    uint64_t written;     /* bytes of lines in `out` */
    uint64_t stop;
} wubraken_batch_end;

/* Works through the records of a turn file and writes one line a record, as
 * wubraken_open, _enqueue, _dequeue and _step would answer them. It looks through
 * the lent memory once, not once a record, and works on a copy of the workers'
 * records, which it stores back. It needs at least WUBRAKEN_LINE bytes of room, and
 * some 20 KB of stack. To go on, hand in the shape it answered and the input from
 * `read` on. */
wubraken_batch_end wubraken_run_batch(wubraken_shape shape,
                                      const uint8_t *input, size_t bytes,
                                      uint8_t *out, size_t room,
                                      uint64_t *store, size_t words,
                                      wubraken_worker *table, size_t records);

/* A dealer of turns: a number, the worker that it served last. The next turn goes to
 * the first worker after that one, going round, that has a call in progress; the one
 * served last comes last. So a call that stays in progress has a turn within as many
 * dealt turns as the shape has workers, whatever begins meanwhile. (In damaged memory a
 * record out of range that is to be served stops it there, by 3.) Starts are as ever.
 *
 * A dealt turn is a turn of that worker. One that is refused by 11 is dealt, too: it
 * changes nothing in the pool, the dealer moves on, and the others get their turns. By
 * any other refusal no turn is dealt. */
typedef struct {
    uint64_t dealer;        /* what it remembers now: the worker served last; as handed in where no turn was dealt */
    uint64_t turns;         /* how many turns were dealt, one refused by 11 included */
    wubraken_answer answer; /* of the last turn dealt, or the refusal by which no other was */
} wubraken_dealt;

/* What a new dealer remembers: the last worker, so that worker 0 comes next. 0 for a
 * shape without workers. */
uint64_t wubraken_new_dealer(wubraken_shape shape);

/* One dealt turn. It looks at every field of store and table. Refusals: 1 to 4 (4: the
 * shape has no such worker as the dealer remembers), 11, 16. */
wubraken_dealt wubraken_deal(wubraken_shape shape, uint64_t dealer,
                             uint64_t *store, size_t words,
                             wubraken_worker *table, size_t records);

/* At most `turns` dealt turns, as wubraken_deal makes them one by one, until one answers
 * something else than ON. It looks at every field once. With turns 0 the answer is ON,
 * whatever there is. In memory that no pool has left lists may lead in a circle, and a
 * run needs a limit. Refusals: 1 to 4, 11, 16; behind the first turn 3, 11. */
wubraken_dealt wubraken_deal_run(wubraken_shape shape, uint64_t dealer, uint64_t turns,
                                 uint64_t *store, size_t words,
                                 wubraken_worker *table, size_t records);

/* The same by narrow turns: 3 looks only at the first three words of the store and at
 * the record of the worker to be served. Of the other records only the stage counts.
 * Refusals: 1 to 4, 11, 16; behind the first turn 3, 11. */
wubraken_dealt wubraken_narrow_deal(wubraken_shape shape, uint64_t dealer, uint64_t turns,
                                    uint64_t *store, size_t words,
                                    wubraken_worker *table, size_t records);

/* An echogram: a lent row of 1 to WUBRAKEN_MAX_SLOTS slots, to which the energies
 * of taken arrivals are added. A slot has 1 to WUBRAKEN_MAX_SLOT_LENGTH samples; a
 * time is of slot time / slot_length, rounded down. Nothing but the row is kept, so
 * hand in the same slot length each time. From a clearing on, the sum of the slots
 * is that of the energies recorded. It goes to 2^32 - 1: a lent row that is above
 * takes nothing, not even an energy of 0.
 *
 * The answer is 0, or the number of a refusal; then the row is as it was. */

/* Every slot becomes 0. Refusal: 13. */
uint64_t wubraken_clear_row(uint64_t slot_length, uint32_t *row, size_t slots);

/* Adds an energy to the slot of a time, both any numbers. It looks at the whole
 * row, to add it up. Refusals: 13 to 15. */
uint64_t wubraken_record(uint64_t slot_length, uint32_t time, uint32_t energy,
                         uint32_t *row, size_t slots);

/* Records what a take answered, as it stands. Its energy is at most 2^24. Its time
 * has 32 bits where only the pool has written to its memory since an opening, and
 * so it has after an audit; a greater one lies past every row. Refusals: 13 to 15. */
static inline uint64_t wubraken_record_taken(uint64_t slot_length, wubraken_answer taken,
                                             uint32_t *row, size_t slots)
{
    const uint64_t most = 4294967295u;
    uint32_t time = (uint32_t)(taken.time < most ? taken.time : most);
    return wubraken_record(slot_length, time, (uint32_t)taken.energy, row, slots);
}

/* A series of recordings, one by one, and the answer to each: 0, 14 or 15. It adds
 * up the row once. The three counts must be one number. `times` and `energies` are
 * only read, and may be the same. Refusals of the whole series: 2, 13; then the
 * answers are as they were, too. */
uint64_t wubraken_record_series(uint64_t slot_length,
                                const uint32_t *times, size_t times_count,
                                const uint32_t *energies, size_t energies_count,
                                uint8_t *answers, size_t answers_count,
                                uint32_t *row, size_t slots);

/* The decay of a row, measured from its start: R(k) is what slot k and all behind it
 * add up to, 0 past the last. The row is only read, and may lie where nobody can
 * write. The slot length does not count; what is measured in slots is, times the slot
 * length, in samples.
 *
 * The level of slot k says how far R(k) lies below R(0), in tenths of a decibel. With
 * r = 1024 * R(k) / R(0), rounded down, it is L(1024) - L(r), from 0 to 301; L(r) is
 * the greatest v with 10^v <= r^100. For r = 0 there is no level. */

/* Stands for the level of a slot that has none; print a dash. */
enum { WUBRAKEN_NO_LEVEL = 65535 };

typedef struct {
    uint64_t number; /* 0, or the refusal */
    uint64_t value;  /* what was measured; 0 where refused */
} wubraken_measured;

/* Early decay, in slots: 6 times the first k with 10 * R(k) <= R(0).
 * Refusals: 13, 15, 17. */
wubraken_measured wubraken_early_decay(const uint32_t *row, size_t slots);

/* T20, in slots: 3 * (b - a), where a is the first slot with 10 * R(a)^2 <= R(0)^2,
 * and b the first with 100000 * R(b)^2 <= R(0)^2. Refusals: 13, 15, 17. */
wubraken_measured wubraken_t20(const uint32_t *row, size_t slots);

/* The level of a slot, which may be any number: past the end there is none, and the
 * value is WUBRAKEN_NO_LEVEL. It adds up the whole row. Refusals: 13, 15, 17. */
wubraken_measured wubraken_level(uint64_t slot, const uint32_t *row, size_t slots);

/* The levels of all slots, one a place, WUBRAKEN_NO_LEVEL among them. Places beyond
 * the slots are not touched. The answer is 0, or the number of a refusal; then the
 * buffer is as it was. Refusals: 13, 15, 17, 19. */
uint64_t wubraken_decay_curve(const uint32_t *row, size_t slots, uint16_t *levels, size_t places);

/* A pool: a shape and the memory lent to it, which nobody else writes to while
 * the pool is in use. wubraken_pool_open fills it in; memory that came from
 * elsewhere is put in by hand, and audited. */
typedef struct {
    wubraken_shape shape; /* that of the last opening not refused */
    uint64_t *store;
    size_t words;
    wubraken_worker *table;
    size_t records;
} wubraken_pool;

/* Empties the pool and gives it a shape, in the memory it has. A refusal (1, 2)
 * leaves everything as it was. */
static inline wubraken_answer wubraken_pool_reopen(wubraken_pool *pool, wubraken_shape shape)
{
    wubraken_answer answer = wubraken_open(shape, pool->store, pool->words, pool->table, pool->records);
    if (answer.kind == WUBRAKEN_OPEN)
        pool->shape = shape;
    return answer;
}

/* Opens a pool in lent memory, whatever that held. After a refusal (1, 2) the pool
 * has the memory and no shape: every call is refused by 1, and it can be reopened. */
static inline wubraken_answer wubraken_pool_open(wubraken_pool *pool, wubraken_shape shape,
                                                 uint64_t *store, size_t words,
                                                 wubraken_worker *table, size_t records)
{
    const wubraken_shape none = {0, 0, 0, 0};
    pool->shape = none;
    pool->store = store;
    pool->words = words;
    pool->table = table;
    pool->records = records;
    return wubraken_pool_reopen(pool, shape);
}

/* Looks at every word and every record, once, and changes nothing. 0, or what is
 * wrong: 1, 2 or 3. */
static inline uint64_t wubraken_pool_audit(const wubraken_pool *pool)
{
    /* There is no such worker: refused by 4 exactly where 1 to 3 do not apply. */
    uint64_t number = wubraken_step(pool->shape, pool->shape.workers,
                                    pool->store, pool->words, pool->table, pool->records).number;
    return number == WUBRAKEN_NO_WORKER ? 0 : number;
}

/* How many calls can still begin before all are refused by 11; an opening gives
 * them back. */
static inline uint64_t wubraken_pool_calls_left(const wubraken_pool *pool)
{
    const uint64_t most = 4294967295u;
    return pool->words > 1 && pool->store[1] < most ? most - pool->store[1] : 0;
}

/* Whether a worker has a call in progress: 1 or 0. One that there is not has none. */
static inline int wubraken_pool_in_progress(const wubraken_pool *pool, uint64_t worker)
{
    return worker < pool->shape.workers && worker < pool->records && pool->table[worker].stage != 0;
}

/* A worker begins to put an arrival in. Refusals: 1 to 5, 9, 11, 12. */
static inline wubraken_answer wubraken_pool_enqueue(const wubraken_pool *pool, uint64_t worker,
                                                    wubraken_arrival arrival)
{
    return wubraken_narrow_enqueue(pool->shape, worker, arrival, 0,
                                   pool->store, pool->words, pool->table, pool->records);
}

/* A worker begins to take the earliest arrival out. Refusals: 1 to 4, 9, 11. */
static inline wubraken_answer wubraken_pool_dequeue(const wubraken_pool *pool, uint64_t worker)
{
    return wubraken_narrow_dequeue(pool->shape, worker, 0,
                                   pool->store, pool->words, pool->table, pool->records);
}

/* A worker's call goes on by one turn, one shared word. Refusals: 1 to 4, 10, 11. */
static inline wubraken_answer wubraken_pool_step(const wubraken_pool *pool, uint64_t worker)
{
    return wubraken_narrow_step(pool->shape, worker, 0,
                                pool->store, pool->words, pool->table, pool->records);
}

/* A worker's call goes on by at most so many turns, until it has ended: the last
 * answer, ON if the turns are used up. 0 turns are ON, whatever there is.
 * Refusals, of the next turn: 1 to 4, 10, 11. */
static inline wubraken_answer wubraken_pool_run(const wubraken_pool *pool, uint64_t worker, uint64_t turns)
{
    const wubraken_answer on = {WUBRAKEN_ON, 0, 0, 0, 0, 0, 0, 0};
    if (turns == 0)
        return on;
    return wubraken_narrow_step(pool->shape, worker, turns - 1,
                                pool->store, pool->words, pool->table, pool->records);
}

/* A worker puts an arrival in: begins, and goes on by at most so many turns;
 * UINT64_MAX is as good as no limit, in memory that grew from an opening (in other
 * memory a list may lead in a circle, and no end comes). STORED; or BEGUN or ON: the turns are used
 * up, and the call goes on by _run or _step. A refusal in the midst (11: no epoch
 * is left; 3: damaged memory) leaves the call in progress, which
 * wubraken_pool_in_progress tells. Refusals: 1 to 5, 9, 11, 12. */
static inline wubraken_answer wubraken_pool_put(const wubraken_pool *pool, uint64_t worker,
                                                wubraken_arrival arrival, uint64_t turns)
{
    return wubraken_narrow_enqueue(pool->shape, worker, arrival, turns,
                                   pool->store, pool->words, pool->table, pool->records);
}

/* A worker takes the earliest arrival out: begins, and goes on by at most so many
 * turns, with UINT64_MAX as above. TOOK or EMPTY; or BEGUN or ON, as above. Refusals: 1 to 4, 9, 11.
 * Workers whose calls overlap may get arrivals out of order: docs/READING.md. */
static inline wubraken_answer wubraken_pool_take(const wubraken_pool *pool, uint64_t worker, uint64_t turns)
{
    return wubraken_narrow_dequeue(pool->shape, worker, turns,
                                   pool->store, pool->words, pool->table, pool->records);
}

/* Deals at most so many turns, until a call has ended: the last answer, ON if the turns
 * are used up, and the dealer moves on to the worker served last. Begin with a dealer of
 * wubraken_new_dealer(pool->shape). 0 turns are ON, whatever there is. In memory that no
 * pool has left lists may lead in a circle, and a run needs a limit.
 * Refusals, of the next turn: 1 to 4, 16; and 11, of one that is dealt. */
static inline wubraken_dealt wubraken_pool_deal(const wubraken_pool *pool, uint64_t *dealer, uint64_t turns)
{
    wubraken_dealt dealt = wubraken_narrow_deal(pool->shape, *dealer, turns,
                                                pool->store, pool->words, pool->table, pool->records);
    *dealer = dealt.dealer;
    return dealt;
}

/* wubraken_run_batch on the pool. An opening among the records changes its shape. */
static inline wubraken_batch_end wubraken_pool_run_batch(wubraken_pool *pool,
                                                         const uint8_t *input, size_t bytes,
                                                         uint8_t *out, size_t room)
{
    wubraken_batch_end end = wubraken_run_batch(pool->shape, input, bytes, out, room,
                                                pool->store, pool->words, pool->table, pool->records);
    pool->shape = end.shape;
    return end;
}

#ifdef __cplusplus
}
#endif

#endif
