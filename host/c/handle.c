/* A pool by its handle: arrivals are put in and taken out, a call at a time, in
 * parts, turn by turn, which is the worked example, far behind the others, and at
 * equal times. Prints what is answered, and with the argument "turns" the worked
 * example alone, one line a record. */
#include <inttypes.h>
#include <stdio.h>
#include <string.h>

#include "answers.h"
#include "wubraken.h"

static uint64_t store[WUBRAKEN_WORDS(4, 2)]; /* nodes, buckets */
static wubraken_worker table[2];             /* one record a worker */
static wubraken_pool pool;

/* Opens the pool of the worked example, for so many workers. */
static void open_for(uint64_t workers)
{
    const wubraken_shape shape = {workers, 4, 2, 10};

    if (wubraken_pool_open(&pool, shape, store, WUBRAKEN_WORDS(4, 2), table, 2).kind == WUBRAKEN_OPEN)
        puts("open");
}

static const wubraken_arrival arrival = {5, 7, 1, 3}; /* time, path, order, distance */

/* What a host with a lock around the pool wants. */
static void in_one_go(void)
{
    puts("in one go:");
    open_for(1);
    print(wubraken_pool_put(&pool, 0, arrival, UINT64_MAX));
    print(wubraken_pool_take(&pool, 0, UINT64_MAX));
    print(wubraken_pool_take(&pool, 0, UINT64_MAX));
}

/* A put alone has 5 turns, a take of its arrival 7. */
static void up_to_a_limit(void)
{
    puts("up to a limit:");
    open_for(1);
    print(wubraken_pool_put(&pool, 0, arrival, 0));
    print(wubraken_pool_run(&pool, 0, 0));
    print(wubraken_pool_run(&pool, 0, 4));
    print(wubraken_pool_run(&pool, 0, 1));
    print(wubraken_pool_take(&pool, 0, 6));
    print(wubraken_pool_run(&pool, 0, 1));
}

/* A put of two turns at most, a whole one of another worker, and the rest. */
static void in_parts(void)
{
    puts("in parts:");
    open_for(2);
    print(wubraken_pool_put(&pool, 0, arrival, 2));
    printf("in progress: %d %d\n", wubraken_pool_in_progress(&pool, 0), wubraken_pool_in_progress(&pool, 1));
    print(wubraken_pool_take(&pool, 0, UINT64_MAX));
    print(wubraken_pool_put(&pool, 1, arrival, UINT64_MAX));
    print(wubraken_pool_run(&pool, 0, UINT64_MAX));
    printf("calls left: %" PRIu64 "\n", wubraken_pool_calls_left(&pool));
}

/* The host deals each turn by itself. */
static void finish(uint64_t worker)
{
    wubraken_answer answer;
    do {
        answer = wubraken_pool_step(&pool, worker);
        print(answer);
    } while (answer.kind == WUBRAKEN_ON);
}

static void turn_by_turn(void)
{
    open_for(1);
    print(wubraken_pool_enqueue(&pool, 0, arrival));
    finish(0);
    print(wubraken_pool_dequeue(&pool, 0));
    finish(0);
}

/* The last bucket, of times from 10 on, takes what comes far behind the others, too. */
static void tail(void)
{
    const uint32_t borders[3] = {9, 10, 19}, times[3] = {4294967295u, 5, 20};
    wubraken_arrival late = arrival;
    int nth;

    puts("the tail:");
    open_for(1);
    for (nth = 0; nth < 3; nth++)
        printf("bucket %" PRIu64 "\n", wubraken_bucket_of(pool.shape, borders[nth]));
    for (nth = 0; nth < 3; nth++) {
        late.time = times[nth];
        printf("bucket %" PRIu64 "\n", wubraken_bucket_of(pool.shape, late.time));
        print(wubraken_pool_put(&pool, 0, late, UINT64_MAX));
    }
    for (nth = 0; nth < 4; nth++)
        print(wubraken_pool_take(&pool, 0, UINT64_MAX));
}

/* By order, the direct sound first, and at equal orders by ticket. */
static void equal_times(void)
{
    const wubraken_arrival arrivals[4] = {{5, 9, 2, 3}, {5, 8, 1, 3}, {5, 7, 0, 3}, {5, 6, 1, 3}};
    int nth;

    puts("equal times:");
    open_for(1);
    for (nth = 0; nth < 4; nth++)
        print(wubraken_pool_put(&pool, 0, arrivals[nth], UINT64_MAX));
    for (nth = 0; nth < 5; nth++)
        print(wubraken_pool_take(&pool, 0, UINT64_MAX));
}

/* Then the pool has no shape, until it is opened again. */
static void refused_opening(void)
{
    const wubraken_shape none = {0, 4, 2, 10}, shape = {1, 4, 2, 10};

    puts("a refused opening:");
    print(wubraken_pool_open(&pool, none, store, WUBRAKEN_WORDS(4, 2), table, 2));
    printf("bucket %" PRIu64 " of %" PRIu64 "\n", wubraken_bucket_of(none, 5), none.buckets);
    print(wubraken_pool_take(&pool, 0, UINT64_MAX));
    if (wubraken_pool_reopen(&pool, shape).kind == WUBRAKEN_OPEN)
        print(wubraken_pool_take(&pool, 0, UINT64_MAX));
    print(wubraken_pool_reopen(&pool, none));
    print(wubraken_pool_take(&pool, 0, UINT64_MAX));
}

/* Memory that came from elsewhere is looked through once. */
static void from_elsewhere(void)
{
    puts("from elsewhere:");
    printf("audit: %" PRIu64 "\n", wubraken_pool_audit(&pool));
    store[WUBRAKEN_WORDS(4, 2) - 1] = UINT64_MAX;
    printf("audit: %" PRIu64 "\n", wubraken_pool_audit(&pool));
    table[0].stage = 14;
    print(wubraken_pool_step(&pool, 0));
    if (wubraken_pool_reopen(&pool, pool.shape).kind == WUBRAKEN_OPEN)
        printf("audit: %" PRIu64 "\n", wubraken_pool_audit(&pool));
}

int main(int arguments, char **argument)
{
    if (arguments > 1 && strcmp(argument[1], "turns") == 0) {
        turn_by_turn();
        return 0;
    }
    in_one_go();
    up_to_a_limit();
    in_parts();
    puts("turn by turn:");
    turn_by_turn();
    tail();
    equal_times();
    from_elsewhere();
    refused_opening();
    return 0;
}
