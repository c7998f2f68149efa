/* A dealer of turns: it goes round among the workers, one turn at a time or until a call
 * has ended, and passes over those that are idle. Prints who was served, in how many
 * turns, and the last answer. Needs libdealer.a beside libwubraken.a. */
#include <inttypes.h>
#include <stdio.h>

#include "answers.h"
#include "wubraken.h"

enum { WORKERS = 3, NODES = 4, BUCKETS = 2 };

static uint64_t store[WUBRAKEN_WORDS(NODES, BUCKETS)];
static wubraken_worker table[WORKERS];
static wubraken_pool pool;
static uint64_t dealer;

/* An open pool and a new dealer. */
static void open_all(void)
{
    const wubraken_shape shape = {WORKERS, NODES, BUCKETS, 10};

    wubraken_pool_open(&pool, shape, store, WUBRAKEN_WORDS(NODES, BUCKETS), table, WORKERS);
    dealer = wubraken_new_dealer(shape);
    printf("the dealer remembers worker %" PRIu64 "\n", dealer);
}

static void put(uint64_t worker, uint32_t time)
{
    const wubraken_arrival arrival = {time, 7, 1, 3};

    print(wubraken_pool_enqueue(&pool, worker, arrival));
}

static void take(uint64_t worker)
{
    print(wubraken_pool_dequeue(&pool, worker));
}

static void print_dealt(wubraken_dealt dealt)
{
    printf("worker %" PRIu64 ", turns %" PRIu64 ": ", dealt.dealer, dealt.turns);
    print(dealt.answer);
}

static void deal(uint64_t turns)
{
    print_dealt(wubraken_pool_deal(&pool, &dealer, turns));
}

/* Worker 1 is idle at first; then it is served behind worker 0. */
static void going_round(void)
{
    int nth;

    puts("going round:");
    open_all();
    put(0, 5);
    put(2, 15);
    for (nth = 0; nth < 3; nth++)
        deal(1);
    take(1);
    for (nth = 0; nth < 3; nth++)
        deal(1);
}

/* Each run ends with a call, up to the last of the three. */
static void until_a_call_has_ended(void)
{
    int nth;

    puts("until a call has ended:");
    for (nth = 0; nth < 4; nth++)
        deal(UINT64_MAX);
    puts("no turns:");
    deal(0);
}

/* A put that needs an epoch finds none left. Its turns are refused, and those of the
 * take beside it are not. */
static void at_the_last_epoch(void)
{
    int nth;

    puts("at the last epoch:");
    open_all();
    store[0] = 4294967295u;
    put(0, 5);
    deal(4);
    take(1);
    for (nth = 0; nth < 8; nth++)
        deal(UINT64_MAX);
}

static void outside_the_shape(void)
{
    puts("a dealer that remembers no worker of the shape:");
    dealer = WORKERS;
    deal(UINT64_MAX);
}

/* Memory that came from elsewhere: all of it is looked at, or what is needed. A run has
 * a limit there, since lists may lead in a circle. */
static void from_elsewhere(void)
{
    const size_t words = WUBRAKEN_WORDS(NODES, BUCKETS);

    puts("from elsewhere:");
    open_all();
    take(1);
    print_dealt(wubraken_deal(pool.shape, dealer, store, words, table, WORKERS));
    store[words - 1] = UINT64_MAX;
    print_dealt(wubraken_deal(pool.shape, dealer, store, words, table, WORKERS));
    print_dealt(wubraken_narrow_deal(pool.shape, dealer, 1, store, words, table, WORKERS));
    store[words - 1] = 0;
    print_dealt(wubraken_deal_run(pool.shape, dealer, 100, store, words, table, WORKERS));
}

int main(void)
{
    going_round();
    until_a_call_has_ended();
    at_the_last_epoch();
    outside_the_shape();
    from_elsewhere();
    return 0;
}
