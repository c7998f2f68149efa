/* An echogram: a row is cleared, and recorded to one by one, in a series, and as a
 * pool is drained. Prints what is answered, and the slots. Only the last part needs
 * a pool, and libwubraken.a beside libechogram.a. */
#include <inttypes.h>
#include <stdio.h>

#include "wubraken.h"

enum { SLOTS = 4, SLOT_LENGTH = 480 }; /* ten milliseconds each */

static uint32_t row[SLOTS] = {7, 7, 7, 7};

static void print_answer(uint64_t number)
{
    if (number == 0)
        puts("done");
    else
        printf("no %" PRIu64 ": %s\n", number, wubraken_refusal_text(number));
}

static void print_row(void)
{
    int slot;

    for (slot = 0; slot < SLOTS; slot++)
        printf("%d ms: %" PRIu32 "\n", 10 * slot, row[slot]);
}

static void record(uint32_t time, uint32_t energy)
{
    print_answer(wubraken_record(SLOT_LENGTH, time, energy, row, SLOTS));
}

/* What lies past the row, and what is too much, leaves it as it is. */
static void one_by_one(void)
{
    puts("one by one:");
    print_answer(wubraken_clear_row(SLOT_LENGTH, row, SLOTS));
    record(5, 1864135);
    record(479, 1);
    record(480, 2);
    record(1919, 3);
    record(1920, 4);
    record(0, UINT32_MAX);
    print_row();
}

/* Each recording has its answer; the last one takes what is left of 2^32 - 1. */
static void series(void)
{
    const uint32_t times[5] = {960, 1920, 1919, 1439, 0};
    const uint32_t energies[5] = {10, 20, 30, UINT32_MAX, 4293103114u};
    uint8_t answers[5];
    int nth;

    puts("a series:");
    print_answer(wubraken_record_series(SLOT_LENGTH, times, 5, energies, 5, answers, 5, row, SLOTS));
    for (nth = 0; nth < 5; nth++)
        printf("%d\n", answers[nth]);
    print_row();
    puts("a series of several lengths:");
    print_answer(wubraken_record_series(SLOT_LENGTH, times, 5, energies, 4, answers, 5, row, SLOTS));
}

/* Two arrivals are put, taken and recorded: 2^24 / 3^2 and 2^24 / 10^2, rounded
 * down. What no pool has answered, a time of 33 bits, lies past every row. */
static void from_a_pool(void)
{
    static uint64_t store[WUBRAKEN_WORDS(2, 4)];
    static wubraken_worker table[1];
    const wubraken_shape shape = {1, 2, 4, 480};
    const wubraken_arrival late = {1439, 7, 1, 10}, early = {5, 7, 0, 3};
    wubraken_pool pool;
    wubraken_answer taken;

    puts("from a pool:");
    print_answer(wubraken_clear_row(SLOT_LENGTH, row, SLOTS));
    wubraken_pool_open(&pool, shape, store, WUBRAKEN_WORDS(2, 4), table, 1);
    wubraken_pool_put(&pool, 0, late, UINT64_MAX);
    wubraken_pool_put(&pool, 0, early, UINT64_MAX);
    taken = wubraken_pool_take(&pool, 0, UINT64_MAX);
    while (taken.kind == WUBRAKEN_TOOK) {
        print_answer(wubraken_record_taken(SLOT_LENGTH, taken, row, SLOTS));
        taken = wubraken_pool_take(&pool, 0, UINT64_MAX);
    }
    taken.time = (uint64_t)1 << 32;
    print_answer(wubraken_record_taken(SLOT_LENGTH, taken, row, SLOTS));
    print_row();
}

int main(void)
{
    puts("a slot length outside its limits:");
    print_answer(wubraken_clear_row(WUBRAKEN_MAX_SLOT_LENGTH + 1, row, SLOTS));
    print_row();
    one_by_one();
    series();
    from_a_pool();
    return 0;
}
