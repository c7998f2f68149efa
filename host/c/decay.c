/* The decay of rows: early decay, T20 and levels. Prints what is measured, a dash
 * where a slot has no level. The rows are constants, as they are only read. Needs
 * libdecay.a alone. */
#include <inttypes.h>
#include <stdio.h>

#include "wubraken.h"

enum { SLOTS = 12, MILLISECONDS = 10 }; /* slots of 480 samples */

/* R(k) is 2^(12 - k) - 1. */
static const uint32_t halves[SLOTS] = {2048, 1024, 512, 256, 128, 64, 32, 16, 8, 4, 2, 1};
/* 10 * R(1) is R(0), and above it. */
static const uint32_t equal[2] = {9, 1}, above[2] = {8, 1};
static const uint32_t too_large[2] = {UINT32_MAX, 1};
static const uint32_t silent[WUBRAKEN_MAX_SLOTS + 1] = {0};

static void print_refusal(uint64_t number)
{
    printf("no %" PRIu64 ": %s\n", number, wubraken_refusal_text(number));
}

static void print_slots(const char *name, wubraken_measured slots)
{
    if (slots.number != 0)
        print_refusal(slots.number);
    else
        printf("%s: %" PRIu64 " slots, %" PRIu64 " ms\n", name, slots.value, slots.value * MILLISECONDS);
}

static void print_level(uint64_t level)
{
    if (level == WUBRAKEN_NO_LEVEL)
        puts("-");
    else
        printf("%" PRIu64 ".%" PRIu64 " dB below\n", level / 10, level % 10);
}

static void measure(const uint32_t *row, size_t slots)
{
    print_slots("early decay", wubraken_early_decay(row, slots));
    print_slots("T20", wubraken_t20(row, slots));
}

/* A slot has any number; past the end there is no level. */
static void one_by_one(void)
{
    const uint64_t numbers[4] = {0, 1, 2, UINT64_MAX};
    int nth;

    puts("one by one:");
    for (nth = 0; nth < 4; nth++) {
        wubraken_measured level = wubraken_level(numbers[nth], equal, 2);
        if (level.number != 0)
            print_refusal(level.number);
        else
            print_level(level.value);
    }
}

/* Into more places than there are slots: the last keeps its 77. */
static void curve(void)
{
    uint16_t levels[SLOTS + 1];
    int slot;

    for (slot = 0; slot < SLOTS + 1; slot++)
        levels[slot] = 77;
    puts("a curve:");
    print_refusal(wubraken_decay_curve(halves, SLOTS, levels, SLOTS - 1));
    print_level(levels[0]);
    if (wubraken_decay_curve(halves, SLOTS, levels, SLOTS + 1) != 0)
        puts("refused");
    for (slot = 0; slot < SLOTS + 1; slot++) {
        printf("%d ms: ", MILLISECONDS * slot);
        print_level(levels[slot]);
    }
}

static void refusals(void)
{
    uint16_t levels[1] = {77};

    puts("refused:");
    measure(equal, 0);
    measure(silent, WUBRAKEN_MAX_SLOTS + 1);
    measure(too_large, 2);
    measure(silent, WUBRAKEN_MAX_SLOTS);
    print_refusal(wubraken_level(0, silent, 1).number);
    print_refusal(wubraken_decay_curve(equal, 0, levels, 0));
    print_refusal(wubraken_decay_curve(too_large, 2, levels, 1));
    print_refusal(wubraken_decay_curve(silent, 2, levels, 1));
    print_level(levels[0]);
}

int main(void)
{
    puts("halves:");
    measure(halves, SLOTS);
    puts("a tenth:");
    measure(equal, 2);
    puts("more than a tenth:");
    measure(above, 2);
    one_by_one();
    curve();
    refusals();
    return 0;
}
