/* The worked example, call by call: an arrival is put in and taken out again.
 * Given a turn file, all of its records instead. Prints one line a record, and
 * on standard error what a refusal means. */
#include <inttypes.h>
#include <stdio.h>
#include <string.h>

#include "wubraken.h"

/* As `turns` lends. */
enum { WORDS = WUBRAKEN_WORDS(512, WUBRAKEN_MAX_BUCKETS), RECORDS = WUBRAKEN_MAX_WORKERS };

static uint64_t store[WORDS];
static wubraken_worker table[RECORDS];

static void print_refusal(uint64_t number)
{
    printf("no %" PRIu64 "\n", number);
    fprintf(stderr, "refused: %s\n", wubraken_refusal_text(number));
}

static void print(wubraken_answer answer)
{
    switch (answer.kind) {
    case WUBRAKEN_OPEN:
        puts("open");
        break;
    case WUBRAKEN_BEGUN:
        printf("begun %" PRIu64 "\n", answer.ticket);
        break;
    case WUBRAKEN_ON:
        puts("on");
        break;
    case WUBRAKEN_STORED:
        printf("stored %" PRIu64 "\n", answer.ticket);
        break;
    case WUBRAKEN_TOOK:
        printf("took %" PRIu64 " %" PRIu64 " %" PRIu64 " %" PRIu64 "\n",
               answer.time, answer.path, answer.order, answer.energy);
        break;
    case WUBRAKEN_EMPTY:
        puts("empty");
        break;
    default:
        print_refusal(answer.number);
    }
}

/* Steps a worker to the end of its call. */
static void finish(wubraken_shape shape, uint64_t worker)
{
    wubraken_answer answer;
    do {
        answer = wubraken_step(shape, worker, store, WORDS, table, RECORDS);
        print(answer);
    } while (answer.kind == WUBRAKEN_ON);
}

static void call_by_call(void)
{
    const wubraken_shape shape = {1, 4, 2, 10};
    const wubraken_arrival arrival = {5, 7, 1, 3};

    print(wubraken_open(shape, store, WORDS, table, RECORDS));
    print(wubraken_enqueue(shape, 0, arrival, store, WORDS, table, RECORDS));
    finish(shape, 0);
    print(wubraken_dequeue(shape, 0, store, WORDS, table, RECORDS));
    finish(shape, 0);
}

/* Batch by batch; what is left of a cut record waits for the rest. */
static void turn_file(FILE *file)
{
    static uint8_t input[4096], out[4096];
    wubraken_shape shape = {0, 0, 0, 0};
    size_t have = 0, more = 1;

    for (;;) {
        wubraken_batch_end end = wubraken_run_batch(shape, input, have, out, sizeof out,
                                                    store, WORDS, table, RECORDS);
        fwrite(out, 1, end.written, stdout);
        shape = end.shape;
        have -= end.read;
        memmove(input, input + end.read, have);
        if (end.stop == WUBRAKEN_FULL)
            continue;
        if (end.stop == WUBRAKEN_UNKNOWN_MARK || more == 0) {
            if (end.stop != WUBRAKEN_DRAINED)
                print_refusal(end.stop);
            return;
        }
        more = fread(input + have, 1, sizeof input - have, file);
        have += more;
    }
}

int main(int arguments, char **argument)
{
    FILE *file;

    if (arguments < 2) {
        call_by_call();
        return 0;
    }
    file = fopen(argument[1], "rb");
    if (file == NULL) {
        perror(argument[1]);
        return 1;
    }
    turn_file(file);
    fclose(file);
    return 0;
}
