/* Prints answers, for the examples. */
#ifndef WUBRAKEN_ANSWERS_H
#define WUBRAKEN_ANSWERS_H

#include <inttypes.h>
#include <stdio.h>

#include "wubraken.h"

static void print(wubraken_answer answer)
{
    switch (answer.kind) {
    case WUBRAKEN_BEGUN:
        printf("begun %" PRIu64 "\n", answer.ticket);
        break;
    case WUBRAKEN_ON:
        puts("on");
        break;
    case WUBRAKEN_STORED:
        printf("stored %" PRIu64 "\n", answer.ticket);
        break;
    case WUBRAKEN_TOOK:
        printf("took %" PRIu64 " %" PRIu64 " %" PRIu64 " %" PRIu64 "\n",
               answer.time, answer.path, answer.order, answer.energy);
        break;
    case WUBRAKEN_EMPTY:
        puts("empty");
        break;
    default:
        printf("no %" PRIu64 ": %s\n", answer.number, wubraken_refusal_text(answer.number));
    }
}

#endif
