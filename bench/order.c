/*
 * order: the token lists, one on a line: number, tokens, pairs.
 * order LIST MS: prints the microseconds of trace_order on that list.
 * order LIST MS pass: prints the microseconds of one pass over the list that only adds up the names.
 */
#include <stdio.h>
#include <stdlib.h>
#include <string.h>

#include "measure.h"
#include "trace.h"

enum { TOKENS = 1000000, NAMES = 256 };

/* The lists differ by their pairs: none, one, and as many as there may be. */
static const size_t pair_counts[] = {0, 1, TRACE_MAX_PAIRS};
#define LISTS (int)(sizeof pair_counts / sizeof *pair_counts)

static uint8_t tokens[TRACE_TOKEN * TOKENS];
static trace_pair pairs[TRACE_MAX_PAIRS];
static size_t pairs_len;
static uint64_t answer;

/* All names once, upward, and then any of them (xorshift). The pairs go from the lowest and the highest name inward, so that all are kept. */
static void fill(void)
{
    uint64_t state = 1;
    for (size_t i = 0; i < TOKENS; i++) {
        state ^= state << 13;
        state ^= state >> 7;
        state ^= state << 17;
        tokens[TRACE_TOKEN * i] = (uint8_t)(i < NAMES ? i : state % NAMES);
        tokens[TRACE_TOKEN * i + 1] = (uint8_t)i;
        tokens[TRACE_TOKEN * i + 2] = 1;
    }
    for (size_t i = 0; i < TRACE_MAX_PAIRS; i++)
        pairs[i].first = (uint8_t)i, pairs[i].second = (uint8_t)(NAMES - 1 - i);
}

static void order(void *arg)
{
    (void)arg;
    answer = trace_order(tokens, sizeof tokens, pairs, pairs_len);
}

static void pass(void *arg)
{
    (void)arg;
    answer = 0;
    for (size_t i = 0; i < TOKENS; i++)
        answer += tokens[TRACE_TOKEN * i];
}

int main(int argc, char **argv)
{
    if (argc < 2) {
        for (int n = 0; n < LISTS; n++)
            printf("%d %d %zu\n", n, TOKENS, pair_counts[n]);
        return 0;
    }
    int n = atoi(argv[1]), passes = argc == 4 && strcmp(argv[3], "pass") == 0;
    if (n < 0 || n >= LISTS || (argc != 3 && !passes))
        return 2;
    fill();
    pairs_len = pair_counts[n];
    printf("%.4f\n", measure(passes ? pass : order, NULL, atof(argv[2])));
    return passes || answer == TOKENS ? 0 : 1;
}
