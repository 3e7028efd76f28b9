/*
 * ours LOAD MS: prints the microseconds of trace_read and trace_tokens, and the last token span of each tag.
 * ours LOAD MS CALL: prints the microseconds of that call alone: Check, Read, Spell, Compare (the reading with itself), Tokens or Order (64 times
 * the pair of the first token's name and the last one's).
 */
#include <stdio.h>
#include <stdlib.h>
#include <string.h>

#include "loads.h"
#include "measure.h"
#include "trace.h"

static struct load load;
static uint8_t *work, *reading, *tokens, spelled[TRACE_MAX_LINE];
static size_t work_len, reading_len, tokens_len;
static uint64_t answer;

/* The whole job: the number of tokens, or the refusal. */
static void read_line(void *arg)
{
    (void)arg;
    uint64_t start = load.records - 1;
    answer = trace_read(load.table, 4 * load.records, start, (const uint8_t *)load.line, load.line_len, work, work_len, reading,
                        reading_len);
    if (!trace_is_refused(answer))
        answer = trace_tokens(load.table, 4 * load.records, start, reading, TRACE_READING_RECORD * (size_t)answer, tokens, tokens_len);
}

/* Each call by itself, on the reading of the line, or on its tokens. */
static size_t read_records, token_count;
static trace_pair pairs[TRACE_MAX_PAIRS];
#define TABLE load.table, 4 * load.records
#define READING reading, TRACE_READING_RECORD * read_records

static void only_check(void *arg)
{
    (void)arg;
    answer = trace_check(TABLE);
}

static void only_read(void *arg)
{
    (void)arg;
    answer = trace_read(TABLE, load.records - 1, (const uint8_t *)load.line, load.line_len, work, work_len, reading, reading_len);
}

static void only_spell(void *arg)
{
    (void)arg;
    answer = trace_spell(TABLE, load.records - 1, READING, spelled, sizeof spelled);
}

static void only_compare(void *arg)
{
    (void)arg;
    answer = trace_compare(TABLE, load.records - 1, READING, READING);
}

static void only_tokens(void *arg)
{
    (void)arg;
    answer = trace_tokens(TABLE, load.records - 1, READING, tokens, tokens_len);
}

static void only_order(void *arg)
{
    (void)arg;
    answer = trace_order(tokens, TRACE_TOKEN * token_count, pairs, TRACE_MAX_PAIRS);
}

static const struct {
    const char *name;
    void (*call)(void *);
} calls[] = {{"Check", only_check},     {"Read", only_read},     {"Spell", only_spell},
             {"Compare", only_compare}, {"Tokens", only_tokens}, {"Order", only_order}};

/* Times the call with this name. Only Check may be asked of a line that is refused. */
static int time_call(const char *name, double ms)
{
    only_read(NULL);
    read_records = trace_is_refused(answer) ? 0 : (size_t)answer;
    only_tokens(NULL);
    token_count = trace_is_refused(answer) ? 0 : (size_t)answer;
    for (size_t i = 0; i < TRACE_MAX_PAIRS && token_count > 0; i++)
        pairs[i].first = tokens[0], pairs[i].second = tokens[TRACE_TOKEN * (token_count - 1)];
    for (size_t i = 0; i < sizeof calls / sizeof *calls; i++)
        if (strcmp(name, calls[i].name) == 0) {
            printf("%.4f\n", measure(calls[i].call, NULL, ms));
            return trace_is_refused(answer) || (calls[i].call == only_compare && answer != 0)
                   || (calls[i].call == only_order && answer != token_count);
        }
    return 2;
}

/* No later token has the same tag. */
static int is_last(size_t i)
{
    for (size_t j = i + 1; j < answer; j++)
        if (tokens[3 * j] == tokens[3 * i])
            return 0;
    return 1;
}

int main(int argc, char **argv)
{
    if (argc < 3 || argc > 4 || !load_get(atoi(argv[1]), &load))
        return 2;
    double ms = atof(argv[2]);
    work = malloc(work_len = trace_work_size(load.records, load.line_len));
    reading = malloc(reading_len = trace_reading_size(load.records, load.line_len));
    tokens = malloc(tokens_len = trace_tokens_size(load.line_len));
    if (!work || !reading || !tokens)
        return 2;
    if (trace_check(load.table, 4 * load.records) != load.records) {
        fprintf(stderr, "the table of load %s is refused\n", argv[1]);
        return 1;
    }
    if (argc == 4)
        return time_call(argv[3], ms);
    printf("%.4f\n", measure(read_line, NULL, ms));
    if (trace_is_refused(answer) != load.refused || (load.refused && trace_refusal(answer) != TRACE_REFUSED_NO_READING)) {
        fprintf(stderr, "load %s: refusal %u\n", argv[1], trace_refusal(answer));
        return 1;
    }
    if (load.refused)
        printf("no match");
    else
        for (size_t i = 0; i < answer; i++)
            if (is_last(i))
                printf("%d:%d+%d ", tokens[3 * i], tokens[3 * i + 1], tokens[3 * i + 2]);
    printf("\n");
    return 0;
}
