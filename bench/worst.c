/*
 * Tables of up to 255 records that take long to read by, on lines of 255 bytes.
 * worst: the tables, one on a line: number, records, bytes, name. The last is the slowest of 300 random ones, found by timing each.
 * worst TABLE MS: prints the microseconds of trace_read and, if the line is read, trace_tokens.
 */
#include <stdio.h>
#include <stdlib.h>
#include <string.h>

#include "measure.h"
#include "tables.h"
#include "trace.h"

static struct table made;
static uint8_t tokens[TRACE_TOKEN * TRACE_MAX_LINE], *work, *reading;
static size_t work_len, reading_len;
static uint64_t answer;

static void read_line(void *arg)
{
    (void)arg;
    answer = trace_read(made.records, 4 * made.count, made.count - 1, made.line, sizeof made.line, work, work_len, reading, reading_len);
    if (!trace_is_refused(answer))
        answer = trace_tokens(made.records, 4 * made.count, made.count - 1, reading, TRACE_READING_RECORD * (size_t)answer, tokens,
                              sizeof tokens);
}

struct candidate {
    int table;
    double time;
};

static int slower(const void *a, const void *b)
{
    double x = ((const struct candidate *)a)->time, y = ((const struct candidate *)b)->time;
    return x > y ? -1 : x < y;
}

/*
 * Times each of these tables by one read in each round and keeps the shortest, so that a pause of the process does not count. Then puts the
 * slowest first.
 */
static void rank(struct candidate *candidates, int count, int rounds)
{
    for (int round = 0; round < rounds; round++)
        for (int i = 0; i < count; i++) {
            table_get(candidates[i].table, &made);
            double from = seconds();
            read_line(NULL);
            double took = seconds() - from;
            if (round == 0 || took < candidates[i].time)
                candidates[i].time = took;
        }
    qsort(candidates, (size_t)count, sizeof *candidates, slower);
}

/* The slowest random table: all are timed, and fewer and fewer of the slowest again in more rounds. */
static int slowest(void)
{
    struct candidate candidates[RANDOM_TABLES];
    for (int i = 0; i < RANDOM_TABLES; i++)
        candidates[i].table = NAMED_TABLES + i;
    rank(candidates, RANDOM_TABLES, 3);
    rank(candidates, 60, 5);
    rank(candidates, 10, 20);
    return candidates[0].table;
}

int main(int argc, char **argv)
{
    work = malloc(work_len = trace_work_size(TRACE_MAX_RECORDS, sizeof made.line));
    reading = malloc(reading_len = trace_reading_size(TRACE_MAX_RECORDS, sizeof made.line));
    if (!work || !reading)
        return 2;
    memset(work, 1, work_len);
    if (argc < 2) {
        for (int n = 0; n < NAMED_TABLES && table_get(n, &made); n++)
            printf("%d %zu %zu %s\n", n, made.count, sizeof made.line, made.name);
        int n = slowest();
        table_get(n, &made);
        read_line(NULL);
        printf("%d %zu %zu random table %d, %s\n", n, made.count, sizeof made.line, n - NAMED_TABLES, trace_is_refused(answer) ? "refused" : "read");
        return 0;
    }
    if (argc != 3 || !table_get(atoi(argv[1]), &made))
        return 2;
    printf("%.4f\n", measure(read_line, NULL, atof(argv[2])));
    return trace_is_refused(answer) && trace_refusal(answer) != TRACE_REFUSED_NO_READING;
}
