/*
 * page: the laps, one on a line: number, bytes of a line, records of the line rules, name.
 * page LAP MS CALL: prints the microseconds of a call on that lap, 255 lines of a work load. CALL is Page, or Lines: Read of each line, and Tokens of
 * what it wrote, into the same buffers.
 */
#include <stdio.h>
#include <stdlib.h>
#include <string.h>

#include "loads.h"
#include "measure.h"
#include "trace.h"

/* A lap is the line of a work load over and over, or by turns with another of its length that has one token less, so that no neighbours are alike. */
static const struct {
    int load;
    const char *name, *other;
} laps[] = {
    {0, "ordinary short, all alike", NULL},
    {0, "ordinary short, none alike", "12:34:56 tmp=-21.5"},
    {1, "ordinary middle, all alike", NULL},
    {1, "ordinary middle, none alike", "12:34:56 boiler1=71.5 outside=-12.3 10.0.12.7:502 pump 12 restarted by hand, ok."},
};
#define LAPS (int)(sizeof laps / sizeof *laps)

/* The class of each line is 1, the name of its time. */
static const uint8_t classes[] = {TRACE_RANGE, 1, 1, 0, TRACE_STAR, 0, 0, 0};

static struct load load;
static uint8_t *lap, *work, *reading, *first, *second, out[TRACE_READING_RECORD * (1 + TRACE_MAX_LINES)];
static size_t lap_len, work_len, reading_len, tokens_len;
static uint64_t answer;

static void read_page(void *arg)
{
    (void)arg;
    answer = trace_page(load.table, 4 * load.records, load.records - 1, classes, sizeof classes, 1, lap, lap_len, work, work_len, reading,
                        reading_len, first, tokens_len, second, tokens_len, out, sizeof out);
}

static void read_lines(void *arg)
{
    (void)arg;
    answer = 0;
    for (size_t i = 0; i < TRACE_MAX_LINES && !trace_is_refused(answer); i++) {
        answer = trace_read(load.table, 4 * load.records, load.records - 1, lap + i * (load.line_len + 1), load.line_len, work, work_len, reading,
                            reading_len);
        if (!trace_is_refused(answer))
            answer = trace_tokens(load.table, 4 * load.records, load.records - 1, reading, TRACE_READING_RECORD * (size_t)answer,
                                  i % 2 ? second : first, tokens_len);
    }
}

/* The lap's text and the buffers. Returns 0 if there is no such lap. */
static int make_lap(int n)
{
    if (n < 0 || n >= LAPS || !load_get(laps[n].load, &load))
        return 0;
    const char *other = laps[n].other ? laps[n].other : load.line;
    size_t line_work = trace_work_size(load.records, load.line_len), page_work = trace_work_size(2, TRACE_MAX_LINES);
    lap = malloc(lap_len = TRACE_MAX_LINES * (load.line_len + 1));
    work = malloc(work_len = line_work > page_work ? line_work : page_work);
    reading = malloc(reading_len = trace_reading_size(load.records, load.line_len));
    first = malloc(tokens_len = trace_tokens_size(load.line_len));
    second = malloc(tokens_len);
    if (!lap || !work || !reading || !first || !second || strlen(other) != load.line_len)
        return 0;
    for (size_t i = 0; i < TRACE_MAX_LINES; i++) {
        uint8_t *line = lap + i * (load.line_len + 1);
        memcpy(line, i % 2 ? other : load.line, load.line_len);
        line[load.line_len] = '\n';
    }
    return 1;
}

int main(int argc, char **argv)
{
    if (argc == 1) {
        for (int n = 0; n < LAPS && load_get(laps[n].load, &load); n++)
            printf("%d %zu %zu %s\n", n, load.line_len, load.records, laps[n].name);
        return 0;
    }
    if (argc != 4 || !make_lap(atoi(argv[1])))
        return 2;
    int page = strcmp(argv[3], "Page") == 0;
    if (!page && strcmp(argv[3], "Lines") != 0)
        return 2;
    printf("%.4f\n", measure(page ? read_page : read_lines, NULL, atof(argv[2])));
    return page ? answer != (laps[atoi(argv[1])].other ? 1 + TRACE_MAX_LINES : 2) : trace_is_refused(answer);
}
