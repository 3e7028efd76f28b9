/*
 * live load:N MS CALL: prints the microseconds of a call on work load N.
 * live half:N MS CALL: the same where only half of the line is typed; Read is still of the whole line.
 * live table:N:BYTES MS CALL: the same by table N of those that take long, on the last bytes of its line.
 * CALL is Read, of the line, or Key: Add of the last byte to a live line that has the others, and Take back of it, the two together.
 */
#include <stdio.h>
#include <stdlib.h>
#include <string.h>

#include "loads.h"
#include "measure.h"
#include "tables.h"
#include "trace.h"

static const uint8_t *records, *line;
static size_t count, line_len, typed, work_len, reading_len;
static uint8_t *work, *reading;
static trace_live live;
static uint64_t answer;

static void read_line(void *arg)
{
    (void)arg;
    answer = trace_read(records, 4 * count, count - 1, line, line_len, work, work_len, reading, reading_len);
}

static void press_key(void *arg)
{
    (void)arg;
    answer = trace_live_add(&live, line[typed - 1], work, work_len);
    if (!trace_is_refused(answer))
        answer = trace_live_take_back(&live, work, work_len);
}

/* The table and the line with this name. */
static int find(const char *name)
{
    static struct load load;
    static struct table table;
    int number;
    if (sscanf(name, "table:%d:%zu", &number, &line_len) == 2 && table_get(number, &table) && line_len > 0 && line_len <= sizeof table.line) {
        records = table.records, count = table.count, line = table.line + sizeof table.line - line_len;
        typed = line_len;
        return 1;
    }
    int half = sscanf(name, "half:%d", &number) == 1;
    if ((!half && sscanf(name, "load:%d", &number) != 1) || !load_get(number, &load))
        return 0;
    records = load.table, count = load.records, line = (const uint8_t *)load.line, line_len = load.line_len;
    typed = half ? line_len / 2 : line_len;
    return typed > 0;
}

/* A live line with all bytes but the last of those that are to be typed. */
static int type_line(void)
{
    answer = trace_live_new(&live, records, 4 * count, count - 1);
    for (size_t i = 0; i + 1 < typed && !trace_is_refused(answer); i++)
        answer = trace_live_add(&live, line[i], work, work_len);
    return !trace_is_refused(answer);
}

int main(int argc, char **argv)
{
    if (argc != 4 || !find(argv[1]))
        return 2;
    int key = strcmp(argv[3], "Key") == 0;
    work = malloc(work_len = trace_work_size(count, line_len));
    reading = malloc(reading_len = trace_reading_size(count, line_len));
    if (!work || !reading || !type_line() || (!key && strcmp(argv[3], "Read") != 0))
        return 2;
    memset(work, 1, work_len);
    printf("%.4f\n", measure(key ? press_key : read_line, NULL, atof(argv[2])));
    return trace_is_refused(answer) && (key || trace_refusal(answer) != TRACE_REFUSED_NO_READING);
}
