/*
 * An example commissioning tool: reads a trace from standard input line by line and shows each line's tokens by name. Of a line that has a brake
 * temperature with no lift temperature ahead of it, it shows that temperature instead.
 *
 *     cc commission.c $(pkg-config --cflags --libs trace) -o commission
 *     ./commission <trace.txt
 *
 * It makes every call but those on live lines, pages and alternatives. Exit status: 0 if every line was shown, 1 if one was not, 2 if the tool itself could not go on.
 */
#define _POSIX_C_SOURCE 200809L /* getline */
#include <stdio.h>
#include <stdlib.h>
#include <string.h>

#include <trace.h>

/* The tokens of a line such as "12:04 lift 29 brake 104 launch 7". */
enum { TIME = 1, LIFT, BRAKE, SENSOR, TEMPERATURE };
static const char *const names[] = {
    [TIME] = "time", [LIFT] = "lift temperature", [BRAKE] = "brake temperature", [SENSOR] = "sensor", [TEMPERATURE] = "temperature",
};

/* The rule: the time, and behind it any number of temperatures, each behind its sensor. #001 names the token 1, and so on. */
static const char rule[] = "([0-9][0-9]:[0-9][0-9])#001"
                           "( lift ([0-9][0-9]*)#002| brake ([0-9][0-9]*)#003| [a-z]*#004 ([0-9][0-9]*)#005)*";

/* A brake temperature needs a lift temperature ahead of it. */
static const trace_pair lift_before_brake = {LIFT, BRAKE};

/* The rule's table; its last record is the start record. */
static uint8_t table[TRACE_MAX_TABLE];
static size_t records, table_len, start;

/* Room for every line that can be read, and the reading of the line before, 0 bytes long before the first. */
typedef struct { uint8_t *bytes; size_t room, length; } Buffer;
typedef struct { Buffer work, reading, tokens, before; } Buffers;

static Buffer buffer_of(size_t room)
{
    Buffer buffer = {malloc(room), room, 0};
    if (buffer.bytes == NULL) {
        perror("commission");
        exit(2);
    }
    return buffer;
}

/* Says a refusal in words, where there is one. The details of 2 to 6 and 11 belong to the message. */
static int is_refused(uint64_t answer)
{
    uint32_t refusal = trace_refusal(answer);
    if (!trace_is_refused(answer))
        return 0;
    printf("refused %u: %s", (unsigned)refusal, trace_refusal_text(refusal));
    if (refusal >= TRACE_REFUSED_KIND && refusal <= TRACE_REFUSED_NAMED)
        printf(" (record %u)", (unsigned)trace_detail(answer));
    if (refusal == TRACE_REFUSED_BUFFER)
        printf(" (it needs %u bytes)", (unsigned)trace_detail(answer));
    printf("\n");
    return 1;
}

/* Makes the rule's table. The check is for a table from elsewhere, as a file: one that trace_compile wrote passes it. */
static int make_table(void)
{
    uint64_t answer = trace_compile((const uint8_t *)rule, sizeof rule - 1, table, sizeof table);
    if (is_refused(answer))
        return 0;
    records = (size_t)answer, table_len = TRACE_TABLE_RECORD * records, start = records - 1;
    return !is_refused(trace_check(table, table_len));
}

/* What was read is the line that was sent, byte for byte. */
static int spells(Buffer reading, const uint8_t *line, size_t length)
{
    uint8_t back[TRACE_MAX_LINE];
    uint64_t answer = trace_spell(table, table_len, start, reading.bytes, reading.length, back, sizeof back);
    return answer == length && memcmp(back, line, length) == 0;
}

/* The line was sent twice: the two readings are the same. Readings of different lines are refused. */
static int repeats(const Buffers *buffers)
{
    Buffer reading = buffers->reading, before = buffers->before;
    return trace_compare(table, table_len, start, reading.bytes, reading.length, before.bytes, before.length) == 0;
}

static void show_token(const uint8_t *line, const uint8_t *token)
{
    printf("%s '%.*s'", names[token[0]], (int)token[2], (const char *)line + token[1]);
}

/* Every brake temperature has a lift temperature ahead of it; if not, the first that has none is shown. */
static int in_order(const uint8_t *line, const uint8_t *tokens, size_t count)
{
    uint64_t answer = trace_order(tokens, TRACE_TOKEN * count, &lift_before_brake, 1);
    if (answer == count)
        return 1;
    if (!is_refused(answer)) {
        show_token(line, tokens + TRACE_TOKEN * answer);
        printf(" (token %u) has no %s ahead of it\n", (unsigned)answer, names[lift_before_brake.first]);
    }
    return 0;
}

static void show_tokens(const uint8_t *line, const uint8_t *tokens, size_t count)
{
    printf("%zu tokens\n", count);
    for (const uint8_t *token = tokens; token < tokens + TRACE_TOKEN * count; token += TRACE_TOKEN) {
        printf("  ");
        show_token(line, token);
        printf("\n");
    }
}

/* Reads a line and shows its tokens, or what is wrong with it; says whether the tokens were shown. */
static int show_line(Buffers *buffers, const uint8_t *line, size_t length)
{
    Buffer *reading = &buffers->reading, tokens = buffers->tokens, work = buffers->work;
    uint64_t answer = trace_read(table, table_len, start, line, length, work.bytes, work.room, reading->bytes, reading->room);
    if (is_refused(answer))
        return 0;
    reading->length = TRACE_READING_RECORD * (size_t)answer;
    if (!spells(*reading, line, length)) {
        printf("the reading does not spell the line\n");
        return 0;
    }
    if (repeats(buffers)) {
        printf("the same line again\n");
        return 1;
    }
    answer = trace_tokens(table, table_len, start, reading->bytes, reading->length, tokens.bytes, tokens.room);
    if (is_refused(answer) || !in_order(line, tokens.bytes, (size_t)answer))
        return 0;
    show_tokens(line, tokens.bytes, (size_t)answer);
    Buffer older = buffers->before;
    buffers->before = *reading;
    *reading = older;
    return 1;
}

int main(void)
{
    if (!make_table())
        return 2;
    size_t readings = trace_reading_size(records, TRACE_MAX_LINE);
    Buffers buffers = {buffer_of(trace_work_size(records, TRACE_MAX_LINE)), buffer_of(readings),
                       buffer_of(trace_tokens_size(TRACE_MAX_LINE)), buffer_of(readings)};

    char *line = NULL;
    size_t room = 0;
    ssize_t got;
    int status = 0;
    for (unsigned long number = 1; (got = getline(&line, &room, stdin)) > 0; number++) {
        size_t length = line[got - 1] == '\n' ? (size_t)got - 1 : (size_t)got;
        printf("line %lu: ", number);
        if (!show_line(&buffers, (const uint8_t *)line, length))
            status = 1;
    }
    if (!feof(stdin)) {
        perror("commission: reading failed");
        status = 2;
    }
    if (fflush(stdout) != 0 || ferror(stdout)) {
        fputs("commission: writing failed\n", stderr);
        status = 2;
    }
    free(line);
    free(buffers.work.bytes);
    free(buffers.reading.bytes);
    free(buffers.tokens.bytes);
    free(buffers.before.bytes);
    return status;
}
