/*
 * Tries a rule on a line: turns the rule's text into a table, reads the line by it and shows the tokens.
 *
 *     cc rules.c $(pkg-config --cflags --libs trace) -o rules
 *     ./rules '([0-9][0-9]*)#001C' 29C
 *
 * Exit status: 0 if the line was read, 1 if the rule or the line was refused, 2 if the tool itself could not go on.
 */
#include <stdio.h>
#include <stdlib.h>
#include <string.h>

#include <trace.h>

/* Says a refusal in words, where there is one. */
static int is_refused(uint64_t answer)
{
    if (trace_is_refused(answer))
        printf("refused %u: %s\n", (unsigned)trace_refusal(answer), trace_refusal_text(trace_refusal(answer)));
    return trace_is_refused(answer);
}

int main(int count, char **arguments)
{
    if (count != 3) {
        fputs("usage: rules RULE LINE\n", stderr);
        return 2;
    }
    const char *text = arguments[1], *line = arguments[2];
    size_t length = strlen(line);

    /* The table. TRACE_MAX_TABLE bytes are enough for every text; how many of them are used the answer says, in records. */
    uint8_t table[TRACE_MAX_TABLE];
    uint64_t answer = trace_compile((const uint8_t *)text, strlen(text), table, sizeof table);
    if (is_refused(answer))
        return 1;
    size_t records = (size_t)answer, table_len = TRACE_TABLE_RECORD * records;
    size_t start = records - 1; /* the whole text is the last record */
    printf("records: %zu\n", records);

    /* Room for the line, or for the longest that can be read. A longer one is refused, whatever the room. */
    size_t bytes = length < TRACE_MAX_LINE ? length : TRACE_MAX_LINE;
    size_t work_len = trace_work_size(records, bytes), reading_len = trace_reading_size(records, bytes);
    uint8_t *work = malloc(work_len), *reading = malloc(reading_len), tokens[TRACE_TOKEN * TRACE_MAX_LINE];
    if (work == NULL || reading == NULL) {
        perror("rules");
        return 2;
    }

    /* The reading, and its tokens: three bytes each, the name, the offset in the line and the length. */
    answer = trace_read(table, table_len, start, (const uint8_t *)line, length, work, work_len, reading, reading_len);
    if (!trace_is_refused(answer))
        answer = trace_tokens(table, table_len, start, reading, TRACE_READING_RECORD * (size_t)answer, tokens, sizeof tokens);
    free(work);
    free(reading);
    if (is_refused(answer))
        return 1;
    for (const uint8_t *token = tokens; token < tokens + TRACE_TOKEN * answer; token += TRACE_TOKEN)
        printf("%d: %.*s\n", token[0], token[2], line + token[1]);
    return 0;
}
