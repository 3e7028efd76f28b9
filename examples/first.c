#include <stdio.h>
#include <trace.h>

int main(void)
{
    static const uint8_t table[] = {
        TRACE_RANGE, '0', '9', 0, /* 0: a digit */
        TRACE_STAR, 0, 0, 1,      /* 1: digits, token 1 */
        TRACE_RANGE, 'C', 'C', 0, /* 2: the letter C */
        TRACE_SEQ, 1, 2, 0,       /* 3: digits, then C */
    };
    const char *line = "29C";
    uint8_t work[40], reading[48], tokens[9]; /* by trace_work_size(4, 3) and its like */
    uint64_t answer = trace_read(table, sizeof table, 3, (const uint8_t *)line, 3,
                                 work, sizeof work, reading, sizeof reading);
    if (!trace_is_refused(answer))
        answer = trace_tokens(table, sizeof table, 3, reading, TRACE_READING_RECORD * answer,
                              tokens, sizeof tokens);
    if (trace_is_refused(answer))
        return puts(trace_refusal_text(trace_refusal(answer))), 1;
    for (const uint8_t *token = tokens; token < tokens + TRACE_TOKEN * answer; token += TRACE_TOKEN)
        printf("token %d: %.*s\n", token[0], token[2], line + token[1]);
    return 0;
}
