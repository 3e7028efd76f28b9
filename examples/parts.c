#include <stdio.h>
#include <trace.h>

/* Reads a line and shows its parts: for each the table record that reads it, its offset, its length and its text. */
int main(void)
{
    static const uint8_t table[] = {
        TRACE_RANGE, '0', '9', 0, /* 0: a digit */
        TRACE_STAR, 0, 0, 1,      /* 1: digits, token 1 */
        TRACE_RANGE, 'C', 'C', 0, /* 2: the letter C */
        TRACE_SEQ, 1, 2, 0,       /* 3: digits, then C */
    };
    const char *line = "29C";
    uint8_t work[40], reading[48]; /* by trace_work_size(4, 3) and trace_reading_size(4, 3) */
    uint64_t answer = trace_read(table, sizeof table, 3, (const uint8_t *)line, 3,
                                 work, sizeof work, reading, sizeof reading);
    if (trace_is_refused(answer))
        return puts(trace_refusal_text(trace_refusal(answer))), 1;
    int offset = 0; /* the Byte records before the part */
    for (const uint8_t *part = reading; part < reading + TRACE_READING_RECORD * answer; part += TRACE_READING_RECORD) {
        printf("record %d: offset %d, length %d: %.*s\n", part[3], offset, part[2], part[2], line + offset);
        if (part[0] == TRACE_READING_BYTE)
            offset++;
    }
    return 0;
}
