/*
 * Says of each bar of a rule whether its two sides may be exchanged. Shows the sides as notation, made from the rule's table, with their names.
 *
 *     cc sort.c $(pkg-config --cflags --libs trace) -o sort
 *     ./sort           the bars of the sample rule
 *     ./sort 'RULE'    those of another one
 *
 * Bars are shown from the left; x|y|z has two, since it is (x|y)|z. 'may be exchanged' is certain: no line is read by both sides, and with the two
 * exchanged the rule reads the same lines and gives the same tokens. 'not known' says nothing: the sides may share a line, or none.
 *
 * Exit status: 0 if the rule was taken, 1 if it was refused, 2 if the tool itself could not go on.
 */
#include <stdio.h>
#include <string.h>

#include <trace.h>

/* A place, a temperature of two or three digits, and a gust that may be absent. */
static const char sample_rule[] = "((lift)#001|(brake)#002|([a-z]*)#003) ([0-9][0-9]|[0-9][0-9][0-9])#004(g[0-9][0-9]*|())#005";

/* The rule's table; its last record is the start record. */
static uint8_t table[TRACE_MAX_TABLE];
static size_t records, bars;

static const uint8_t *record_at(size_t k) { return table + TRACE_TABLE_RECORD * k; }

/* A byte that stands for itself, or two bounds. */
static void show_range(uint8_t a, uint8_t b)
{
    if (a != b)
        printf("[%c-%c]", a, b);
    else
        printf("%s%c", a != 0 && strchr("|*()[]\\#", a) != NULL ? "\\" : "", a);
}

/*
 * Shows a record where only what binds so tightly can stand: side by side binds tighter than a bar, and an item tightest. What does not is put in
 * parentheses. A table that was made from a text has no Nothing and no Other, for which there is no notation.
 */
enum { BAR, ROW, ITEM };
static void show_record(size_t k, int place)
{
    uint8_t kind = record_at(k)[0], a = record_at(k)[1], b = record_at(k)[2], name = record_at(k)[3];
    int binds = kind == TRACE_OR ? BAR : kind == TRACE_SEQ ? ROW : ITEM, grouped = binds < (name ? ITEM : place);
    if (grouped)
        putchar('(');
    switch (kind) {
    case TRACE_EMPTY: printf("()"); break;
    case TRACE_RANGE: show_range(a, b); break;
    case TRACE_OR: show_record(a, BAR), putchar('|'), show_record(b, ROW); break;
    case TRACE_SEQ: show_record(a, ROW), show_record(b, ITEM); break;
    case TRACE_STAR: show_record(a, ITEM), putchar('*'); break;
    }
    if (grouped)
        putchar(')');
    if (name)
        printf("#%03d", name);
}

/* Shows the bars of a record from the left: those inside its left side, its own, and those inside its right side. */
static void show_bars(size_t k)
{
    uint8_t kind = record_at(k)[0], a = record_at(k)[1], b = record_at(k)[2];
    if (kind == TRACE_OR || kind == TRACE_SEQ || kind == TRACE_STAR)
        show_bars(a);
    if (kind == TRACE_OR) {
        bars++;
        show_record(a, ROW), printf(" | "), show_record(b, ROW);
        printf(": %s\n", trace_apart(table, TRACE_TABLE_RECORD * records, k) == 1 ? "may be exchanged" : "not known");
    }
    if (kind == TRACE_OR || kind == TRACE_SEQ)
        show_bars(b);
}

int main(int count, char **arguments)
{
    if (count > 2) {
        fputs("usage: sort [RULE]\n", stderr);
        return 2;
    }
    const char *rule = count == 2 ? arguments[1] : sample_rule;
    uint64_t answer = trace_compile((const uint8_t *)rule, strlen(rule), table, sizeof table);
    if (trace_is_refused(answer)) {
        printf("refused %u: %s\n", (unsigned)trace_refusal(answer), trace_refusal_text(trace_refusal(answer)));
        return 1;
    }
    records = (size_t)answer;
    show_bars(records - 1);
    if (bars == 0)
        printf("no bar\n");
    if (fflush(stdout) != 0 || ferror(stdout)) {
        fputs("sort: writing failed\n", stderr);
        return 2;
    }
    return 0;
}
