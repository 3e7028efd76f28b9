/*
 * The header's own functions and its structs, in C and in C++: version, answers taken apart, refusals in words, sizes, pairs, live lines, pages,
 * alternatives. Exit status 0 if all is right.
 */
#include <stdio.h>
#include <string.h>

#include "trace.h"

static int bad;

static void expect(const char *name, int right)
{
    if (!right) {
        printf("header: %s\n", name);
        bad = 1;
    }
}

static void version(void)
{
    char text[32];
    sprintf(text, "%d.%d.%d", TRACE_VERSION_MAJOR, TRACE_VERSION_MINOR, TRACE_VERSION_PATCH);
    expect("the version's text", strcmp(text, TRACE_VERSION) == 0);
}

/* Each number from 0 to one past the last refusal has a text of its own, and all later ones have that of the first of them. */
static void texts(void)
{
    uint32_t i, j, end = TRACE_REFUSED_LINES + 1;
    for (i = 0; i <= end; i++)
        for (j = 0; j < i; j++)
            expect("two numbers with one text", strcmp(trace_refusal_text(i), trace_refusal_text(j)) != 0);
    expect("a number that is no refusal's", strcmp(trace_refusal_text(UINT32_MAX), trace_refusal_text(end)) == 0);
}

/* A table of two rules: b after a's record. */
static void answers(void)
{
    static const uint8_t table[] = {TRACE_RANGE, 'a', 'a', 1, TRACE_RANGE, 'b', 'b', 2};
    uint8_t work[6], reading[4], tokens[6];
    uint64_t answer = trace_read(table, sizeof table, 1, (const uint8_t *)"b", 1, work, sizeof work, reading, sizeof reading);
    expect("a result", !trace_is_refused(answer) && answer == 1 && trace_refusal(answer) == 0);
    expect("a reading's record", sizeof reading == TRACE_READING_RECORD && memcmp(reading, "\1b\1\1", TRACE_READING_RECORD) == 0);
    answer = trace_tokens(table, sizeof table, 1, reading, TRACE_READING_RECORD, tokens, 2);
    expect("a refusal", trace_is_refused(answer) && trace_refusal(answer) == TRACE_REFUSED_BUFFER && trace_detail(answer) == TRACE_TOKEN);
    expect("the check", trace_check(table, sizeof table) == sizeof table / TRACE_TABLE_RECORD);
    answer = trace_compile((const uint8_t *)"a|", 2, reading, 0);
    expect("a text's refusal", trace_refusal(answer) == TRACE_REFUSED_TEXT && trace_detail(answer) == 0);
    answer = trace_compile((const uint8_t *)"a", 1, reading, sizeof reading);
    expect("a text's table", answer == 1 && memcmp(reading, "\2aa", TRACE_TABLE_RECORD) == 0);
}

/* A pair is two bytes, the first name before the second, so bytes may be lent as pairs. */
static void pairs(void)
{
    static const trace_pair pair[] = {{1, 2}};
    static const uint8_t bytes[] = {1, 2}, kept[] = {1, 0, 1, 2, 1, 1}, broken[] = {2, 0, 1, 1, 1, 1};
    trace_pair many[TRACE_MAX_PAIRS + 1];
    memset(many, 0, sizeof many);
    expect("a pair's bytes", sizeof(trace_pair) == 2 && memcmp(pair, bytes, sizeof bytes) == 0);
    expect("pairs that are kept", trace_order(kept, sizeof kept, pair, 1) == sizeof kept / TRACE_TOKEN);
    expect("bytes lent as pairs", trace_order(kept, sizeof kept, (const trace_pair *)bytes, 1) == sizeof kept / TRACE_TOKEN);
    expect("a pair that is broken", trace_order(broken, sizeof broken, pair, 1) == 0);
    expect("as many pairs as there may be", !trace_is_refused(trace_order(kept, sizeof kept, many, TRACE_MAX_PAIRS)));
    expect("too many pairs", trace_refusal(trace_order(kept, 1, many, TRACE_MAX_PAIRS + 1)) == TRACE_REFUSED_PAIRS);
    expect("part of a token", trace_refusal(trace_order(kept, 4, pair, 1)) == TRACE_REFUSED_TOKEN_BYTES);
}

/* The places of the fields are those of the library, and its calls go by them. */
static void live_lines(void)
{
    static const uint8_t table[] = {TRACE_RANGE, 'a', 'a', 0, TRACE_RANGE, 'b', 'b', 0, TRACE_SEQ, 0, 1, 0};
    trace_live line;
    uint8_t work[18];
    expect("the places of a live line's fields", offsetof(trace_live, table) == 0 && offsetof(trace_live, table_len) == 1024
           && offsetof(trace_live, start) == 1032 && offsetof(trace_live, bytes) == 1040 && offsetof(trace_live, count) == 1296
           && sizeof(trace_live) == 1304);
    expect("the facts", TRACE_LIVE_READS == 1 && TRACE_LIVE_EXTENDS == 2 && sizeof work == trace_work_size(3, 2));
    expect("a live line", trace_live_new(&line, table, sizeof table, 2) == 3 && line.table_len == sizeof table && line.start == 2 && line.count == 0
           && memcmp(line.table, table, sizeof table) == 0);
    expect("nothing to take back", trace_refusal(trace_live_take_back(&line, work, sizeof work)) == TRACE_REFUSED_EMPTY_LINE);
    expect("a line that can get a reading", trace_live_add(&line, 'a', work, 9) == TRACE_LIVE_EXTENDS);
    expect("a short work area", trace_refusal(trace_live_add(&line, 'b', work, sizeof work - 1)) == TRACE_REFUSED_WORK);
    expect("a line that has one", trace_live_add(&line, 'b', work, sizeof work) == (TRACE_LIVE_READS | TRACE_LIVE_EXTENDS));
    expect("its bytes", line.count == 2 && line.bytes[0] == 'a' && line.bytes[1] == 'b');
    expect("a byte that is taken back", trace_live_take_back(&line, work, 9) == TRACE_LIVE_EXTENDS && line.count == 1 && line.bytes[1] == 0);
    line.count = TRACE_MAX_LINE + 1;
    expect("a line filled by hand", trace_refusal(trace_live_add(&line, 'b', work, sizeof work)) == TRACE_REFUSED_LINE);
    expect("a start number", trace_refusal(trace_live_new(&line, table, sizeof table, 3)) == TRACE_REFUSED_START && line.table_len == TRACE_TABLE_RECORD);
}

/* a|b, whose alternatives share no line, and a record that is no Or. */
static void alternatives(void)
{
    static const uint8_t table[] = {TRACE_RANGE, 'a', 'a', 0, TRACE_RANGE, 'b', 'b', 0, TRACE_OR, 0, 1, 0};
    uint64_t answer = trace_apart(table, sizeof table, 3);
    expect("alternatives that share no line", trace_apart(table, sizeof table, 2) == 1);
    expect("a record that is no Or", trace_apart(table, sizeof table, 1) == 0);
    expect("a record number", trace_refusal(answer) == TRACE_REFUSED_START && trace_detail(answer) == 0 && trace_who(answer) == 0);
}

/* The four parts of an answer, each at its lowest and at its highest. */
static void parts(void)
{
    uint64_t result = UINT32_MAX, refusal = (uint64_t)TRACE_REFUSED_LINES << 32, line = ((uint64_t)TRACE_WHO_LINE << 56) + refusal + 7;
    expect("the parts of a result", trace_who(result) == 0 && trace_refusal(result) == 0 && trace_detail(result) == UINT32_MAX);
    expect("a result that is not refused", !trace_is_refused(result));
    expect("the parts of a refusal", trace_who(refusal) == TRACE_WHO_PAGE && trace_refusal(refusal) == 20 && trace_detail(refusal) == 0);
    expect("the parts of a line's", trace_who(line) == 3 && trace_refusal(line) == 20 && trace_detail(line) == 7);
    expect("each part alone", trace_who(UINT64_MAX) == 255 && trace_refusal(UINT64_MAX) == 0xFFFFFF && trace_detail(UINT64_MAX) == UINT32_MAX);
    expect("a refusal with one that is named", trace_is_refused(line) && trace_is_refused(refusal));
    expect("who is named", TRACE_WHO_PAGE == 0 && TRACE_WHO_LINE_RULES == 1 && TRACE_WHO_PAGE_RULES == 2 && TRACE_WHO_LINE == 3);
}

/* A page whose lines are one letter, a or b, a token 7, by page rules that take any number of classes 7. */
static uint64_t read_page(const char *page, size_t page_len, uint64_t line_start, uint64_t page_start, uint8_t *out, size_t out_len)
{
    static const uint8_t line_table[] = {TRACE_RANGE, 'a', 'b', 7}, page_table[] = {TRACE_RANGE, 7, 7, 0, TRACE_STAR, 0, 0, 0};
    uint8_t work[6], reading[4], first[3], second[3];
    return trace_page(line_table, sizeof line_table, line_start, page_table, sizeof page_table, page_start, (const uint8_t *)page, page_len, work,
                      sizeof work, reading, sizeof reading, first, sizeof first, second, sizeof second, out, out_len);
}

static void pages(void)
{
    uint8_t out[8];
    uint64_t answer = read_page("a\na\n", 4, 0, 1, out, sizeof out);
    expect("a page", answer == 2 && trace_who(answer) == TRACE_WHO_PAGE && memcmp(out, "\5\1\1\1\1\7\1\0", sizeof out) == 0);
    expect("the work area of its lines and of its class bytes", trace_work_size(1, 1) == 3 && trace_work_size(2, 1) == 6 && TRACE_MAX_LINES == 255);
    answer = read_page("a\nc", 3, 0, 1, out, sizeof out);
    expect("a line that is refused", trace_who(answer) == TRACE_WHO_LINE && trace_refusal(answer) == TRACE_REFUSED_NO_READING && trace_detail(answer) == 1);
    answer = read_page("a", 1, 1, 1, out, sizeof out);
    expect("line rules that are refused", trace_who(answer) == TRACE_WHO_LINE_RULES && trace_refusal(answer) == TRACE_REFUSED_START);
    answer = read_page("a", 1, 0, 2, out, sizeof out);
    expect("page rules that are refused", trace_who(answer) == TRACE_WHO_PAGE_RULES && trace_refusal(answer) == TRACE_REFUSED_START);
    answer = read_page("a", 1, 0, 1, out, 7);
    expect("a page that is refused", trace_who(answer) == TRACE_WHO_PAGE && trace_refusal(answer) == TRACE_REFUSED_BUFFER && trace_detail(answer) == 8);
}

static void sizes(void)
{
    expect("the work area's size", trace_work_size(10, 3) == 100 && trace_work_size(255, 255) == 8388480 && trace_work_size(1, 0) == 1);
    expect("a reading's size", trace_reading_size(10, 3) == 120 && trace_reading_size(10, 0) == 40 && trace_reading_size(255, 255) == 260100);
    expect("a table's size", TRACE_MAX_TABLE == TRACE_MAX_RECORDS * TRACE_TABLE_RECORD);
    expect("the tokens' size", trace_tokens_size(3) == 9 && trace_tokens_size(TRACE_MAX_LINE) == 765 && trace_tokens_size(0) == 0);
}

int main(void)
{
    version();
    texts();
    answers();
    pairs();
    live_lines();
    alternatives();
    parts();
    pages();
    sizes();
    return bad;
}
