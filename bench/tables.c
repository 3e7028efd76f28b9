/* The tables that take long to read by. */
#include <stdlib.h>
#include <string.h>

#include "tables.h"
#include "trace.h"

/* The table that is made. */
static struct table *table;

/* Adds a record and returns its number. */
static int record(int kind, int a, int b)
{
    if (table->count == TRACE_MAX_RECORDS)
        abort();
    uint8_t *to = table->records + 4 * table->count;
    to[0] = (uint8_t)kind, to[1] = (uint8_t)a, to[2] = (uint8_t)b, to[3] = 0;
    return (int)table->count++;
}

static int byte(int c) { return record(TRACE_RANGE, c, c); }
static int letter(void) { return byte('a'); }
static int star(int a) { return record(TRACE_STAR, a, 0); }
static int seq(int a, int b) { return record(TRACE_SEQ, a, b); }
static int one(void) { return star(letter()); }

static int two(void)
{
    int a = letter();
    return star(seq(a, letter()));
}

/* Still room for so many records. */
static int fits(size_t more) { return table->count + more <= TRACE_MAX_RECORDS; }

/* These leave room for some records. */
static int nested_but(size_t spare)
{
    int last = letter();
    while (fits(1 + spare))
        last = star(last);
    return last;
}

static int ones_left_but(size_t spare)
{
    int last = one();
    while (fits(3 + spare))
        last = seq(last, one());
    return last;
}

/* Then cd, of which the line's end lacks the c. */
static void unfinished(int last)
{
    int c = byte('c');
    last = seq(last, c);
    seq(last, byte('d'));
    table->line[sizeof table->line - 1] = 'd';
}

static void nested(void) { nested_but(0); }
static void ones_left(void) { ones_left_but(0); }
static void nested_unfinished(void) { unfinished(nested_but(4)); }
static void ones_left_unfinished(void) { unfinished(ones_left_but(4)); }

static void ones_right(void)
{
    for (int last = one(); fits(3);)
        last = seq(one(), last);
}

static void twos_left(void)
{
    int last = one();
    while (fits(6))
        last = seq(last, two());
    star(last);
}

static void twos_right(void)
{
    int last = two();
    while (fits(9))
        last = seq(two(), last);
    star(seq(one(), last));
}

static const struct {
    const char *name;
    void (*make)(void);
} named[NAMED_TABLES] = {
    {"(((a*)*)*..)*", nested},
    {"((a*a*)a*)..", ones_left},
    {"a*(a*(a*..))", ones_right},
    {"(((a*(aa)*)(aa)*)..)*", twos_left},
    {"(a*((aa)*((aa)*..)))*", twos_right},
    {"(((a*)*)*..)*cd", nested_unfinished},
    {"((a*a*)a*)..cd", ones_left_unfinished},
};

static uint64_t state;

/* A number below the limit (xorshift). */
static int below(int limit)
{
    state ^= state << 13;
    state ^= state >> 7;
    state ^= state << 17;
    return (int)(state % (uint64_t)limit);
}

/* The records that no other names yet. */
static int roots[TRACE_MAX_RECORDS], root_count;

static int take(int i)
{
    int root = roots[i];
    memmove(roots + i, roots + i + 1, (size_t)(--root_count - i) * sizeof *roots);
    return root;
}

/* The kind of the next record: when as many records are left as there are roots, only those that join two, and Star for the last alone. */
static int random_kind(void)
{
    int left = TRACE_MAX_RECORDS - (int)table->count, kind;
    if (root_count >= left)
        return root_count < 2 ? TRACE_STAR : below(3) ? TRACE_SEQ : TRACE_OR;
    switch (below(10)) {
    case 0: kind = TRACE_OR; break;
    case 1: case 2: kind = TRACE_SEQ; break;
    case 3: case 4: kind = TRACE_STAR; break;
    case 5: kind = below(4) == 0 ? TRACE_EMPTY : below(3) == 0 ? TRACE_OTHER : TRACE_RANGE; break;
    default: kind = TRACE_RANGE;
    }
    if ((kind == TRACE_OR || kind == TRACE_SEQ) && root_count < 2)
        kind = root_count && below(2) ? TRACE_STAR : TRACE_RANGE;
    return kind == TRACE_STAR && !root_count ? TRACE_RANGE : kind;
}

/* One more record of a random table; a letter is one of so many from a, or a range of two. */
static void random_record(int letters)
{
    int kind = random_kind(), a = 0, b = 0;
    if (kind == TRACE_OR || kind == TRACE_SEQ) {
        a = take(root_count - 1);
        b = take(below(root_count));
        if (below(2)) {
            int swap = a;
            a = b, b = swap;
        }
    } else if (kind == TRACE_STAR) {
        a = take(root_count - 1);
    } else if (kind == TRACE_RANGE) {
        a = 'a' + below(letters);
        b = a + below(2);
    } else if (kind == TRACE_OTHER) {
        a = b = 'a' + below(letters);
    }
    int number = record(kind, a, b);
    roots[root_count++] = number;
}

/* Random table n, from 0, and its line; every run has the same. */
static void random_make(int n)
{
    state = 88172645463325252u + (uint64_t)n * 0x9e3779b97f4a7c15u;
    for (int i = 0; i < 8; i++)
        below(1);
    root_count = 0;
    while (fits(1))
        random_record(1 + n % 2);
    for (size_t i = 0; i < sizeof table->line; i++)
        table->line[i] = (uint8_t)('a' + below(1 + n / 2 % 2));
}

int table_get(int n, struct table *to)
{
    if (n < 0 || n >= NAMED_TABLES + RANDOM_TABLES)
        return 0;
    table = to;
    table->count = 0;
    table->name = n < NAMED_TABLES ? named[n].name : "random table";
    memset(table->line, 'a', sizeof table->line);
    if (n < NAMED_TABLES)
        named[n].make();
    else
        random_make(n - NAMED_TABLES);
    if (trace_check(table->records, 4 * table->count) != table->count)
        abort();
    return 1;
}
