/*
 * loaded LIBRARY: opens the shared library at run time and makes each of the twelve calls through it. Exit status 0 if every answer is right.
 */
#include <dlfcn.h>
#include <stdio.h>
#include <stdlib.h>
#include <string.h>

#include "trace.h"

/* (a + ab + bc)* */
static const uint8_t table[] = {
    TRACE_RANGE, 'a', 'a', 1, TRACE_RANGE, 'a', 'a', 0, TRACE_RANGE, 'b', 'b', 0, TRACE_SEQ, 1, 2, 2, TRACE_RANGE, 'b', 'b', 0,
    TRACE_RANGE, 'c', 'c', 0, TRACE_SEQ, 4, 5, 3, TRACE_OR, 0, 3, 0, TRACE_OR, 7, 6, 0, TRACE_STAR, 8, 0, 0,
};

/* The function of that name. ISO C has no cast from an object's pointer to a function's, so its bytes are copied. */
static void find(void *library, const char *name, void *function)
{
    void *symbol = dlsym(library, name);
    if (symbol == NULL) {
        printf("loaded: %s\n", dlerror());
        exit(1);
    }
    memcpy(function, &symbol, sizeof symbol);
}

static void expect(const char *name, int right)
{
    if (!right) {
        printf("loaded: %s: another answer\n", name);
        exit(1);
    }
}

int main(int count, char **arguments)
{
    uint64_t (*check)(const uint8_t *, size_t);
    uint64_t (*read)(const uint8_t *, size_t, uint64_t, const uint8_t *, size_t, uint8_t *, size_t, uint8_t *, size_t);
    uint64_t (*spell)(const uint8_t *, size_t, uint64_t, const uint8_t *, size_t, uint8_t *, size_t);
    uint64_t (*compare)(const uint8_t *, size_t, uint64_t, const uint8_t *, size_t, const uint8_t *, size_t);
    uint64_t (*tokens)(const uint8_t *, size_t, uint64_t, const uint8_t *, size_t, uint8_t *, size_t);
    uint64_t (*compile)(const uint8_t *, size_t, uint8_t *, size_t);
    uint64_t (*order)(const uint8_t *, size_t, const trace_pair *, size_t);
    uint64_t (*live_new)(trace_live *, const uint8_t *, size_t, uint64_t);
    uint64_t (*live_add)(trace_live *, uint8_t, uint8_t *, size_t);
    uint64_t (*live_take_back)(trace_live *, uint8_t *, size_t);
    uint64_t (*page)(const uint8_t *, size_t, uint64_t, const uint8_t *, size_t, uint64_t, const uint8_t *, size_t, uint8_t *, size_t, uint8_t *,
                     size_t, uint8_t *, size_t, uint8_t *, size_t, uint8_t *, size_t);
    uint64_t (*apart)(const uint8_t *, size_t, uint64_t);
    trace_live typed;
    uint8_t work[100], reading[120], listed[90], line[3], made[TRACE_MAX_TABLE], first[9], second[9];
    void *library = dlopen(count == 2 ? arguments[1] : "", RTLD_NOW | RTLD_LOCAL);
    if (library == NULL) {
        printf("loaded: %s\n", dlerror());
        return 1;
    }
    find(library, "trace_check", &check);
    find(library, "trace_read", &read);
    find(library, "trace_spell", &spell);
    find(library, "trace_compare", &compare);
    find(library, "trace_tokens", &tokens);
    find(library, "trace_compile", &compile);
    find(library, "trace_order", &order);
    find(library, "trace_live_new", &live_new);
    find(library, "trace_live_add", &live_add);
    find(library, "trace_live_take_back", &live_take_back);
    find(library, "trace_page", &page);
    find(library, "trace_apart", &apart);

    expect("check", check(table, sizeof table) == 10);
    expect("read", read(table, sizeof table, 9, (const uint8_t *)"abc", 3, work, sizeof work, reading, sizeof reading) == 8);
    expect("spell", spell(table, sizeof table, 9, reading, 8 * TRACE_READING_RECORD, line, sizeof line) == 3 && memcmp(line, "abc", 3) == 0);
    expect("compare", compare(table, sizeof table, 9, reading, 8 * TRACE_READING_RECORD, reading, 8 * TRACE_READING_RECORD) == 0);
    expect("tokens", tokens(table, sizeof table, 9, reading, 8 * TRACE_READING_RECORD, listed, sizeof listed) == 2 && memcmp(listed, "\1\0\1\3\1\2", 6) == 0);
    expect("order, kept", order(listed, 6, &(trace_pair){1, 3}, 1) == 2);
    expect("order, broken", order(listed, 6, &(trace_pair){2, 3}, 1) == 1);
    expect("a list that is refused", trace_refusal(order(listed, 5, &(trace_pair){1, 3}, 1)) == TRACE_REFUSED_TOKEN_BYTES);
    expect("a line that is refused",
           trace_refusal(read(table, sizeof table, 9, (const uint8_t *)"b", 1, work, sizeof work, reading, sizeof reading)) == TRACE_REFUSED_NO_READING);
    expect("compile", compile((const uint8_t *)"(bc)*#002", 9, made, sizeof made) == 4
                          && memcmp(made, "\2bb\0\2cc\0\4\0\1\0\5\2\0\2", 16) == 0);
    expect("a text that is refused", trace_refusal(compile((const uint8_t *)"(bc", 3, made, sizeof made)) == TRACE_REFUSED_TEXT);
    expect("a live line", live_new(&typed, table, sizeof table, 9) == 10);
    expect("add", live_add(&typed, 'b', work, sizeof work) == TRACE_LIVE_EXTENDS && live_add(&typed, 'b', work, sizeof work) == 0);
    expect("take back", live_take_back(&typed, work, sizeof work) == TRACE_LIVE_EXTENDS && typed.count == 1 && typed.bytes[0] == 'b');
    expect("add again", live_add(&typed, 'c', work, sizeof work) == (TRACE_LIVE_READS | TRACE_LIVE_EXTENDS));
    expect("a byte that is refused", trace_refusal(live_add(&typed, 'a', work, 99)) == TRACE_REFUSED_WORK && typed.count == 2);
#define PAGE(text) \
    page(table, sizeof table, 9, made, 12, 2, (const uint8_t *)text, sizeof text - 1, work, sizeof work, reading, sizeof reading, first, sizeof first, \
         second, sizeof second, listed, sizeof listed)
    expect("the page's rules", compile((const uint8_t *)"\1\3", 2, made, sizeof made) == 3);
    expect("page", PAGE("abc\nabc\nbc\n") == 3 && memcmp(listed, "\4\0\2\2\1\1\1\0\1\3\1\1", 12) == 0);
    expect("a page with a line that is refused", PAGE("abc\nb\n") == ((uint64_t)TRACE_WHO_LINE << 56 | (uint64_t)TRACE_REFUSED_NO_READING << 32 | 1));
    expect("apart", apart(table, sizeof table, 7) == 1 && apart(table, sizeof table, 8) == 1 && apart(table, sizeof table, 9) == 0);
    expect("a record that is refused", trace_refusal(apart(table, sizeof table, 10)) == TRACE_REFUSED_START);
    dlclose(library);
    return 0;
}
