/*
 * compile: the rules, one on a line: number, bytes, name.
 * compile RULE MS: prints the microseconds of compiling that rule, and the records of its table, or what it is refused by.
 * With -DUSE_TRE or -DUSE_GLIBC the compiler is that engine's regcomp, with its regfree, and only the time is printed.
 */
#include <stdio.h>
#include <stdlib.h>
#include <string.h>

#include "measure.h"
#include "trace.h"

#if defined USE_TRE
#include <tre/tre.h>
#define COMPILE tre_regcomp
#define FREE tre_regfree
#elif defined USE_GLIBC
#include <regex.h>
#define COMPILE regcomp
#define FREE regfree
#endif

/* The rules in the notation: the middle, and around it as many fronts and behinds as make so many bytes, or none. */
static const struct {
    const char *name, *front, *middle, *behind;
    size_t bytes;
} rules[] = {
    {"three alternatives", "", "((a)#001|(ab)#002|(bc)#003)*", "", 0},
    {"time, sensor and value", "", "([0-9][0-9]:[0-9][0-9])#001 ([a-z][a-z]*)#002 ((-|())[0-9][0-9]*)#003", "", 0},
    {"address and port", "", "([0-9][0-9]*\\.[0-9][0-9]*\\.[0-9][0-9]*\\.[0-9][0-9]*)#001(:([0-9][0-9]*)#002|())", "", 0},
#define SIZES(name, front, middle, behind)                                                                                           \
    {name, front, middle, behind, 64}, {name, front, middle, behind, 128}, {name, front, middle, behind, 1024},                      \
        {name, front, middle, behind, TRACE_MAX_TEXT}
    SIZES("plain", "aa", "", ""),
    SIZES("parentheses", "(", "aa", ")"),
    SIZES("a|a|..", "a|", "aa", ""),
};

static char text[TRACE_MAX_TEXT + 1];
static size_t length;

static void put(const char *piece)
{
    memcpy(text + length, piece, strlen(piece));
    length += strlen(piece);
}

/* The text of rule n, from 0, ended by a 0 byte. Returns 0 if there is none. */
static int rule_get(int n)
{
    if (n < 0 || (size_t)n >= sizeof rules / sizeof *rules)
        return 0;
    size_t middle = strlen(rules[n].middle), each = strlen(rules[n].front) + strlen(rules[n].behind);
    size_t times = rules[n].bytes ? (rules[n].bytes - middle) / each : 0;
    length = 0;
    for (size_t i = 0; i < times; i++)
        put(rules[n].front);
    put(rules[n].middle);
    for (size_t i = 0; i < times; i++)
        put(rules[n].behind);
    text[length] = 0;
    return 1;
}

#ifdef COMPILE
static int result;

static void compile(void *arg)
{
    regex_t regex;
    result = COMPILE(&regex, arg, REG_EXTENDED);
    if (result == 0)
        FREE(&regex);
}

/* The rule as the engine has it: without the tags. */
static void prepare(void)
{
    char *to = text;
    for (const char *from = text; *from; from += *from == '#' ? 4 : 1)
        if (*from != '#')
            *to++ = *from;
    *to = 0;
}
#else
static uint8_t table[TRACE_MAX_TABLE];
static uint64_t result;

static void compile(void *arg) { result = trace_compile(arg, length, table, sizeof table); }

static void prepare(void) {}
#endif

int main(int argc, char **argv)
{
    if (argc < 2) {
        for (int n = 0; rule_get(n); n++)
            printf("%d %zu %s\n", n, length, rules[n].name);
        return 0;
    }
    if (argc != 3 || !rule_get(atoi(argv[1])))
        return 2;
    prepare();
    printf("%.4f\n", measure(compile, text, atof(argv[2])));
#ifdef COMPILE
    return result == 0 ? 0 : 3;
#else
    if (trace_is_refused(result) && trace_refusal(result) != TRACE_REFUSED_RECORDS)
        return 1;
    if (trace_is_refused(result))
        printf("over %d\n", TRACE_MAX_RECORDS);
    else
        printf("%d\n", (int)result);
    return 0;
#endif
}
