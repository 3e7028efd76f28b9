/* The work loads: each is one small expression tree, written out as our table and as the peers' regular expression. */
#ifndef LOADS_H
#define LOADS_H

#include <stddef.h>
#include <stdint.h>

#ifdef __cplusplus
extern "C" {
#endif

enum { MAX_TOKENS = 32, MAX_TEXT = 2048 };

struct load {
    const char *part;           /* loads, or a series: length (one rule, longer and longer lines), records (one line, larger and larger rules) */
    const char *name;
    int refused;                /* the line is one that the expression does not spell */
    char line[256];             /* ended by a 0 byte */
    size_t line_len;
    uint8_t table[4 * 255];     /* the start record is the last */
    size_t records;
    char ere[MAX_TEXT];         /* POSIX ERE, anchored: every parenthesis is a capture group */
    char re2[MAX_TEXT];         /* the same for RE2: only tokens are capture groups, the others are (?: ) */
    int tokens;                 /* tagged parts, from left to right */
    int tag[MAX_TOKENS];        /* a token's tag in the table */
    int group[MAX_TOKENS];      /* its capture group in ere; in re2 token i has group i + 1 */
    int groups;                 /* the last group of ere that is a token */
};

/* Makes work load number n, from 0. Returns 0 if there is none. */
int load_get(int n, struct load *load);

#ifdef __cplusplus
}
#endif

#endif
