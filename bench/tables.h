/* Tables of up to 255 records that take long to read by: a few by name, and random ones, the same in each run. */
#ifndef TABLES_H
#define TABLES_H

#include <stddef.h>
#include <stdint.h>

enum { NAMED_TABLES = 7, RANDOM_TABLES = 300 };

struct table {
    const char *name;
    uint8_t records[4 * 255];   /* the start record is the last */
    size_t count;               /* of the records */
    uint8_t line[255];
};

/* Makes table number n, from 0, and its line: those with a name, then the random ones. Returns 0 if there is none. */
int table_get(int n, struct table *table);

#endif
