/*
 * list PART: the work loads of that part, one on a line: number, bytes, records, name. list NUMBER: that load's ERE, its line, and for each
 * token the tag and the capture group.
 */
#include <ctype.h>
#include <stdio.h>
#include <stdlib.h>
#include <string.h>

#include "loads.h"

int main(int argc, char **argv)
{
    static struct load l;
    if (argc != 2)
        return 2;
    if (!isdigit((unsigned char)argv[1][0])) {
        for (int n = 0; load_get(n, &l); n++)
            if (strcmp(l.part, argv[1]) == 0)
                printf("%d %zu %zu %s\n", n, l.line_len, l.records, l.name);
        return 0;
    }
    if (!load_get(atoi(argv[1]), &l))
        return 2;
    printf("%s\n%s\n", l.ere, l.line);
    for (int i = 0; i < l.tokens; i++)
        printf("%d %d ", l.tag[i], l.group[i]);
    printf("\n");
    return 0;
}
