/* posix LOAD MS: prints the microseconds of regexec with capture groups, and their spans. With -DUSE_TRE the engine is TRE, else glibc. */
#include <stdio.h>
#include <stdlib.h>

#ifdef USE_TRE
#include <tre/tre.h>
#define COMPILE tre_regcomp
#define EXECUTE(re, l, n, found) tre_regnexec(re, (l).line, (l).line_len, n, found, 0)
#else
#include <regex.h>
#define COMPILE regcomp
#define EXECUTE(re, l, n, found) regexec(re, (l).line, n, found, 0)
#endif

#include "loads.h"
#include "measure.h"

static struct load load;
static regex_t regex;
static regmatch_t found[256];
static int result;

static void match(void *arg)
{
    (void)arg;
    result = EXECUTE(&regex, load, (size_t)load.groups + 1, found);
}

int main(int argc, char **argv)
{
    if (argc != 3 || !load_get(atoi(argv[1]), &load) || load.groups > 255 || COMPILE(&regex, load.ere, REG_EXTENDED))
        return 2;
    printf("%.4f\n", measure(match, NULL, atof(argv[2])));
    if (result != 0 && result != REG_NOMATCH)
        return 3;
    if (result == REG_NOMATCH)
        printf("no match");
    else
        for (int i = 0; i < load.tokens; i++) {
            const regmatch_t *m = &found[load.group[i]];
            if (m->rm_eo > m->rm_so)
                printf("%d:%d+%d ", load.tag[i], (int)m->rm_so, (int)(m->rm_eo - m->rm_so));
        }
    printf("\n");
    return 0;
}
