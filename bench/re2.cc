// re2 LOAD MS: prints the microseconds of RE2 (longest match) with capture groups, and their spans.
#include <re2/re2.h>

#include <cstdio>
#include <cstdlib>

#include "loads.h"
#include "measure.h"

static load work_load;
static const RE2 *regex;
static re2::StringPiece found[MAX_TOKENS + 1];
static bool matched;

static void match(void *)
{
    re2::StringPiece line(work_load.line, work_load.line_len);
    matched = regex->Match(line, 0, work_load.line_len, RE2::UNANCHORED, found, work_load.tokens + 1);
}

int main(int argc, char **argv)
{
    if (argc != 3 || !load_get(atoi(argv[1]), &work_load))
        return 2;
    RE2::Options options;
    options.set_longest_match(true);
    options.set_encoding(RE2::Options::EncodingLatin1);
    RE2 compiled(work_load.re2, options);
    if (!compiled.ok())
        return 2;
    regex = &compiled;
    std::printf("%.4f\n", measure(match, nullptr, atof(argv[2])));
    if (!matched)
        std::printf("no match");
    for (int i = 0; matched && i < work_load.tokens; i++)
        if (found[i + 1].size())
            std::printf("%d:%d+%d ", work_load.tag[i], (int)(found[i + 1].data() - work_load.line), (int)found[i + 1].size());
    std::printf("\n");
    return 0;
}
