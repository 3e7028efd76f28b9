/*
 * The work loads. A tag on a part is a token for us and a capture group for the peers, where it is not empty. Inside a star we list every iteration and a
 * capture group keeps the last, so the last token of each tag is compared. Only the ambiguous loads have tags inside a star.
 */
#include <stdlib.h>
#include <string.h>

#include "loads.h"
#include "trace.h"

/* The expression tree. SET holds its ranges as pairs of bytes; PLUS is x x*, OPT is x or empty. */
enum kind { SET, OR, SEQ, STAR, PLUS, OPT };
struct node {
    enum kind kind;
    int a, b, tag;
    const char *pairs;
};
static struct node nodes[512];
static int node_count, tag_count;

static int node(enum kind kind, int a, int b, const char *pairs)
{
    if (node_count == 512)
        abort();
    nodes[node_count] = (struct node){kind, a, b, 0, pairs};
    return node_count++;
}

static int set(const char *pairs) { return node(SET, 0, 0, pairs); }
static int or(int a, int b) { return node(OR, a, b, NULL); }
static int star(int a) { return node(STAR, a, 0, NULL); }
static int plus(int a) { return node(PLUS, a, 0, NULL); }
static int opt(int a) { return node(OPT, a, 0, NULL); }

/* The next tag for this part. */
static int tag(int a)
{
    nodes[a].tag = ++tag_count;
    return a;
}

/* a, then b. Sequences nest to the right, so that no parentheses are needed: an untagged sequence a is taken apart. */
static int seq(int a, int b)
{
    const struct node *x = &nodes[a];
    return x->kind == SEQ && !x->tag ? seq(x->a, seq(x->b, b)) : node(SEQ, a, b, NULL);
}

/* Parts one after the other; the list ends with -1. */
static int seq_list(const int *parts) { return parts[1] < 0 ? parts[0] : seq(parts[0], seq_list(parts + 1)); }
#define SEQ_OF(...) seq_list((const int[]){__VA_ARGS__, -1})

static int lit(const char *text)
{
    static char pairs[256][3];
    char *pair = pairs[(unsigned char)*text];
    pair[0] = pair[1] = *text;
    int first = set(pair);
    return text[1] ? seq(first, lit(text + 1)) : first;
}

/* The table: children first. Returns the record's number. */
static int record(struct load *l, int kind, int a, int b, int t)
{
    if (l->records == TRACE_MAX_RECORDS)
        abort();
    uint8_t *to = l->table + 4 * l->records;
    to[0] = (uint8_t)kind, to[1] = (uint8_t)a, to[2] = (uint8_t)b, to[3] = (uint8_t)t;
    return (int)l->records++;
}

static int write_table(struct load *l, int n)
{
    const struct node *x = &nodes[n];
    int a, b;
    switch (x->kind) {
    case SET:
        a = record(l, TRACE_RANGE, x->pairs[0], x->pairs[1], x->pairs[2] ? 0 : x->tag);
        for (const char *p = x->pairs + 2; *p; p += 2) {
            b = record(l, TRACE_RANGE, p[0], p[1], 0);
            a = record(l, TRACE_OR, a, b, p[2] ? 0 : x->tag);
        }
        return a;
    case STAR:
        return record(l, TRACE_STAR, write_table(l, x->a), 0, x->tag);
    case PLUS:
        a = write_table(l, x->a);
        b = record(l, TRACE_STAR, write_table(l, x->a), 0, 0);
        return record(l, TRACE_SEQ, a, b, x->tag);
    case OPT:
        a = write_table(l, x->a);
        b = record(l, TRACE_EMPTY, 0, 0, 0);
        return record(l, TRACE_OR, a, b, x->tag);
    default:
        a = write_table(l, x->a);
        b = write_table(l, x->b);
        return record(l, x->kind == OR ? TRACE_OR : TRACE_SEQ, a, b, x->tag);
    }
}

/* The regular expression. */
struct text {
    struct load *load;
    char *to;
    size_t len;
    int all_groups;             /* every parenthesis counts as a capture group */
    int groups;
};

static void put(struct text *t, const char *s, size_t len)
{
    if (t->len + len >= MAX_TEXT)
        abort();
    memcpy(t->to + t->len, s, len);
    t->to[t->len += len] = 0;
}

static void write_set(struct text *t, const char *p)
{
    if (p[0] == p[1] && !p[2]) {
        if (strchr(".[\\()*+?{|^$", p[0]))
            put(t, "\\", 1);
        put(t, p, 1);
        return;
    }
    put(t, "[", 1);
    for (; *p; p += 2) {
        put(t, p, 1);
        if (p[0] != p[1])
            put(t, "-", 1), put(t, p + 1, 1);
    }
    put(t, "]", 1);
}

/* Binding strength: alternatives 0, sequences 1, repeats 2, sets 3. A part that binds more loosely than its place gets parentheses. */
static void write_text(struct text *t, int n, int place)
{
    static const int strength[] = {[SET] = 3, [OR] = 0, [SEQ] = 1, [STAR] = 2, [PLUS] = 2, [OPT] = 2};
    static const char *const mark[] = {[STAR] = "*", [PLUS] = "+", [OPT] = "?"};
    const struct node *x = &nodes[n];
    int inside = x->tag || strength[x->kind] < place;
    if (x->tag || (inside && t->all_groups)) {
        put(t, "(", 1);
        t->groups++;
    } else if (inside) {
        put(t, "(?:", 3);
    }
    if (x->tag && t->all_groups) {
        struct load *l = t->load;
        if (l->tokens == MAX_TOKENS)
            abort();
        l->tag[l->tokens] = x->tag;
        l->group[l->tokens++] = l->groups = t->groups;
    }
    switch (x->kind) {
    case SET:
        write_set(t, x->pairs);
        break;
    case OR:
        write_text(t, x->a, 0);
        put(t, "|", 1);
        write_text(t, x->b, 0);
        break;
    case SEQ:
        write_text(t, x->a, 2);
        write_text(t, x->b, 1);
        break;
    default:
        write_text(t, x->a, 3);
        put(t, mark[x->kind], 1);
    }
    if (inside)
        put(t, ")", 1);
}

/* The parts of ordinary trace lines. */
static int digit(void) { return set("09"); }
static int two(void) { return SEQ_OF(digit(), digit()); }
static int number(void) { return plus(digit()); }
static int name(void) { return plus(set("az")); }
static int temperature(void) { return SEQ_OF(opt(lit("-")), number(), lit("."), digit()); }
static int sensor(void) { return SEQ_OF(tag(plus(set("az09"))), lit("="), tag(temperature())); }
static int stamp(void) { return SEQ_OF(two(), lit(":"), two(), lit(":"), two()); }
static int address(void)
{
    return SEQ_OF(number(), lit("."), number(), lit("."), number(), lit("."), number(), opt(SEQ_OF(lit(":"), number())));
}
static int remark(void) { return plus(set(" ~")); }
static int field(const char *start) { return opt(SEQ_OF(lit(start), tag(name()))); }
#define SPACE lit(" ")

static int ordinary_short(void) { return SEQ_OF(tag(stamp()), SPACE, sensor(), opt(SEQ_OF(SPACE, tag(remark())))); }

static int ordinary_middle(void)
{
    return SEQ_OF(tag(stamp()), SPACE, sensor(), SPACE, sensor(), field(" mode="), SPACE, tag(address()), SPACE, tag(remark()));
}

static int ordinary_long(void)
{
    return SEQ_OF(tag(stamp()), SPACE, sensor(), SPACE, sensor(), SPACE, sensor(), field(" mode="), field(" by="), SPACE,
                  tag(address()), lit(" > "), tag(address()), SPACE, tag(remark()));
}

/* The ambiguous ones. The outermost parentheses are the tokens. */
static int a_or_aa(void) { return or(lit("a"), lit("aa")); }
static int aa_or_a(void) { return or(lit("aa"), lit("a")); }
static int ambiguous_or(void) { return star(tag(a_or_aa())); }
static int ambiguous_star(void) { return star(tag(star(lit("a")))); }
static int ambiguous_both(void) { return star(tag(or(star(a_or_aa()), star(aa_or_a())))); }
static int ambiguous_four(void)
{
    return SEQ_OF(tag(star(lit("a"))), tag(star(lit("a"))), tag(star(lit("a"))), tag(star(lit("a"))));
}

/* A word, so many optional words, and a remark: 9 records and 9 more for each optional word. */
static int optional_words;
static int words_from(int n) { return n == 0 ? tag(remark()) : seq(opt(SEQ_OF(SPACE, tag(name()))), words_from(n - 1)); }
static int word_list(void) { return SEQ_OF(tag(name()), words_from(optional_words)); }

#define REMARK                                                                                                                       \
    "pump 3 restarted by hand after a drop in pressure; the valve on the return line stays half open until the next "                \
    "service, see the sheet on the door (cabinet, room 4)"
#define LINE_SHORT "12:34:56 t=21.5 ok"
#define LINE_MIDDLE "12:34:56 boiler1=71.5 outside=-12.3 mode=heating 10.0.12.7:502 pump 12 restarted"
#define LINE_LONG "12:34:56 boiler1=71.5 outside=-12.3 return2=48.9 mode=heating 192.168.10.17:502 > 10.0.12.7 " REMARK
#define LINE_ENDLESS "12:34:56 t=2.5 " REMARK "; " REMARK
#define LINE_WORDS "pump restarted by hand after a drop in pressure the valve on the return line is half open"

/* What is done to the line before it is read: a byte that no letter of the rule holds there, so many bytes a, or the line's first bytes alone. */
enum change { NONE, FIRST, INSIDE, LAST, FILL, CUT };
struct source {
    const char *name;
    int (*tree)(void);
    enum change change;
    size_t size;                /* of FILL and CUT */
    const char *line;
};
static const struct source loads[] = {
    {"ordinary short", ordinary_short, NONE, 0, LINE_SHORT},
    {"ordinary middle", ordinary_middle, NONE, 0, LINE_MIDDLE},
    {"ordinary long", ordinary_long, NONE, 0, LINE_LONG},
#define REFUSED(text, change)                                                                                                        \
    {text ", short", ordinary_short, change, 0, LINE_SHORT}, {text ", middle", ordinary_middle, change, 0, LINE_MIDDLE},             \
        {text ", long", ordinary_long, change, 0, LINE_LONG}
    REFUSED("refused at once", FIRST),
    REFUSED("refused inside", INSIDE),
    REFUSED("refused at the end", LAST),
#define AMBIGUOUS(text, tree) {text, tree, FILL, 16, ""}, {text, tree, FILL, 64, ""}, {text, tree, FILL, 255, ""}
    AMBIGUOUS("(a|aa)*", ambiguous_or),
    AMBIGUOUS("(a*)*", ambiguous_star),
    AMBIGUOUS("((a|aa)*|(aa|a)*)*", ambiguous_both),
    AMBIGUOUS("(a*)(a*)(a*)(a*)", ambiguous_four),
};
static const size_t lengths[] = {16, 32, 48, 64, 96, 128, 160, 192, 224, 255};
static const int words[] = {0, 1, 3, 6, 9, 13, 17, 21, 24, 27};
#define COUNT(array) (int)(sizeof(array) / sizeof *(array))

/* The source of load n, and its part. Returns 0 if there is none. */
static int source_get(int n, struct source *s, const char **part)
{
    if (n < 0)
        return 0;
    if (n < COUNT(loads)) {
        *part = "loads", *s = loads[n];
        return 1;
    }
    n -= COUNT(loads);
    if (n < COUNT(lengths)) {
        *part = "length", *s = (struct source){"a remark at the end", ordinary_short, CUT, lengths[n], LINE_ENDLESS};
        return 1;
    }
    n -= COUNT(lengths);
    if (n < COUNT(words)) {
        *part = "records", *s = (struct source){"optional words", word_list, CUT, 80, LINE_WORDS};
        optional_words = words[n];
        return 1;
    }
    return 0;
}

int load_get(int n, struct load *l)
{
    struct source s;
    memset(l, 0, sizeof *l);
    if (!source_get(n, &s, &l->part))
        return 0;
    l->name = s.name;
    l->refused = s.change == FIRST || s.change == INSIDE || s.change == LAST;

    size_t given = strlen(s.line);
    l->line_len = s.change == FILL || s.change == CUT ? s.size : given;
    if (l->line_len > TRACE_MAX_LINE || (s.change == CUT && given < s.size))
        abort();
    memset(l->line, 'a', l->line_len);
    memcpy(l->line, s.line, given < l->line_len ? given : l->line_len);
    if (s.change == FIRST)
        l->line[0] = 'x';
    if (s.change == INSIDE)
        l->line[l->line_len / 2] = '\t';
    if (s.change == LAST)
        l->line[l->line_len - 1] = '\t';

    node_count = tag_count = 0;
    int root = s.tree();
    write_table(l, root);
    for (int all = 0; all < 2; all++) {
        struct text t = {l, all ? l->ere : l->re2, 0, all, 0};
        put(&t, "^", 1);
        write_text(&t, root, 1);
        put(&t, "$", 1);
    }
    return 1;
}
