/*
 * Every refusal of Read, Spell, Compare, Tokens, Compile, Order, Page, Apart and the calls on a live line at its edge, with the answers that documents
 * 01 and 02 state; buffers and live lines are compared byte for byte. Readings with every wrong length and record number. Other at its bounds. Empty
 * tagged parts, which are no tokens. Names that must come first. Live lines typed and filled by hand, and the places of their fields. Pages of every
 * kind of line, in buffers of exactly the sizes that they need. Alternatives that are seen to share no line and others, and tables with them exchanged.
 * And null pointers with length 0, in all twelve calls.
 * Prints the number of answers, or the first one that is wrong.
 */
#include <stdio.h>
#include <stdlib.h>
#include <string.h>
#include <sys/mman.h>

#include "trace.h"

#define REFUSED(number, detail) ((uint64_t)(number) << 32 | (uint64_t)(detail))
/* The same by trace_page, with the one that is named. */
#define NAMED(who, number, detail) ((uint64_t)(who) << 56 | REFUSED(number, detail))

typedef struct { const uint8_t *at; size_t length; } Bytes;
#define BYTES(...) ((Bytes){(const uint8_t[]){__VA_ARGS__}, sizeof((const uint8_t[]){__VA_ARGS__})})
/* A record of a reading. */
#define R(kind, argument, spelled, number) kind, argument, spelled, number
static const uint8_t none[1];
static const Bytes empty = {none, 0};

static int answers;

static void expect(const char *name, uint64_t got, uint64_t want)
{
    answers++;
    if (got != want) {
        printf("edges: %s: got %#llx instead of %#llx\n", name, (unsigned long long)got, (unsigned long long)want);
        exit(1);
    }
}

/* After a call with a buffer of so many bytes of 0xee: these bytes in front, the others left. */
static void expect_buffer(const char *name, const uint8_t *out, size_t length, Bytes front)
{
    for (size_t i = 0; i < length; i++)
        if (out[i] != (i < front.length ? front.at[i] : 0xee)) {
            printf("edges: %s: byte %zu of the buffer\n", name, i);
            exit(1);
        }
}

/* Of a buffer that was filled with bytes of 0xdd, those between the two places are left. */
static void expect_left(const char *name, const char *buffer, const uint8_t *bytes, size_t from, size_t to)
{
    for (size_t i = from; i < to; i++)
        if (bytes[i] != 0xdd) {
            printf("edges: %s: byte %zu of the %s\n", name, i, buffer);
            exit(1);
        }
}

static void spell(const char *name, Bytes table, uint64_t start, Bytes reading, size_t room, uint64_t want, Bytes front)
{
    uint8_t out[1024];
    memset(out, 0xee, sizeof out);
    expect(name, trace_spell(table.at, table.length, start, reading.at, reading.length, out, room), want);
    expect_buffer(name, out, sizeof out, front);
}

static void tokens(const char *name, Bytes table, uint64_t start, Bytes reading, size_t room, uint64_t want, Bytes front)
{
    uint8_t out[1024];
    memset(out, 0xee, sizeof out);
    expect(name, trace_tokens(table.at, table.length, start, reading.at, reading.length, out, room), want);
    expect_buffer(name, out, sizeof out, front);
}

static void compare(const char *name, Bytes table, uint64_t start, Bytes first, Bytes second, uint64_t want)
{
    expect(name, trace_compare(table.at, table.length, start, first.at, first.length, second.at, second.length), want);
}

/* The work area is filled with a pattern too: `kept` says that it must be untouched. */
static void read(const char *name, Bytes table, uint64_t start, Bytes line, size_t work_room, size_t room, uint64_t want, Bytes front, int kept)
{
    static uint8_t work[200000];
    uint8_t out[2048];
    memset(work, 0xdd, sizeof work);
    memset(out, 0xee, sizeof out);
    expect(name, trace_read(table.at, table.length, start, line.at, line.length, work, work_room, out, room), want);
    expect_buffer(name, out, sizeof out, front);
    expect_left(name, "work area", work, kept ? 0 : work_room, sizeof work);
}

/* A reading that does not fit, in each call; the other one fits. */
static void unfit(const char *name, Bytes table, uint64_t start, Bytes reading, Bytes fits)
{
    spell(name, table, start, reading, 1024, REFUSED(12, 0), empty);
    spell(name, table, start, reading, 0, REFUSED(12, 0), empty);
    tokens(name, table, start, reading, 1024, REFUSED(12, 0), empty);
    tokens(name, table, start, reading, 0, REFUSED(12, 0), empty);
    compare(name, table, start, reading, fits, REFUSED(12, 0));
    compare(name, table, start, fits, reading, REFUSED(12, 1));
    compare(name, table, start, reading, reading, REFUSED(12, 0));
}

/*
 * A reading that fits, with each byte but the argument of a Byte changed to every other value; cut at each of its bytes; and with up to four bytes
 * more. None of these fits.
 */
static void damaged(const char *name, Bytes table, uint64_t start, Bytes reading)
{
    uint8_t bytes[256];
    memcpy(bytes, reading.at, reading.length);
    compare(name, table, start, reading, (Bytes){bytes, reading.length}, 0);
    for (size_t i = 0; i < reading.length; i++)
        for (int more = 1; more < 256 && !(i % TRACE_READING_RECORD == 1 && bytes[i - 1] == 1); more++) {
            bytes[i] = (uint8_t)(reading.at[i] + more);
            unfit(name, table, start, (Bytes){bytes, reading.length}, reading);
            bytes[i] = reading.at[i];
        }
    for (size_t i = 0; i < reading.length; i++)
        unfit(name, table, start, (Bytes){bytes, i}, reading);
    for (size_t i = 0; i < TRACE_READING_RECORD; i++) {
        bytes[reading.length + i] = reading.at[reading.length - TRACE_READING_RECORD + i];
        unfit(name, table, start, (Bytes){bytes, reading.length + i + 1}, reading);
    }
}

/* A table that is written must pass the check with as many records. */
static void compile(const char *name, Bytes text, size_t room, uint64_t want, Bytes front)
{
    uint8_t out[2048];
    memset(out, 0xee, sizeof out);
    expect(name, trace_compile(text.at, text.length, out, room), want);
    expect_buffer(name, out, sizeof out, front);
    if (!trace_is_refused(want))
        expect(name, trace_check(out, TRACE_TABLE_RECORD * want), want);
}

/* A text and its table: buffers of exactly its length, one byte longer, as long as any, one byte shorter, and of none. */
static void table_of(Bytes text, Bytes table)
{
    char name[32];
    uint64_t records = table.length / TRACE_TABLE_RECORD;
    snprintf(name, sizeof name, "%.*s", (int)text.length, (const char *)text.at);
    compile(name, text, table.length, records, table);
    compile(name, text, table.length + 1, records, table);
    compile(name, text, TRACE_MAX_TABLE, records, table);
    compile(name, text, table.length - 1, REFUSED(11, table.length), empty);
    compile(name, text, 0, REFUSED(11, table.length), empty);
    expect(name, trace_compile(text.at, text.length, NULL, 0), REFUSED(11, table.length));
}

#define TEXT(string) ((Bytes){(const uint8_t *)(string), sizeof(string) - 1})

/* Texts outside the notation, parted by blanks. */
static void outside(const char *texts)
{
    for (const char *at = texts; *at; at += *at == ' ') {
        Bytes text = {(const uint8_t *)at, strcspn(at, " ")};
        char name[32];
        snprintf(name, sizeof name, "%.*s", (int)text.length, at);
        compile(name, text, TRACE_MAX_TABLE, REFUSED(15, 0), empty);
        compile(name, text, 0, REFUSED(15, 0), empty);
        at += text.length;
    }
}

typedef struct { const trace_pair *at; size_t count; } Pairs;
#define PAIRS(...) ((Pairs){(const trace_pair[]){__VA_ARGS__}, sizeof((const trace_pair[]){__VA_ARGS__}) / sizeof(trace_pair)})
static const trace_pair no_pair[1];
static const Pairs no_pairs = {no_pair, 0};

static void order(const char *name, Bytes tokens, Pairs pairs, uint64_t want)
{
    expect(name, trace_order(tokens.at, tokens.length, pairs.at, pairs.count), want);
}

/* Tokens by their names alone. Offsets and lengths are other names of the pairs below, so that none is taken for a name. */
static void named(const char *name, Bytes names, Pairs pairs, uint64_t want)
{
    uint8_t tokens[3 * 16];
    for (size_t i = 0; i < names.length; i++)
        tokens[3 * i] = names.at[i], tokens[3 * i + 1] = (uint8_t)(8 + i % 2), tokens[3 * i + 2] = (uint8_t)(9 - i % 2);
    order(name, (Bytes){tokens, 3 * names.length}, pairs, want);
}

/* Read, then the tokens of what it wrote. */
static void cut(const char *name, Bytes table, uint64_t start, Bytes line, uint64_t want, Bytes front)
{
    uint8_t work[1024], reading[1024];
    uint64_t records = trace_read(table.at, table.length, start, line.at, line.length, work, sizeof work, reading, sizeof reading);
    tokens(name, table, start, (Bytes){reading, trace_is_refused(records) ? 0 : TRACE_READING_RECORD * records}, 1024, want, front);
}

/* Over 2^32 tokens: the result is no longer below 2^32. They are zeros that take no memory; where there is no room for their addresses, nothing
   is asked. */
static void very_many_tokens(Pairs pairs)
{
    size_t count = ((size_t)1 << 32) + 2, length = 3 * count;
    void *zeros = mmap(NULL, length, PROT_READ, MAP_PRIVATE | MAP_ANONYMOUS | MAP_NORESERVE, -1, 0);
    if (zeros == MAP_FAILED)
        return;
    order("over 2^32 tokens", (Bytes){zeros, length}, pairs, count);
    order("over 2^32 tokens, the first breaks", (Bytes){zeros, length}, PAIRS({0, 0}), 0);
    order("over 2^32 tokens, one byte less", (Bytes){zeros, length - 1}, pairs, REFUSED(18, 0));
    munmap(zeros, length);
}

/* A table and a start number. */
typedef struct { Bytes table; uint64_t start; } Rules;

/* Those of a text; the table is written to a buffer of TRACE_MAX_TABLE bytes. A text that is refused gives an empty one. */
static Rules compiled(Bytes text, uint8_t *table)
{
    uint64_t records = trace_compile(text.at, text.length, table, TRACE_MAX_TABLE);
    return (Rules){{table, trace_is_refused(records) ? 0 : TRACE_TABLE_RECORD * records}, records - 1};
}

/* Compile, Read, the tokens of what it wrote, and their order. */
static void ordered(const char *name, Bytes text, Bytes line, Bytes list, Pairs pairs, uint64_t want)
{
    static uint8_t table[TRACE_MAX_TABLE], work[20000], reading[4000];
    Rules made = compiled(text, table);
    uint64_t written = trace_read(made.table.at, made.table.length, made.start, line.at, line.length, work, sizeof work, reading, sizeof reading);
    Bytes front = {reading, trace_is_refused(written) ? 0 : TRACE_READING_RECORD * written};
    tokens(name, made.table, made.start, front, list.length, list.length / TRACE_TOKEN, list);
    order(name, list, pairs, want);
}

/* Tables and start numbers that are refused, each with its refusal. The table of the last ones has two records. */
static void each_wrong(void (*put)(const char *, Bytes, uint64_t, uint64_t))
{
    static const uint8_t zeros[1024];
    Bytes two = BYTES(2, 0, 255, 0, 5, 0, 0, 0);
    put("no byte", empty, 0, REFUSED(1, 0));
    put("null", (Bytes){NULL, 0}, 0, REFUSED(1, 0));
    put("3 bytes", BYTES(1, 0, 0), 0, REFUSED(1, 0));
    put("1,021 bytes", (Bytes){zeros, 1021}, 0, REFUSED(1, 0));
    put("1,024 bytes", (Bytes){zeros, 1024}, 0, REFUSED(1, 0));
    put("a kind above 6", BYTES(1, 0, 0, 0, 7, 0, 0, 0), 0, REFUSED(2, 1));
    put("an unused field", BYTES(1, 1, 0, 0), 0, REFUSED(3, 0));
    put("bounds", BYTES(2, 5, 4, 0), 0, REFUSED(4, 0));
    put("a child that is not below", BYTES(5, 0, 0, 0), 0, REFUSED(5, 0));
    put("a child that is named twice", BYTES(1, 0, 0, 0, 3, 0, 0, 0), 0, REFUSED(6, 1));
    put("2 before 9", BYTES(7, 0, 0, 0), 1, REFUSED(2, 0));
    put("start m", two, 2, REFUSED(9, 0));
    put("start 2^32 + 1", two, (1ULL << 32) + 1, REFUSED(9, 0));
    put("the largest start", two, UINT64_MAX, REFUSED(9, 0));
}

/* A table of one letter: bytes that it holds, each as a line and as a reading, bytes that it does not hold, and the empty line. */
static void letter(const char *name, Bytes table, Bytes held, Bytes missed)
{
    expect(name, trace_check(table.at, table.length), 1);
    read(name, table, 0, empty, 1, 4, REFUSED(8, 0), empty, 0);
    for (size_t i = 0; i < held.length; i++) {
        Bytes line = BYTES(held.at[i]), reading = BYTES(R(1, held.at[i], 1, 0));
        read(name, table, 0, line, 3, 4, 1, reading, 0);
        spell(name, table, 0, reading, 1, 1, line);
    }
    for (size_t i = 0; i < missed.length; i++) {
        read(name, table, 0, BYTES(missed.at[i]), 3, 4, REFUSED(8, 0), empty, 0);
        spell(name, table, 0, BYTES(R(1, missed.at[i], 1, 0)), 1, REFUSED(12, 0), empty);
    }
}

/* A live line between bytes of its own, all of them one pattern before it is made. */
typedef struct { uint8_t ahead[16]; trace_live line; uint8_t behind[16]; } Fenced;
static Fenced fenced;

static void fence(uint8_t pattern)
{
    memset(&fenced, pattern, sizeof fenced);
    memset(fenced.ahead, 0xcc, sizeof fenced.ahead);
    memset(fenced.behind, 0xcc, sizeof fenced.behind);
}

static void wrong_line(const char *name, const char *what)
{
    printf("edges: %s: %s\n", name, what);
    exit(1);
}

/* The live line has these fields, and the bytes beside it are kept. */
static void expect_line(const char *name, const trace_live *want)
{
    const trace_live *line = &fenced.line;
    if (memcmp(line->table, want->table, sizeof want->table) != 0)
        wrong_line(name, "another table");
    if (line->table_len != want->table_len || line->start != want->start || line->count != want->count)
        wrong_line(name, "another table_len, start or count");
    if (memcmp(line->bytes, want->bytes, sizeof want->bytes) != 0)
        wrong_line(name, "other bytes");
    for (size_t i = 0; i < sizeof fenced.ahead; i++)
        if (fenced.ahead[i] != 0xcc || fenced.behind[i] != 0xcc)
            wrong_line(name, "a byte beside the live line");
}

/* A live line made over each of three patterns: one that is refused is that of one Nothing record. */
static void make(const char *name, Bytes table, uint64_t start, uint64_t want)
{
    static const uint8_t patterns[] = {0x00, 0xa5, 0xff};
    trace_live line;
    memset(&line, 0, sizeof line);
    if (trace_is_refused(want)) {
        line.table_len = TRACE_TABLE_RECORD;
    } else {
        memcpy(line.table, table.at, table.length);
        line.table_len = table.length;
        line.start = start;
    }
    for (size_t i = 0; i < sizeof patterns; i++) {
        fence(patterns[i]);
        expect(name, trace_live_new(&fenced.line, table.at, table.length, start), want);
        expect_line(name, &line);
    }
}

/* Add, or Take back where the key is this one. */
enum { BACK = -1 };
static uint8_t live_work[9000000];

static uint64_t press(int key, uint8_t *work, size_t room)
{
    return key == BACK ? trace_live_take_back(&fenced.line, work, room) : trace_live_add(&fenced.line, (uint8_t)key, work, room);
}

/* One call on the live line. A refusal leaves every byte of it, and the work area; a call that is taken changes one byte and the count. */
static void live(const char *name, int key, size_t room, uint64_t want)
{
    trace_live line = fenced.line;
    uint8_t before[sizeof fenced];
    int refused = trace_is_refused(want);
    memcpy(before, &fenced, sizeof fenced);
    memset(live_work, 0xdd, room + 64);
    expect(name, press(key, live_work, room), want);
    if (refused && memcmp(before, &fenced, sizeof fenced) != 0)
        wrong_line(name, "a refusal that changes the live line");
    if (!refused && key == BACK)
        line.bytes[--line.count] = 0;
    else if (!refused)
        line.bytes[line.count++] = (uint8_t)key;
    expect_line(name, &line);
    expect_left(name, "work area", live_work, refused ? 0 : room, room + 64);
}

/* A live line filled by hand; its spare bytes are a pattern. */
static void fill(Bytes table, uint64_t start, size_t count, uint8_t byte)
{
    fence(0x5e);
    memcpy(fenced.line.table, table.at, table.length);
    fenced.line.table_len = table.length;
    fenced.line.start = start;
    memset(fenced.line.bytes, byte, count < TRACE_MAX_LINE ? count : TRACE_MAX_LINE);
    fenced.line.count = count;
}

/* The work area for the bytes after the call, which is taken with exactly that, and refused with less. */
static void taken(const char *name, int key, uint64_t want)
{
    size_t records = fenced.line.table_len / TRACE_TABLE_RECORD, need = trace_work_size(records, fenced.line.count + (key == BACK ? (size_t)-1 : 1));
    live(name, key, need - 1, REFUSED(10, 0));
    live(name, key, 0, REFUSED(10, 0));
    live(name, key, need, want);
}

/* Both calls, with several work areas, on a live line that is refused whatever the call. */
static void turned_away(const char *name, uint64_t want)
{
    static const size_t rooms[] = {0, 1, 1000, 400000};
    for (size_t i = 0; i < sizeof rooms / sizeof *rooms; i++) {
        live(name, 'a', rooms[i], want);
        live(name, BACK, rooms[i], want);
    }
    expect(name, trace_live_add(&fenced.line, 0, NULL, 0), want);
    expect(name, trace_live_take_back(&fenced.line, NULL, 0), want);
}

/* Types the keys, where < is Take back, on a fresh line; behind each key the answer is a digit, or - for 19. */
static void type(const char *name, Bytes table, uint64_t start, const char *keys, const char *answers)
{
    make(name, table, start, table.length / TRACE_TABLE_RECORD);
    for (size_t i = 0; keys[i]; i++) {
        int key = keys[i] == '<' ? BACK : (uint8_t)keys[i];
        if (answers[i] == '-')
            live(name, key, 0, REFUSED(19, 0));
        else
            taken(name, key, (uint64_t)(answers[i] - '0'));
    }
}

/* Where the fields stand: by the compiler, and by the bytes that the library writes. */
static void live_layout(Bytes table, uint64_t start)
{
    static const size_t places[] = {0, 1024, 1032, 1040, 1296, 1304};
    const uint8_t *raw = (const uint8_t *)&fenced.line;
    uint64_t number;
    expect("the place of table", offsetof(trace_live, table), places[0]);
    expect("the place of table_len", offsetof(trace_live, table_len), places[1]);
    expect("the place of start", offsetof(trace_live, start), places[2]);
    expect("the place of bytes", offsetof(trace_live, bytes), places[3]);
    expect("the place of count", offsetof(trace_live, count), places[4]);
    expect("the size of a live line", sizeof(trace_live), places[5]);
    fence(0xff);
    trace_live_new(&fenced.line, table.at, table.length, start);
    trace_live_add(&fenced.line, 'a', live_work, sizeof live_work);
    trace_live_add(&fenced.line, 0xf1, live_work, sizeof live_work);
    expect("table in its place", memcmp(raw + places[0], table.at, table.length) == 0, 1);
    expect("0 behind the table", raw[places[0] + table.length] == 0 && raw[TRACE_MAX_TABLE - 1] == 0, 1);
    expect("table_len in its place", (memcpy(&number, raw + places[1], 8), number), table.length);
    expect("start in its place", (memcpy(&number, raw + places[2], 8), number), start);
    expect("bytes in their place", raw[places[3]] == 'a' && raw[places[3] + 1] == 0xf1 && raw[places[3] + 2] == 0 && raw[places[3] + 254] == 0, 1);
    expect("count in its place", (memcpy(&number, raw + places[4], 8), number), 2);
}

/* Live lines as they are made: accepted ones, and each refusal. */
static void live_made(Bytes t1, Bytes longest)
{
    make("T1", t1, 9, 10);
    make("T1, another start", t1, 0, 10);
    uint8_t tagged[TRACE_MAX_TABLE];
    memcpy(tagged, longest.at, sizeof tagged);
    tagged[TRACE_MAX_TABLE - 1] = 9;
    make("1,020 bytes", longest, 254, 255);
    make("1,020 bytes, the last one 9", (Bytes){tagged, sizeof tagged}, 0, 255);
    make("one record", BYTES(0, 0, 0, 9), 0, 1);
    each_wrong(make);
    /* a refused line is one of a Nothing record: it has no reading and gets none */
    live("a refused line, Take back", BACK, 0, REFUSED(19, 0));
    taken("a refused line, Add", 'a', 0);
    taken("a refused line, Take back", BACK, 0);
}

/* The facts, by each kind of record and where parts spell no line. */
static void live_facts(Bytes t1, Bytes degrees)
{
    type("29C", degrees, 3, "<29Cx<<<<<C", "-22303222-3");
    type("29C, a wrong byte first", degrees, 3, "C2<<x2C<<<", "3032000002");
    type("29C by its Star", degrees, 1, "29C<<<", "330333");
    type("29C by its letter", degrees, 0, "2<22<<", "323032");
    type("T1", t1, 9, "abcb<acb<<<<<<", "33323300033333");
    type("Empty", BYTES(1, 0, 0, 0), 0, "a<", "03");
    type("Nothing", BYTES(0, 0, 0, 0), 0, "a<", "00");
    type("an Other of no byte", BYTES(6, 0, 255, 0), 0, "a<", "00");
    type("an Other of one byte", BYTES(6, 0, 254, 0), 0, "\xff<a<", "3202");
    type("Nothing or a", BYTES(0, 0, 0, 0, 2, 'a', 'a', 0, 3, 0, 1, 0), 2, "a<b<", "3202");
    type("a or Nothing", BYTES(0, 0, 0, 0, 2, 'a', 'a', 0, 3, 1, 0, 0), 2, "a<b<", "3202");
    type("a, then Nothing", BYTES(0, 0, 0, 0, 2, 'a', 'a', 0, 4, 1, 0, 0), 2, "aa<<", "0000");
    type("a, then no byte", BYTES(6, 0, 255, 0, 2, 'a', 'a', 0, 4, 1, 0, 0), 2, "aa<<", "0000");
    type("Nothing, then a", BYTES(0, 0, 0, 0, 2, 'a', 'a', 0, 4, 0, 1, 0), 2, "a<", "00");
    type("Nothing, any number of times", BYTES(0, 0, 0, 0, 5, 0, 0, 0), 1, "a<", "03");
    type("a, then Nothing any number of times", BYTES(0, 0, 0, 0, 5, 0, 0, 0, 2, 'a', 'a', 0, 4, 2, 1, 0), 3, "aa<<", "3032");
    type("x, then Nothing or a", BYTES(2, 'x', 'x', 0, 0, 0, 0, 0, 2, 'a', 'a', 0, 3, 1, 2, 0, 4, 0, 3, 0), 4, "xa<<y<", "232202");
    type("a*, then Nothing", BYTES(2, 'a', 'a', 0, 5, 0, 0, 0, 0, 0, 0, 0, 4, 1, 2, 0), 3, "a<", "00");
    type("ab, any number of times", BYTES(2, 'a', 'a', 0, 2, 'b', 'b', 0, 4, 0, 1, 0, 5, 2, 0, 0), 3, "aba<<<b", "2323230");
    type("a, and b that nothing reaches", BYTES(2, 'a', 'a', 0, 2, 'b', 'b', 0), 0, "b<a", "023");
    type("a byte above 127", BYTES(6, 1, 254, 0, 5, 0, 0, 0), 1, "\xff<\xff\x01<", "33303");
}

/* 7 at 255 bytes and 19 at none, both before 10; then 10, at every length. */
static void live_lengths(Bytes t1, Bytes longest)
{
    Bytes any = BYTES(2, 0, 255, 0, 5, 0, 0, 0);
    make("255 bytes", any, 1, 2);
    for (int i = 0; i < 255; i++)
        taken("up to 255 bytes", i, 3);
    live("7 at 255 bytes", 0, 400000, REFUSED(7, 0));
    live("7 at 255 bytes, no work area", 'a', 0, REFUSED(7, 0));
    expect("7 at 255 bytes, null", trace_live_add(&fenced.line, 0, NULL, 0), REFUSED(7, 0));
    for (int i = 0; i < 255; i++)
        taken("down from 255 bytes", BACK, 3);
    live("19 at no byte", BACK, 400000, REFUSED(19, 0));
    live("19 at no byte, no work area", BACK, 0, REFUSED(19, 0));
    expect("19 at no byte, null", trace_live_take_back(&fenced.line, NULL, 0), REFUSED(19, 0));
    /* the largest work area, and the smallest, by 255 records */
    fill(longest, 254, 254, 'a');
    taken("255 records, 255 bytes", 'a', 0);
    live("255 records, 7", 'a', 0, REFUSED(7, 0));
    taken("255 records, 254 bytes", BACK, 0);
    fill(longest, 254, 1, 'a');
    taken("255 records, no byte", BACK, 2);
    live("255 records, 19", BACK, 0, REFUSED(19, 0));
    make("byte 0", BYTES(2, 1, 255, 0), 0, 1);
    taken("byte 0", 0, 0);
    make("byte 0 alone", BYTES(2, 0, 0, 0), 0, 1);
    taken("byte 0 alone", 0, 3);
    /* the bytes that are still needed may be more than the line has room for */
    fill(t1, 3, 0, 0);
    taken("ab, its a", 'a', 2);
    taken("ab, its b", 'b', 3);
}

/* Live lines filled by hand: every field at its edge, and the order of the refusals. */
static void live_by_hand(Bytes t1)
{
    static const size_t lengths[] = {0, 1, 2, 3, 5, 39, 41, 1019, 1021, 1024, (size_t)1 << 32, ((size_t)1 << 32) + 40, SIZE_MAX};
    static const uint64_t starts[] = {10, 11, 255, 256, 265, 1ULL << 32, (1ULL << 32) + 9, UINT64_MAX};
    static const size_t counts[] = {256, 257, 511, 512, (size_t)1 << 32, ((size_t)1 << 32) + 2, SIZE_MAX};
    static const struct { size_t at; uint8_t byte, refusal, record; } faults[] = {
        {0, 7, 2, 0}, {36, 255, 2, 9}, {38, 1, 3, 9}, {1, 98, 4, 0}, {33, 8, 5, 8}, {37, 9, 5, 9}, {30, 0, 6, 7}, {33, 6, 6, 8}};
    for (size_t i = 0; i < sizeof lengths / sizeof *lengths; i++)
        for (int all = 0; all < 2; all++) {
            fill(t1, all ? 10 : 9, all ? 256 : 2, 'a');
            fenced.line.table_len = lengths[i];
            turned_away("table_len", REFUSED(1, 0));
        }
    for (size_t i = 0; i < sizeof faults / sizeof *faults; i++)
        for (int all = 0; all < 2; all++) {
            fill(t1, all ? 10 : 9, all ? 256 : 2, 'a');
            fenced.line.table[faults[i].at] = faults[i].byte;
            turned_away("table", REFUSED(faults[i].refusal, faults[i].record));
        }
    for (size_t i = 0; i < sizeof starts / sizeof *starts; i++)
        for (int all = 0; all < 2; all++) {
            fill(t1, starts[i], all ? 256 : 2, 'a');
            turned_away("start", REFUSED(9, 0));
        }
    for (size_t i = 0; i < sizeof counts / sizeof *counts; i++) {
        fill(t1, 9, counts[i], 'a');
        turned_away("count", REFUSED(7, 0));
    }
    /* in order: the spare bytes are any, and are kept; 4 and 1,020 bytes of table; every count */
    fill(BYTES(2, 'a', 'a', 0), 0, 0, 0);
    taken("4 bytes of table", 'a', 3);
    fill(t1, 9, 0, 0);
    memset(fenced.line.table + t1.length, 0, TRACE_MAX_TABLE - t1.length);
    fenced.line.table_len = TRACE_MAX_TABLE;
    taken("1,020 bytes of table", 'a', 3);
    for (size_t count = 1; count < TRACE_MAX_LINE; count += count < 250 ? 31 : 1) {
        fill(t1, 9, count, 'a');
        taken("every count, Add", 'b', 3);
        taken("every count, Take back", BACK, 3);
        taken("every count, Take back again", BACK, 3);
    }
}

/*
 * Pages. By the letters each a is a token 1, each b a token 2, each row of d one token 3, and c is none. By one_each the class bytes are read one by
 * one, whichever they are, so that the reading shows them.
 */
static uint8_t letters_table[TRACE_MAX_TABLE];
static Rules letters, one_each;

/* The buffers that trace_page writes to, and their lengths. */
enum { WORK, READING, FIRST, SECOND, OUT, BUFFERS };
static const char *const buffers[] = {"work area", "reading", "first token buffer", "second token buffer"};
typedef struct { size_t of[BUFFERS]; } Rooms;
static const Rooms ample = {{400000, 12000, 800, 800, 2048}}, no_room;

static void page(const char *name, Rules lines, Rules runs, Bytes text, Rooms rooms, uint64_t want, Bytes front)
{
    static uint8_t lent[BUFFERS][400064];
    const size_t *of = rooms.of;
    int kept = trace_who(want) == TRACE_WHO_LINE_RULES || trace_who(want) == TRACE_WHO_PAGE_RULES || trace_refusal(want) == TRACE_REFUSED_LINES;
    for (int i = 0; i < BUFFERS; i++)
        memset(lent[i], i == OUT ? 0xee : 0xdd, of[i] + 64);
    expect(name,
           trace_page(lines.table.at, lines.table.length, lines.start, runs.table.at, runs.table.length, runs.start, text.at, text.length, lent[WORK],
                      of[WORK], lent[READING], of[READING], lent[FIRST], of[FIRST], lent[SECOND], of[SECOND], lent[OUT], of[OUT]),
           want);
    expect_buffer(name, lent[OUT], of[OUT] + 64, front);
    for (int i = 0; i < OUT; i++)
        expect_left(name, buffers[i], lent[i], kept ? 0 : of[i], of[i] + 64);
}

/* The same by the letters and one_each. */
static void letter_page(const char *name, Bytes text, Rooms rooms, uint64_t want, Bytes front)
{
    page(name, letters, one_each, text, rooms, want, front);
}

/* What a page needs of a buffer, and the number with which it is refused by less. */
typedef struct { size_t room; uint64_t refused; } Need;

static void more(Need *need, size_t room, uint64_t refused)
{
    if (room > need->room)
        *need = (Need){room, refused};
}

/* What each line of a page needs of the buffers, and its class bytes of the work area. Each line must have a reading. */
static void find_needs(Rules lines, Rules runs, Bytes text, size_t classes, Need *needs)
{
    static uint8_t work[400000], reading[20000], tokens[765];
    size_t number = 0;
    for (size_t at = 0, end; at < text.length; at = end + 1, number++) {
        for (end = at; end < text.length && text.at[end] != '\n'; end++)
            ;
        Bytes table = lines.table;
        uint64_t records = trace_read(table.at, table.length, lines.start, text.at + at, end - at, work, sizeof work, reading, sizeof reading);
        uint64_t count = trace_tokens(table.at, table.length, lines.start, reading, TRACE_READING_RECORD * records, tokens, sizeof tokens);
        more(&needs[WORK], trace_work_size(table.length / TRACE_TABLE_RECORD, end - at), NAMED(TRACE_WHO_LINE, 10, number));
        more(&needs[READING], TRACE_READING_RECORD * records, NAMED(TRACE_WHO_LINE, 11, number));
        more(&needs[number % 2 ? SECOND : FIRST], TRACE_TOKEN * count, NAMED(TRACE_WHO_LINE, 11, number));
    }
    more(&needs[WORK], trace_work_size(runs.table.length / TRACE_TABLE_RECORD, classes), REFUSED(10, 0));
}

/* A page that is read: in buffers of exactly the sizes that it needs, and with each of them one byte shorter, and of none. */
static void read_page(const char *name, Rules lines, Rules runs, Bytes text, size_t classes, Bytes front)
{
    Need needs[BUFFERS] = {{0, 0}};
    Rooms exact;
    find_needs(lines, runs, text, classes, needs);
    needs[OUT] = (Need){front.length, REFUSED(11, front.length)};
    for (int i = 0; i < BUFFERS; i++)
        exact.of[i] = needs[i].room;
    page(name, lines, runs, text, exact, front.length / TRACE_READING_RECORD, front);
    page(name, lines, runs, text, ample, front.length / TRACE_READING_RECORD, front);
    for (int i = 0; i < BUFFERS; i++) {
        Rooms shorter = exact;
        if (needs[i].room == 0)
            continue;
        shorter.of[i] = needs[i].room - 1;
        page(name, lines, runs, text, shorter, needs[i].refused, empty);
    }
}

/* The reading of class bytes by one_each. */
static Bytes each_class(Bytes classes)
{
    static uint8_t reading[TRACE_READING_RECORD * (1 + TRACE_MAX_LINES)];
    memcpy(reading, BYTES(R(5, (uint8_t)classes.length, (uint8_t)classes.length, 1)).at, TRACE_READING_RECORD);
    for (size_t i = 0; i < classes.length; i++)
        memcpy(reading + TRACE_READING_RECORD * (i + 1), BYTES(R(1, classes.at[i], 1, 0)).at, TRACE_READING_RECORD);
    return (Bytes){reading, TRACE_READING_RECORD * (1 + classes.length)};
}

/* A page by the letters, and its class bytes. */
static void classes_of(const char *name, Bytes text, Bytes classes)
{
    read_page(name, letters, one_each, text, classes.length, each_class(classes));
}

/* Each form of a page and of its lines, and the class bytes. Which lines are alike stands here and in page_texts. */
static void page_classes(void)
{
    classes_of("no byte", empty, empty);
    classes_of("a lone byte 10", TEXT("\n"), BYTES(0));
    classes_of("two bytes 10", TEXT("\n\n"), BYTES(0));
    classes_of("a line without its byte 10", TEXT("a"), BYTES(1));
    classes_of("a line with its byte 10", TEXT("a\n"), BYTES(1));
    classes_of("an empty line behind one", TEXT("a\n\n"), BYTES(1, 0));
    classes_of("an empty line ahead of one", TEXT("\na"), BYTES(0, 1));
    classes_of("an empty line between two", TEXT("a\n\na"), BYTES(1, 0, 1));
    classes_of("two alike", TEXT("a\na"), BYTES(1));
    classes_of("two alike, a closing byte 10", TEXT("a\na\n"), BYTES(1));
    classes_of("two that are not", TEXT("a\nb"), BYTES(1, 2));
    classes_of("alike with one between", TEXT("a\nb\na"), BYTES(1, 2, 1));
    classes_of("runs", TEXT("a\na\na\nb\nb\na\na"), BYTES(1, 2, 1));
    classes_of("the names in another order", TEXT("ab\nba"), BYTES(1, 2));
    classes_of("the names in another order behind the first", TEXT("abd\nadb"), BYTES(1, 1));
    classes_of("one name more", TEXT("a\nab"), BYTES(1, 1));
    classes_of("one name less", TEXT("ab\na"), BYTES(1, 1));
    classes_of("the same name once more", TEXT("a\naa\na"), BYTES(1, 1, 1));
    classes_of("the last name another", TEXT("aab\naad"), BYTES(1, 1));
    classes_of("the first name another", TEXT("abb\nbbb"), BYTES(1, 2));
    classes_of("other offsets", TEXT("ab\ncab\nccacbc"), BYTES(1));
    classes_of("other lengths", TEXT("d\ndd\nddd"), BYTES(3, 3, 3));
    classes_of("other lengths and offsets", TEXT("da\nddca"), BYTES(3, 3));
    classes_of("no token", TEXT("c"), BYTES(0));
    classes_of("no token, and no byte", TEXT("c\n\ncc\n"), BYTES(0));
    classes_of("no token between", TEXT("a\nc\na"), BYTES(1, 0, 1));
    classes_of("tokens between", TEXT("c\na\nc"), BYTES(0, 1, 0));
    /* the token buffers: lines with tokens only in even places, only in odd ones, and longer lists in each of them */
    classes_of("tokens in even lines alone", TEXT("aa\n\nbb\nc"), BYTES(1, 0, 2, 0));
    classes_of("tokens in odd lines alone", TEXT("\naa\nc\nbb"), BYTES(0, 1, 0, 2));
    classes_of("longer lists in even lines", TEXT("aab\na\nbba\nb"), BYTES(1, 1, 2, 2));
    classes_of("longer lists in odd lines", TEXT("a\naab\nb\nbba"), BYTES(1, 1, 2, 2));
    /* three lines of which the first and the third share a buffer */
    classes_of("the third as the first", TEXT("ab\nb\nab\nab"), BYTES(1, 2, 1));
    classes_of("the third as the second", TEXT("ab\nb\nb"), BYTES(1, 2));
}

/* Two lines with these classes, each twice and in both orders, that are alike or not. */
static void two_lines(const char *name, Rules lines, Bytes one, Bytes two, uint8_t first, uint8_t second, int alike)
{
    uint8_t text[5 * (TRACE_MAX_LINE + 1)], classes[] = {first, second, first};
    Bytes parts[] = {one, one, two, two, one};
    size_t length = 0;
    for (size_t i = 0; i < sizeof parts / sizeof *parts; i++) {
        memcpy(text + length, parts[i].at, parts[i].length), length += parts[i].length;
        text[length++] = '\n';
    }
    Bytes want = {classes, alike ? 1 : 3};
    read_page(name, lines, one_each, (Bytes){text, length}, want.length, each_class(want));
}

/* Texts: lines whose names are the same, and others with the same texts. */
static void page_texts(void)
{
    static uint8_t table[TRACE_MAX_TABLE], one_table[TRACE_MAX_TABLE];
    static const struct { const char *name, *one, *two; int alike; } cases[] = {
        {"29 and 31", "29", "31", 0},
        {"29 and 290", "29", "290", 0},
        {"29 and 129", "29", "129", 0},
        {"the same text", "29", "29", 1},
        {"the same text at another offset", "29", "--29", 1},
        {"the same text, more behind it", "29", "29--", 1},
        {"the same texts at other offsets", "1+2", "-1--2-", 1},
        {"other bytes outside the tokens", "1+2", "1-2", 1},
        {"no token, other bytes", "+", "--", 1},
        {"the second text another", "1+2", "1+3", 0},
        {"the first text another", "1+2", "3+2", 0},
        {"the text between another", "1+2+3", "1+4+3", 0},
        {"the third text another", "1+2+3", "1+2+4", 0},
        {"the texts in another order", "1+2", "2+1", 0},
        {"the bytes of a text in another order", "12", "21", 0},
        {"the texts one behind the other the same", "12+3", "1+23", 0},
        {"one token more with the same bytes", "12", "1+2", 0},
        {"the first byte another", "123", "423", 0},
        {"the byte inside another", "123", "143", 0},
        {"the last byte another", "123", "124", 0},
        {"other lengths, each text in the other", "1+11", "11+1", 0},
        {"the same texts in another order at other offsets", "+29+31", "31+29", 0},
        {"a text of which the other has a byte more at an earlier offset", "-12", "123", 0},
    };
    Rules lines = compiled(TEXT("(([0-9][0-9]*)#001|+|-)*"), table);
    for (size_t i = 0; i < sizeof cases / sizeof *cases; i++) {
        Bytes one = {(const uint8_t *)cases[i].one, strlen(cases[i].one)}, two = {(const uint8_t *)cases[i].two, strlen(cases[i].two)};
        uint8_t class = strpbrk(cases[i].one, "123456789") ? 1 : 0;
        two_lines(cases[i].name, lines, one, two, class, class, cases[i].alike);
    }
    /* one text by two names: behind a + it has the other; names that differ in the highest bit; the second token alone */
    lines = compiled(TEXT("(([0-9])#001|+([0-9])#002|-([0-9])#129)*"), table);
    two_lines("the same text, another name", lines, TEXT("1"), TEXT("+1"), 1, 2, 0);
    two_lines("the same text, a name with another highest bit", lines, TEXT("1"), TEXT("-1"), 1, 129, 0);
    two_lines("the same texts, the second name another", lines, TEXT("12"), TEXT("1+2"), 1, 1, 0);

    /* a line is one token: every byte against others, and every length with another byte at each end and inside */
    Rules whole = compiled(TEXT("[\0-\xff]*#007"), one_table);
    for (int c = 0; c < 256; c++) {
        uint8_t byte = (uint8_t)c, others[] = {(uint8_t)(c ^ 128), (uint8_t)(c + 1), 0, 255};
        for (size_t i = 0; i < sizeof others && c != '\n'; i++)
            if (others[i] != '\n')
                two_lines("two bytes", whole, BYTES('a', byte, 'a'), BYTES('a', others[i], 'a'), 7, 7, byte == others[i]);
        if (c != '\n')
            two_lines("the byte behind one", whole, BYTES(byte, 'a'), BYTES(byte, 'b'), 7, 7, 0);
    }
    for (size_t length = 1; length <= TRACE_MAX_LINE; length += length < 250 ? 83 : 1) {
        uint8_t one[TRACE_MAX_LINE], two[TRACE_MAX_LINE];
        memset(one, 'a', sizeof one);
        two_lines("the same long text", whole, (Bytes){one, length}, (Bytes){one, length}, 7, 7, 1);
        if (length > 1)
            two_lines("a byte less", whole, (Bytes){one, length}, (Bytes){one, length - 1}, 7, 7, 0);
        for (size_t i = 0; i < 3; i++) {
            memcpy(two, one, sizeof two);
            two[i * (length - 1) / 2] = 'b';
            two_lines("one byte of a long text another", whole, (Bytes){one, length}, (Bytes){two, length}, 7, 7, 0);
        }
    }
}

/* The tokens of the page's own reading, and page rules that choose: the worked example of docs/FORMATS.md. */
static void page_worked(void)
{
    static uint8_t line_table[TRACE_MAX_TABLE], page_table[TRACE_MAX_TABLE];
    Rules lines = compiled(TEXT("[0-9][0-9]:[0-9][0-9] ((lift)#108|(brake)#098) ([0-9][0-9]*)#116"), line_table);
    Rules runs = compiled(TEXT("l*#001b#002"), page_table);
    Bytes lap = TEXT("12:04 lift 29\n12:05 lift 31\n12:06 lift 31\n12:07 brake 104\n");
    Bytes reading = BYTES(R(4, 0, 3, 3), R(5, 2, 2, 1), R(1, 'l', 1, 0), R(1, 'l', 1, 0), R(1, 'b', 1, 2));
    expect("the lap, its line rules", lines.table.length, 144);
    expect("the lap, its page rules", runs.table.length, 16);
    read_page("the lap", lines, runs, lap, 3, reading);
    tokens("the lap", runs.table, runs.start, reading, 6, 2, BYTES(1, 0, 2, 2, 2, 1));
    page("the lap, line 1 by 8", lines, runs, TEXT("12:04 lift 29\n12:05 lift\n12:06 lift 31\n12:07 brake 104\n"), ample, NAMED(3, 8, 1), empty);
    page("the lap without a brake", lines, runs, TEXT("12:04 lift 29\n12:05 lift 31\n12:06 lift 31\n"), ample, REFUSED(8, 0), empty);
    page("the lap, no room for its reading", lines, runs, lap, (Rooms){{400000, 12000, 800, 800, 19}}, REFUSED(11, 20), empty);
    page("the lap without a line", lines, runs, empty, ample, REFUSED(8, 0), empty);
    page("no line, and page rules for it", lines, (Rules){runs.table, 1}, empty, ample, 1, BYTES(R(5, 0, 0, 1)));
}

/* So many lines, each a, or a and b by turns, all with a byte 10 or the last without one. */
static Bytes many_lines(size_t count, int by_turns, int closed)
{
    static uint8_t text[2000];
    for (size_t i = 0; i < count; i++)
        text[2 * i] = by_turns && i % 2 ? 'b' : 'a', text[2 * i + 1] = '\n';
    return (Bytes){text, 2 * count - (closed ? 0 : 1)};
}

/* 20 at 256 lines, and class bytes up to 255. */
static void page_counts(void)
{
    uint8_t classes[TRACE_MAX_LINES], nothing[70000];
    for (size_t i = 0; i < sizeof classes; i++)
        classes[i] = (uint8_t)(1 + i % 2);
    memset(nothing, '\n', sizeof nothing);
    for (int closed = 0; closed < 2; closed++) {
        for (size_t count = 1; count <= TRACE_MAX_LINES; count += count < 250 ? 83 : 1) {
            classes_of("so many lines", many_lines(count, 1, closed), (Bytes){classes, count});
            classes_of("so many lines that are alike", many_lines(count, 0, closed), BYTES(1));
        }
        for (size_t count = TRACE_MAX_LINES + 1; count < TRACE_MAX_LINES + 4; count++) {
            letter_page("256 lines and more", many_lines(count, 1, closed), ample, REFUSED(20, 0), empty);
            letter_page("256 lines and more that are alike", many_lines(count, 0, closed), ample, REFUSED(20, 0), empty);
            letter_page("256 lines and more, no buffer", many_lines(count, 1, closed), no_room, REFUSED(20, 0), empty);
        }
    }
    classes_of("255 empty lines", (Bytes){nothing, 255}, BYTES(0));
    letter_page("256 empty lines", (Bytes){nothing, 256}, ample, REFUSED(20, 0), empty);
    letter_page("512 empty lines", (Bytes){nothing, 512}, ample, REFUSED(20, 0), empty);
    letter_page("65,536 empty lines", (Bytes){nothing, 65536}, ample, REFUSED(20, 0), empty);
    letter_page("70,000 empty lines", (Bytes){nothing, sizeof nothing}, no_room, REFUSED(20, 0), empty);
    nothing[255] = 'a';
    letter_page("255 empty lines, and one more", (Bytes){nothing, 256}, ample, REFUSED(20, 0), empty);
    nothing[254] = 'a', nothing[255] = '\n';
    classes_of("254 empty lines, and one more", (Bytes){nothing, 256}, BYTES(0, 1));
}

/* 7 at a line of 256 bytes, wherever it stands; and pages of 255 lines of 255 bytes. */
static void page_long_lines(void)
{
    static uint8_t text[256 * 255];
    memset(text, 'c', sizeof text);
    for (size_t line = 0; line < 3; line++)
        for (size_t length = 255; length < 258; length++) {
            Bytes whole = {text, line * 2 + length};
            for (size_t i = 0; i < line; i++)
                text[2 * i + 1] = '\n';
            if (length == 255)
                classes_of("a line of 255 bytes", whole, BYTES(0));
            else
                letter_page("a line of 256 bytes and more", whole, ample, NAMED(TRACE_WHO_LINE, 7, line), empty);
            letter_page("a long line, no buffer", whole, no_room, NAMED(TRACE_WHO_LINE, line == 0 && length > 255 ? 7 : 10, 0), empty);
            memset(text, 'c', 8);
        }
    letter_page("65,280 bytes in one line", (Bytes){text, sizeof text}, ample, NAMED(TRACE_WHO_LINE, 7, 0), empty);
    for (size_t line = 0; line < 255; line++)
        text[256 * line + 254] = line % 2 ? 'b' : 'a', text[256 * line + 255] = '\n';
    uint8_t classes[255];
    for (size_t line = 0; line < 255; line++)
        classes[line] = (uint8_t)(1 + line % 2);
    classes_of("255 lines of 255 bytes", (Bytes){text, sizeof text}, (Bytes){classes, 255});
    classes_of("255 lines of 255 bytes, the last without its byte 10", (Bytes){text, sizeof text - 1}, (Bytes){classes, 255});
}

/* Rules that are refused, before all that comes behind them: other rules, 256 lines, and every buffer. */
static void before_the_rest(const char *name, Rules lines, Rules runs, uint64_t want)
{
    page(name, lines, runs, TEXT("a\nb"), ample, want, empty);
    page(name, lines, runs, TEXT("x"), no_room, want, empty);
    page(name, lines, runs, many_lines(256, 1, 1), ample, want, empty);
    page(name, lines, runs, empty, no_room, want, empty);
    page(name, lines, runs, (Bytes){NULL, 0}, ample, want, empty);
}

static void wrong_line_rules(const char *name, Bytes table, uint64_t start, uint64_t want)
{
    Rules wrong = {table, start};
    want |= NAMED(TRACE_WHO_LINE_RULES, 0, 0);
    before_the_rest(name, wrong, one_each, want);
    before_the_rest(name, wrong, (Rules){BYTES(7, 0, 0, 0), 0}, want);
    before_the_rest(name, wrong, (Rules){one_each.table, 2}, want);
    before_the_rest(name, wrong, (Rules){{NULL, 0}, 0}, want);
}

static void wrong_page_rules(const char *name, Bytes table, uint64_t start, uint64_t want)
{
    before_the_rest(name, letters, (Rules){table, start}, want | NAMED(TRACE_WHO_PAGE_RULES, 0, 0));
}

/* The refusals in their order. */
static void page_order(void)
{
    each_wrong(wrong_line_rules);
    each_wrong(wrong_page_rules);

    /* 20 before the lines, whatever they are */
    uint8_t text[1024];
    memset(text, '\n', sizeof text);
    text[0] = 'x';
    letter_page("20 before 8 of line 0", (Bytes){text, 257}, ample, REFUSED(20, 0), empty);
    memset(text, 'a', 300);
    letter_page("20 before 7 of line 0", (Bytes){text, 600}, ample, REFUSED(20, 0), empty);
    letter_page("255 lines, 7 of line 0", (Bytes){text, 300 + 255}, ample, NAMED(TRACE_WHO_LINE, 7, 0), empty);

    /* the lines in order, each by all that it is refused by before the next is looked at */
    uint8_t over[260];
    memset(over, 'a', sizeof over);
    memcpy(over, "x\n", 2), memcpy(over + 258, "\nx", 2);
    letter_page("8 of line 0 before 7 of line 1", (Bytes){over, 258}, ample, NAMED(TRACE_WHO_LINE, 8, 0), empty);
    letter_page("7 of line 0 before 8 of line 1", (Bytes){over + 2, 258}, ample, NAMED(TRACE_WHO_LINE, 7, 0), empty);
    letter_page("8 of line 1", TEXT("a\nx"), ample, NAMED(TRACE_WHO_LINE, 8, 1), empty);
    letter_page("8 of line 2", TEXT("a\nb\nx\n"), ample, NAMED(TRACE_WHO_LINE, 8, 2), empty);
    letter_page("8 of line 1 before that of line 2", TEXT("a\nx\nx"), ample, NAMED(TRACE_WHO_LINE, 8, 1), empty);
    letter_page("a byte 13 is one of the line", TEXT("a\r\nb\r\n"), ample, NAMED(TRACE_WHO_LINE, 8, 0), empty);
    for (size_t i = 0; i < 255; i++)
        memcpy(text + 2 * i, "a\n", 2);
    text[508] = 'x';
    letter_page("8 of line 254", (Bytes){text, 510}, ample, NAMED(TRACE_WHO_LINE, 8, 254), empty);
    letter_page("8 of line 254, which is not ended", (Bytes){text, 509}, ample, NAMED(TRACE_WHO_LINE, 8, 254), empty);

    /* 7, 10, 8, 11 of the reading, 11 of the tokens: each with what comes behind it wrong too. Line 0, ab, needs these. */
    size_t records = letters.table.length / TRACE_TABLE_RECORD, two_bytes = trace_work_size(records, 2), three = trace_work_size(records, 3);
    Need need[BUFFERS] = {{0, 0}};
    find_needs(letters, one_each, TEXT("ab"), 1, need);
    size_t reading = need[READING].room;
    letter_page("10 before 8", TEXT("ax"), (Rooms){{two_bytes - 1, 0, 0, 0, 0}}, NAMED(3, 10, 0), empty);
    letter_page("8 before 11", TEXT("ax"), (Rooms){{two_bytes, 0, 0, 0, 0}}, NAMED(3, 8, 0), empty);
    letter_page("11 of the reading", TEXT("ab"), (Rooms){{two_bytes, reading - 1, 0, 0, 0}}, NAMED(3, 11, 0), empty);
    letter_page("11 of the tokens", TEXT("ab"), (Rooms){{two_bytes, reading, 5, 800, 0}}, NAMED(3, 11, 0), empty);
    letter_page("11 of the page", TEXT("ab"), (Rooms){{two_bytes, reading, 6, 0, 0}}, REFUSED(11, 8), empty);
    letter_page("11 of the page, one byte short", TEXT("ab"), (Rooms){{two_bytes, reading, 6, 0, 7}}, REFUSED(11, 8), empty);
    letter_page("11 of line 0 before 10 of line 1", TEXT("ab\nabc"), (Rooms){{two_bytes, reading, 5, 800, 0}}, NAMED(3, 11, 0), empty);
    letter_page("10 of line 1", TEXT("ab\nabc"), (Rooms){{three - 1, 800, 6, 0, 0}}, NAMED(3, 10, 1), empty);
    letter_page("11 of line 1", TEXT("ab\nabc"), (Rooms){{three, reading, 6, 6, 0}}, NAMED(3, 11, 1), empty);
    letter_page("11 of the second buffer", TEXT("ab\nabc"), (Rooms){{three, 800, 6, 5, 0}}, NAMED(3, 11, 1), empty);
    letter_page("8 of line 2, behind them", TEXT("ab\nabc\nx"), (Rooms){{three, 800, 6, 6, 0}}, NAMED(3, 8, 2), empty);

    /* 11 is judged on the line's own token buffer */
    letter_page("no first buffer, no token in even lines", TEXT("c\nab\n\nb"), (Rooms){{two_bytes, 800, 0, 6, 2048}}, 5, each_class(BYTES(0, 1, 0, 2)));
    letter_page("no second buffer, no token in odd lines", TEXT("ab\nc\nb\n"), (Rooms){{two_bytes, 800, 6, 0, 2048}}, 4, each_class(BYTES(1, 0, 2)));
    letter_page("a short first buffer", TEXT("a\nab\nab"), (Rooms){{two_bytes, 800, 3, 800, 2048}}, NAMED(3, 11, 2), empty);
    letter_page("a short second buffer", TEXT("ab\nab\nab"), (Rooms){{two_bytes, 800, 800, 5, 2048}}, NAMED(3, 11, 1), empty);
    letter_page("no second buffer, one line", TEXT("ab"), (Rooms){{two_bytes, 800, 6, 0, 2048}}, 2, each_class(BYTES(1)));

    /* the page's own: 10 by the class bytes, then 8, then 11. By 5 records one class byte needs 15 bytes, and a line of one byte by one record 3. */
    static uint8_t page_table[TRACE_MAX_TABLE];
    Rules one = {BYTES(6, 0, 0, 1), 0}, three_ones = compiled(TEXT("\x01\x01\x01"), page_table);
    page("10 of the page", one, three_ones, TEXT("a"), (Rooms){{14, 800, 3, 0, 0}}, REFUSED(10, 0), empty);
    page("8 of the page", one, three_ones, TEXT("a"), (Rooms){{15, 800, 3, 0, 0}}, REFUSED(8, 0), empty);
    page("10 of the page goes by the runs", one, three_ones, TEXT("a\na\na\na"), (Rooms){{15, 800, 3, 3, 0}}, REFUSED(8, 0), empty);
    page("10 of the page without a line", one, three_ones, empty, (Rooms){{4, 0, 0, 0, 0}}, REFUSED(10, 0), empty);
    page("8 of the page without a line", one, three_ones, empty, (Rooms){{5, 0, 0, 0, 0}}, REFUSED(8, 0), empty);
    page("11 of the page without a line", one, one_each, empty, (Rooms){{2, 0, 0, 0, 3}}, REFUSED(11, 4), empty);
    page("a page without a line, no buffer for lines", one, one_each, empty, (Rooms){{2, 0, 0, 0, 4}}, 1, BYTES(R(5, 0, 0, 1)));
    page("8 of line 1 before 8 of the page", one, three_ones, (Bytes){(const uint8_t *)"a\n\0", 3}, ample, NAMED(3, 8, 1), empty);
    page("a page by the line rules' own table", letters, letters, TEXT("c\nc"), ample, REFUSED(8, 0), empty);
    page("class bytes of 255", (Rules){BYTES(2, 'a', 'a', 255), 0}, (Rules){BYTES(2, 255, 255, 0), 0}, TEXT("a"), ample, 1, BYTES(R(1, 255, 1, 0)));
    page("start numbers inside", (Rules){letters.table, 0}, (Rules){one_each.table, 0}, TEXT("a\na"), ample, 1, BYTES(R(1, 1, 1, 0)));
    page("a start number inside, two classes", letters, (Rules){one_each.table, 0}, TEXT("a\nb"), ample, REFUSED(8, 0), empty);
}

/* Every choice of empty arguments: a null pointer with length 0 gets the answer of a valid one with length 0, and leaves the same in the buffer. */
static void page_nulls(Bytes text)
{
    static uint8_t lent[2][BUFFERS][400000], spare[1];
    for (int empties = 0; empties < 256; empties++) {
        uint64_t got[2];
        for (int null = 0; null < 2; null++) {
            uint8_t *at = null ? NULL : spare, (*to)[400000] = lent[null];
            memset(to[OUT], 0xee, 2048);
#define ARG(i, pointer, length) (empties >> (i) & 1 ? at : (pointer)), (empties >> (i) & 1 ? 0 : (length))
#define LENT(i) ARG(i, to[i], ample.of[i])
            got[null] = trace_page(ARG(5, letters.table.at, letters.table.length), letters.start, ARG(6, one_each.table.at, one_each.table.length),
                                   one_each.start, ARG(7, text.at, text.length), LENT(WORK), LENT(READING), LENT(FIRST), LENT(SECOND), LENT(OUT));
#undef LENT
#undef ARG
        }
        expect("null with length 0", got[1], got[0]);
        expect_buffer("null with length 0", lent[1][OUT], 2048, (Bytes){lent[0][OUT], 2048});
    }
}

static void pages(void)
{
    letters = compiled(TEXT("(a#001|b#002|(dd*)#003|c)*"), letters_table);
    one_each = (Rules){BYTES(2, 0, 255, 0, 5, 0, 0, 0), 1};
    page_classes();
    page_texts();
    page_worked();
    page_counts();
    page_long_lines();
    page_order();
    page_nulls(empty);
    page_nulls(TEXT("c\n\n"));
    page_nulls(TEXT("ab\nb"));
}

/* Alternatives: what is said of a record. */
static void apart(const char *name, Bytes table, uint64_t record, uint64_t want)
{
    expect(name, trace_apart(table.at, table.length, record), want);
}

/* What is said of the last bar of a text, and of that bar with its sides exchanged. */
static void apart_text(const char *text, uint64_t want)
{
    uint8_t table[TRACE_MAX_TABLE];
    Rules made = compiled((Bytes){(const uint8_t *)text, strlen(text)}, table);
    uint8_t *last = table + TRACE_TABLE_RECORD * made.start, a = last[1];
    apart(text, made.table, made.start, want);
    last[1] = last[2], last[2] = a;
    apart(text, made.table, made.start, want);
}

/* Texts whose last bar has two sides that are seen to share no line, and others. */
static void apart_texts(void)
{
    static const char *const seen[] = {
        "a|b", "lift|brake", "ab|ac", "a|()", "aa*|()", "a*|bb*", "a*b|c", "a*b|bc", "[0-9]*C|[0-9]*F", "[a-b]|[c-d]", "a*b*c|a*b*d", "(a|b)|(c|d)",
        "a*b|b*c", "(a|())b|(c|())d", "ab*|ba*", "(ab)*a|b", "(ab)*ac|(ab)*", "(a|ab)|bc", "(a#001|b#001)#002|c#001", "(a*)*|(b*)*c", "[0-9][0-9]*|-",
        "(()|a)b*c|()", "a(b|())|c(b|())", "(b|())a|(b|())c", "()()|a",
    };
    static const char *const unknown[] = {
        "a|a", "(brake)#001|([a-z]*)#002", "()|()", "a*|b*", "a*|()", "(a|())|(b|())", "a*b|b", "[a-c]|[c-d]", "[0-9]|[0-9][0-9]", "axb|ayb", "a|ab*",
        "aa|a", "ab|ab", "(ab)*a|a", "a*b*|b", "(a|b)|(b|c)", "a(b|())|ab", "(b|())a|b*a", "a()|a", "()a|a()", "(a*)*|(b*)*", "[ -~]*x|[a-z]x",
        "a|(()|a)", "()()|()*",
    };
    for (size_t i = 0; i < sizeof seen / sizeof *seen; i++)
        apart_text(seen[i], 1);
    for (size_t i = 0; i < sizeof unknown / sizeof *unknown; i++)
        apart_text(unknown[i], 0);
}

/* Every byte as the one that is shared, alone, at the start and at the end; and the bytes beside it. */
static void apart_bytes(void)
{
    for (int i = 0; i < 256; i++) {
        uint8_t c = (uint8_t)i, next = (uint8_t)(i + 1), far = (uint8_t)(i + 128);
        apart("a byte twice", BYTES(2, c, c, 0, 2, c, c, 0, 3, 0, 1, 0), 2, 0);
        apart("two bytes", BYTES(2, c, c, 0, 2, next, next, 0, 3, 0, 1, 0), 2, 1);
        apart("a byte and one with another highest bit", BYTES(2, c, c, 0, 2, far, far, 0, 3, 1, 0, 0), 2, 1);
        apart("a byte and all others", BYTES(2, c, c, 0, 6, c, c, 0, 3, 0, 1, 0), 2, 1);
        apart("a byte and all bytes", BYTES(2, c, c, 0, 2, 0, 255, 0, 3, 0, 1, 0), 2, 0);
        apart("bytes up to one, and from there", BYTES(2, 0, c, 0, 2, c, 255, 0, 3, 0, 1, 0), 2, 0);
        apart("bytes up to one, and above it", BYTES(2, 0, c, 0, 6, 0, c, 0, 3, 0, 1, 0), 2, 1);
        /* cx and cy, xc and yc, cc and c: the bytes x and y are others than c, and than each other */
        uint8_t x = (uint8_t)(i + 2);
        apart("the first byte alone", BYTES(2, c, c, 0, 2, next, next, 0, 4, 0, 1, 0, 2, c, c, 0, 2, x, x, 0, 4, 3, 4, 0, 3, 2, 5, 0), 6, 1);
        apart("the last byte alone", BYTES(2, c, c, 0, 2, next, next, 0, 4, 1, 0, 0, 2, c, c, 0, 2, x, x, 0, 4, 4, 3, 0, 3, 2, 5, 0), 6, 1);
        apart("the first byte and the last", BYTES(2, c, c, 0, 2, c, c, 0, 4, 0, 1, 0, 2, c, c, 0, 3, 2, 3, 0), 4, 0);
    }
}

/* Nothing, and Seqs with a side that spells nothing: their bytes count where the near side has them. */
static void apart_nothing(void)
{
    apart("Nothing twice", BYTES(0, 0, 0, 0, 0, 0, 0, 0, 3, 0, 1, 0), 2, 1);
    apart("Nothing and Empty", BYTES(0, 0, 0, 0, 1, 0, 0, 0, 3, 0, 1, 0), 2, 1);
    apart("Empty twice", BYTES(1, 0, 0, 0, 1, 0, 0, 0, 3, 0, 1, 0), 2, 0);
    apart("Nothing and a", BYTES(0, 0, 0, 0, 2, 'a', 'a', 0, 3, 0, 1, 0), 2, 1);
    apart("an Other of no byte, and all bytes", BYTES(6, 0, 255, 0, 2, 0, 255, 0, 3, 0, 1, 0), 2, 1);
    apart("Nothing, any number of times, and Empty", BYTES(0, 0, 0, 0, 5, 0, 0, 0, 1, 0, 0, 0, 3, 1, 2, 0), 3, 0);
    apart("an Other of no byte, any number of times, and a", BYTES(6, 0, 255, 0, 5, 0, 0, 0, 2, 'a', 'a', 0, 3, 1, 2, 0), 3, 1);
    /* the last byte of a and then Nothing is none, and so is the first one of Nothing and then a */
    apart("a, then Nothing, and a", BYTES(2, 'a', 'a', 0, 0, 0, 0, 0, 4, 0, 1, 0, 2, 'a', 'a', 0, 3, 2, 3, 0), 4, 1);
    apart("Nothing, then a, and a", BYTES(2, 'a', 'a', 0, 0, 0, 0, 0, 4, 1, 0, 0, 2, 'a', 'a', 0, 3, 2, 3, 0), 4, 1);
    apart("a, then Nothing, then a, and a",
          BYTES(2, 'a', 'a', 0, 0, 0, 0, 0, 4, 0, 1, 0, 2, 'a', 'a', 0, 4, 2, 3, 0, 2, 'a', 'a', 0, 3, 4, 5, 0), 6, 0);
    apart("a, then Nothing, then b, and a",
          BYTES(2, 'a', 'a', 0, 0, 0, 0, 0, 4, 0, 1, 0, 2, 'b', 'b', 0, 4, 2, 3, 0, 2, 'a', 'a', 0, 3, 4, 5, 0), 6, 1);
    apart("a*, then Nothing, then a*, and a",
          BYTES(2, 'a', 'a', 0, 5, 0, 0, 0, 0, 0, 0, 0, 4, 1, 2, 0, 2, 'a', 'a', 0, 5, 4, 0, 0, 4, 3, 5, 0, 2, 'a', 'a', 0, 3, 6, 7, 0), 8, 0);
}

/* Tables of 1,020 bytes. Each Or of a comb of 127 with the same letter, and with other ones; and the deepest records in an alternative. */
static void apart_longest(Bytes comb)
{
    uint8_t table[TRACE_MAX_TABLE];
    for (uint64_t k = 0; k < 255; k++)
        apart("1,020 bytes, one letter", comb, k, 0);
    memcpy(table, comb.at, sizeof table);
    for (int letters = 0; letters < 2; letters++) {
        for (size_t k = 0; k < 255; k++)
            if (table[TRACE_TABLE_RECORD * k] == TRACE_RANGE)
                table[TRACE_TABLE_RECORD * k + 1] = table[TRACE_TABLE_RECORD * k + 2] = (uint8_t)(letters ? k : 255 - k);
        for (uint64_t k = 0; k < 255; k++)
            apart("1,020 bytes, other letters", (Bytes){table, sizeof table}, k, k > 0 && k % 2 == 0);
    }
    for (size_t length = 0; length < sizeof table; length += 17)
        apart("a part of it", (Bytes){table, length}, 0, length % 4 || length == 0 ? REFUSED(1, 0) : 0);
    /* a under 252 Stars, or in the middle of 63 Seqs on each side, and one more letter */
    for (int seqs = 0; seqs < 2; seqs++)
        for (int c = 'a'; c <= 'b'; c++) {
            uint8_t *at = table;
            memcpy(at, BYTES(2, 'a', 'a', 0).at, 4), at += 4;
            for (int k = 1; k <= 252; k += seqs ? 2 : 1) {
                uint8_t star[] = {5, (uint8_t)(k - 1), 0, 0}, letter[] = {1, 0, 0, 0}, seq[] = {4, (uint8_t)(k - 1), (uint8_t)k, 0};
                if (seqs && k % 4 == 1)
                    seq[1] = (uint8_t)k, seq[2] = (uint8_t)(k - 1);
                memcpy(at, seqs ? letter : star, 4), at += 4;
                if (seqs)
                    memcpy(at, seq, 4), at += 4;
            }
            memcpy(at, BYTES(2, (uint8_t)c, (uint8_t)c, 0).at, 4), at += 4;
            memcpy(at, BYTES(3, 252, 253, 0).at, 4), at += 4;
            apart("the deepest records", (Bytes){table, sizeof table}, 254, c == 'b');
            apart("the deepest records, from below", (Bytes){table, sizeof table}, 252, 0);
            apart("1,020 bytes, 9", (Bytes){table, sizeof table}, 255, REFUSED(9, 0));
            apart("1,020 bytes, 256 more", (Bytes){table, sizeof table}, 256 + 254, REFUSED(9, 0));
        }
}

/* Refusals: 1 to 6, then 9, whatever the record is. The last record of a table, the one behind it, and numbers of which a part is a record's. */
static void apart_refused(Bytes t1)
{
    static const uint64_t outside[] = {
        10, 11, 255, 256, 256 + 7, 1ULL << 32, (1ULL << 32) + 7, (1ULL << 62) + 7, 1ULL << 63, (1ULL << 63) + 7, UINT64_MAX - 1, UINT64_MAX};
    static const struct { size_t at; uint8_t byte, refusal, record; } faults[] = {
        {0, 7, 2, 0}, {36, 255, 2, 9}, {38, 1, 3, 9}, {1, 98, 4, 0}, {33, 8, 5, 8}, {37, 9, 5, 9}, {30, 0, 6, 7}, {33, 6, 6, 8}};
    each_wrong(apart);
    for (uint64_t k = 0; k < 10; k++)
        apart("T1", t1, k, k == 7 || k == 8);
    for (size_t i = 0; i < sizeof outside / sizeof *outside; i++)
        apart("T1, 9", t1, outside[i], REFUSED(9, 0));
    for (size_t i = 0; i < sizeof faults / sizeof *faults; i++) {
        uint8_t table[40];
        memcpy(table, t1.at, sizeof table);
        table[faults[i].at] = faults[i].byte;
        for (uint64_t k = 0; k < 12; k++)
            apart("T1 with a fault", (Bytes){table, sizeof table}, k, REFUSED(faults[i].refusal, faults[i].record));
        apart("T1 with a fault, before 9", (Bytes){table, sizeof table}, 1ULL << 63, REFUSED(faults[i].refusal, faults[i].record));
    }
}

/* The table with a and b of the record exchanged. */
static Bytes exchanged(Bytes table, size_t record, uint8_t *to)
{
    memcpy(to, table.at, table.length);
    to[TRACE_TABLE_RECORD * record + 1] = table.at[TRACE_TABLE_RECORD * record + 2];
    to[TRACE_TABLE_RECORD * record + 2] = table.at[TRACE_TABLE_RECORD * record + 1];
    return (Bytes){to, table.length};
}

/* A line by two tables: Read answers the same with every work area and buffer, and what it wrote has the same tokens. */
static void same_tokens(Bytes one, Bytes two, uint64_t start, Bytes line)
{
    static uint8_t work[20000], reading[2][4000], listed[2][800];
    size_t records = one.length / TRACE_TABLE_RECORD, need = trace_work_size(records, line.length), most = trace_reading_size(records, line.length);
    for (size_t room = 0; room <= most; room++)
        for (size_t less = 0; less < 2; less++) {
            uint64_t got = trace_read(two.at, two.length, start, line.at, line.length, work, need - less, reading[1], room);
            expect("exchanged, Read", got, trace_read(one.at, one.length, start, line.at, line.length, work, need - less, reading[0], room));
            if (trace_is_refused(got))
                continue;
            Bytes list = {listed[0], sizeof listed[0]};
            uint64_t count = trace_tokens(one.at, one.length, start, reading[0], TRACE_READING_RECORD * got, listed[0], list.length);
            list.length = TRACE_TOKEN * count;
            tokens("exchanged, Tokens", two, start, (Bytes){reading[1], TRACE_READING_RECORD * got}, list.length, count, list);
        }
}

/* Every record of a rule that is seen to be apart, exchanged by itself and with those before it. The lines are parted by blanks; the first is empty. */
static void apart_exchanged(Bytes text, const char *lines)
{
    uint8_t table[TRACE_MAX_TABLE], one[TRACE_MAX_TABLE], all[TRACE_MAX_TABLE];
    Rules made = compiled(text, table);
    memcpy(all, table, made.table.length);
    for (uint64_t k = 0; k <= made.start; k++) {
        Bytes whole = {all, made.table.length};
        if (trace_apart(table, made.table.length, k) != 1)
            continue;
        Bytes by_itself = exchanged(made.table, k, one);
        expect("exchanged, Check", trace_check(one, by_itself.length), made.start + 1);
        expect("exchanged, Apart", trace_apart(one, by_itself.length, k), 1);
        all[TRACE_TABLE_RECORD * k + 1] = one[TRACE_TABLE_RECORD * k + 1], all[TRACE_TABLE_RECORD * k + 2] = one[TRACE_TABLE_RECORD * k + 2];
        for (const char *at = lines;; at++) {
            Bytes line = {(const uint8_t *)at, strcspn(at, " ")};
            for (uint64_t start = 0; start <= made.start; start++) {
                same_tokens(made.table, by_itself, start, line);
                same_tokens(made.table, whole, start, line);
            }
            at += line.length;
            if (*at == '\0')
                break;
        }
    }
}

/* The worked example of docs/FORMATS.md, and other tables with alternatives exchanged. */
static void alternatives(Bytes t1, Bytes t2, Bytes comb)
{
    apart_texts();
    apart_bytes();
    apart_nothing();
    apart_longest(comb);
    apart_refused(t1);

    uint8_t once[TRACE_MAX_TABLE], twice[TRACE_MAX_TABLE], table[TRACE_MAX_TABLE];
    for (uint64_t k = 0; k < 9; k++)
        apart("(a|())(b|ab)", t2, k, k == 2 || k == 7);
    Bytes both = exchanged(exchanged(t2, 2, once), 7, twice);
    expect("(a|())(b|ab), record 2", memcmp(twice + 8, BYTES(3, 1, 0, 0).at, 4), 0);
    expect("(a|())(b|ab), record 7", memcmp(twice + 28, BYTES(3, 6, 3, 0).at, 4), 0);
    Bytes rights = BYTES(R(4, 0, 2, 8), R(3, 0, 1, 2), R(1, 'a', 1, 0), R(3, 0, 1, 7), R(1, 'b', 1, 3));
    read("(a|())(b|ab), exchanged", both, 8, TEXT("ab"), 54, 20, 5, rights, 0);
    Rules shared = compiled(TEXT("(a)#001|[a-b]#002"), table);
    expect("(a)#001|[a-b]#002", shared.table.length == 12 && memcmp(table, BYTES(2, 'a', 'a', 1, 2, 'a', 'b', 2, 3, 0, 1, 0).at, 12) == 0, 1);
    apart("(a)#001|[a-b]#002", shared.table, 2, 0);
    cut("a, as it stands", shared.table, 2, TEXT("a"), 1, BYTES(1, 0, 1));
    cut("a, exchanged", exchanged(shared.table, 2, once), 2, TEXT("a"), 1, BYTES(2, 0, 1));

    /* the keyword and the name of docs/GUIDE.md, and there alone the tokens change */
    Rules keyword = compiled(TEXT("(brake)#001|([a-z]*)#002"), table);
    apart("a keyword and a name", keyword.table, keyword.start, 0);
    cut("brake", keyword.table, keyword.start, TEXT("brake"), 1, BYTES(1, 0, 5));
    cut("brake, exchanged", exchanged(keyword.table, keyword.start, once), keyword.start, TEXT("brake"), 1, BYTES(2, 0, 5));
    cut("brakes, exchanged", exchanged(keyword.table, keyword.start, once), keyword.start, TEXT("brakes"), 1, BYTES(2, 0, 6));

    apart_exchanged(TEXT("(a#001|(ab)#002|(bc)#003)*"), " a ab abc abcab b bc aab abbc cc");
    apart_exchanged(TEXT("((lift)#001|(lifts)#002)(s*)#003"), " lift lifts liftss lif lifsts");
    apart_exchanged(TEXT("((a|())#001(b|ab)#002)*"), " ab b aab abab babb aa a");
    apart_exchanged(TEXT("((a*b|c)#001|(d|())e#002)*(x|yy)#003"), " x abx cyy dex eabyy aab");
}

/*
 * Every choice of empty arguments, for each call but Page: a null pointer with length 0 gets the answer of a valid pointer with length 0, and the
 * buffer is left the same. The bits of `empties`: 0 the table or the tokens, 1 the line or the reading, 2 the work area or the second reading, 3
 * the buffer or the pairs. The live line is the last one that was made.
 */
static void nulls(Bytes table, uint64_t start, Bytes line, Bytes reading, Bytes rival)
{
    static uint8_t work[100], out[2][32], spare[1];
    static const uint8_t listed[] = {9, 0, 1};
    static const trace_pair pair[] = {{8, 9}};
    for (int empties = 0; empties < 16; empties++) {
        uint64_t got[2][11];
        for (int null = 0; null < 2; null++) {
            uint8_t *at = null ? NULL : spare, *to = out[null];
            memset(to, 0xee, sizeof out[null]);
#define ARG(i, pointer, length) (empties >> (i) & 1 ? at : (pointer)), (empties >> (i) & 1 ? 0 : (length))
            got[null][0] = trace_check(ARG(0, table.at, table.length));
            got[null][1] = trace_read(ARG(0, table.at, table.length), start, ARG(1, line.at, line.length), ARG(2, work, sizeof work), ARG(3, to, 32));
            got[null][2] = trace_spell(ARG(0, table.at, table.length), start, ARG(1, reading.at, reading.length), ARG(3, to, 32));
            got[null][3] = trace_compare(ARG(0, table.at, table.length), start, ARG(1, reading.at, reading.length), ARG(2, rival.at, rival.length));
            got[null][4] = trace_tokens(ARG(0, table.at, table.length), start, ARG(1, reading.at, reading.length), ARG(3, to, 32));
            got[null][5] = trace_compile(ARG(1, line.at, line.length), ARG(3, to, 32));
            got[null][6] = trace_order(ARG(0, listed, sizeof listed), empties >> 3 & 1 ? (const trace_pair *)at : pair, empties >> 3 & 1 ? 0 : 1);
            got[null][7] = trace_live_new(&fenced.line, ARG(0, table.at, table.length), start);
            got[null][8] = trace_live_add(&fenced.line, 'a', ARG(2, work, sizeof work));
            got[null][9] = trace_live_take_back(&fenced.line, ARG(2, work, sizeof work));
            got[null][10] = trace_apart(ARG(0, table.at, table.length), start);
#undef ARG
        }
        for (int call = 0; call < 11; call++)
            expect("null with length 0", got[1][call], got[0][call]);
        expect_buffer("null with length 0", out[1], sizeof out[1], (Bytes){out[0], sizeof out[0]});
    }
}

int main(void)
{
    Bytes t1 = BYTES(2, 97, 97, 1, 2, 97, 97, 0, 2, 98, 98, 0, 4, 1, 2, 2, 2, 98, 98, 0, 2, 99, 99, 0, 4, 4, 5, 3, 3, 0, 3, 0, 3, 7, 6, 0, 5, 8, 0, 0);
    Bytes t2 = BYTES(2, 97, 97, 0, 1, 0, 0, 0, 3, 0, 1, 0, 2, 98, 98, 0, 2, 97, 97, 0, 2, 98, 98, 0, 4, 4, 5, 0, 3, 3, 6, 0, 4, 2, 7, 0);
    Bytes t3 = BYTES(1, 0, 0, 0, 5, 0, 0, 0), t4 = BYTES(1, 0, 0, 7), bad = BYTES(7, 0, 0, 0);
    Bytes ab = BYTES('a', 'b'), abc = BYTES('a', 'b', 'c');
    Bytes stars = BYTES(R(5, 0, 0, 9)), stars_3 = BYTES(R(5, 0, 0, 1)), void_ = BYTES(R(0, 0, 0, 0));
    Bytes b = BYTES(R(5, 1, 2, 9), R(2, 0, 2, 8), R(3, 0, 2, 7), R(4, 0, 2, 3), R(1, 97, 1, 1), R(1, 98, 1, 2));
    Bytes c = BYTES(R(5, 2, 3, 9), R(2, 0, 1, 8), R(2, 0, 1, 7), R(1, 97, 1, 0), R(3, 0, 2, 8), R(4, 0, 2, 6), R(1, 98, 1, 4), R(1, 99, 1, 5));
    Bytes d = BYTES(R(5, 3, 5, 9), R(2, 0, 1, 8), R(2, 0, 1, 7), R(1, 97, 1, 0), R(3, 0, 2, 8), R(4, 0, 2, 6), R(1, 98, 1, 4), R(1, 99, 1, 5),
                    R(2, 0, 2, 8), R(3, 0, 2, 7), R(4, 0, 2, 3), R(1, 97, 1, 1), R(1, 98, 1, 2));
    Bytes f = BYTES(R(4, 0, 2, 8), R(2, 0, 1, 2), R(1, 97, 1, 0), R(2, 0, 1, 7), R(1, 98, 1, 3));
    Bytes g = BYTES(R(4, 0, 2, 8), R(3, 0, 0, 2), R(0, 0, 0, 1), R(3, 0, 2, 7), R(4, 0, 2, 6), R(1, 97, 1, 4), R(1, 98, 1, 5));
    Bytes c_tokens = BYTES(1, 0, 1, 3, 1, 2);

    /* A, B, C, F, I, J both ways, D's tokens, G, H */
    read("A", t1, 9, empty, 10, 4, 1, stars, 0);
    spell("A", t1, 9, stars, 0, 0, empty);
    read("B", t1, 9, ab, 60, 24, 6, b, 0);
    spell("B", t1, 9, b, 2, 2, ab);
    read("C", t1, 9, abc, 100, 32, 8, c, 0);
    spell("C", t1, 9, c, 3, 3, abc);
    tokens("D", t1, 9, d, 9, 3, BYTES(1, 0, 1, 3, 1, 2, 2, 3, 2));
    read("E", t1, 9, BYTES('b'), 30, 100, REFUSED(8, 0), empty, 0);
    read("F", t2, 8, ab, 54, 20, 5, f, 0);
    spell("F", t2, 8, f, 2, 2, ab);
    compare("G", t2, 8, f, g, 1);
    compare("G, the other way round", t2, 8, g, f, 2);
    compare("F against itself", t2, 8, f, f, 0);
    spell("H", t3, 1, BYTES(R(5, 1, 0, 1), R(0, 0, 0, 0)), 10, REFUSED(12, 0), empty);
    read("I", t3, 1, empty, 2, 4, 1, stars_3, 0);
    spell("I", t3, 1, stars_3, 0, 0, empty);
    read("J", t4, 0, empty, 1, 4, 1, void_, 0);
    spell("J", t4, 0, void_, 0, 0, empty);
    tokens("J", t4, 0, void_, 3, 0, empty);

    /* the worked example of docs/FORMATS.md; its second part is F and G */
    Bytes degrees = BYTES(2, '0', '9', 0, 5, 0, 0, 1, 2, 'C', 'C', 0, 4, 1, 2, 0), line29 = BYTES('2', '9', 'C');
    Bytes reading29 = BYTES(R(4, 0, 3, 3), R(5, 2, 2, 1), R(1, '2', 1, 0), R(1, '9', 1, 0), R(1, 'C', 1, 2));
    table_of(TEXT("[0-9]*#001C"), degrees);
    table_of(TEXT("(a|())(b|ab)"), t2);
    expect("29C, check", trace_check(degrees.at, degrees.length), 4);
    read("29C", degrees, 3, line29, 40, 20, 5, reading29, 0);
    read("29C, work area of 39", degrees, 3, line29, 39, 20, REFUSED(10, 0), empty, 1);
    read("29C, buffer of 19", degrees, 3, line29, 40, 19, REFUSED(11, 20), empty, 0);
    tokens("29C", degrees, 3, reading29, 3, 1, BYTES(1, 0, 2));
    spell("29C", degrees, 3, reading29, 3, 3, line29);
    read("C29", degrees, 3, BYTES('C', '2', '9'), 40, 20, REFUSED(8, 0), empty, 0);
    unfit("29C, a length of 1", degrees, 3, BYTES(R(4, 0, 3, 3), R(5, 2, 1, 1), R(1, '2', 1, 0), R(1, '9', 1, 0), R(1, 'C', 1, 2)), reading29);
    unfit("29C, a record number of 2", degrees, 3, BYTES(R(4, 0, 3, 3), R(5, 2, 2, 1), R(1, '2', 1, 2), R(1, '9', 1, 0), R(1, 'C', 1, 2)), reading29);

    /* a remark, tagged 1, up to the semicolon; and its Star and its Other as the start */
    Bytes remark = BYTES(TRACE_OTHER, ';', ';', 0, 5, 0, 0, 1, 2, ';', ';', 0, 4, 1, 2, 0), remark_line = BYTES('a', 'b', ';');
    Bytes remark_reading = BYTES(R(4, 0, 3, 3), R(5, 2, 2, 1), R(1, 'a', 1, 0), R(1, 'b', 1, 0), R(1, ';', 1, 2));
    Bytes remark_star = BYTES(R(5, 2, 2, 1), R(1, 'a', 1, 0), R(1, 'b', 1, 0)), remark_byte = BYTES(R(1, 'a', 1, 0));
    expect("ab;, check", trace_check(remark.at, remark.length), 4);
    read("ab;", remark, 3, remark_line, 40, 20, 5, remark_reading, 0);
    spell("ab;", remark, 3, remark_reading, 3, 3, remark_line);
    tokens("ab;", remark, 3, remark_reading, 3, 1, BYTES(1, 0, 2));
    compare("ab;", remark, 3, remark_reading, remark_reading, 0);
    read("a;b;", remark, 3, BYTES('a', ';', 'b', ';'), 60, 24, REFUSED(8, 0), empty, 0);
    spell("a;b;", remark, 3, BYTES(R(4, 0, 4, 3), R(5, 3, 3, 1), R(1, 'a', 1, 0), R(1, ';', 1, 0), R(1, 'b', 1, 0), R(1, ';', 1, 2)), 4, REFUSED(12, 0),
          empty);
    read("no semicolon", remark, 3, ab, 24, 20, REFUSED(8, 0), empty, 0);
    read("the Star", remark, 1, ab, 24, 12, 3, remark_star, 0);
    tokens("the Star", remark, 1, remark_star, 3, 1, BYTES(1, 0, 2));
    read("the Other", remark, 0, BYTES('a'), 12, 4, 1, remark_byte, 0);
    tokens("the Other", remark, 0, remark_byte, 0, 0, empty);
    read("the Other, a semicolon", remark, 0, BYTES(';'), 12, 4, REFUSED(8, 0), empty, 0);

    /* Other at its bounds, and the kind after it */
    letter("Other 5 5", BYTES(TRACE_OTHER, 5, 5, 0), BYTES(0, 4, 6, 255), BYTES(5));
    letter("Other 0x30 0x39", BYTES(TRACE_OTHER, 0x30, 0x39, 0), BYTES(0x2f, 0x3a), BYTES(0x30, 0x39));
    letter("Other 1 255", BYTES(TRACE_OTHER, 1, 255, 0), BYTES(0), BYTES(1, 255));
    letter("Other 0 254", BYTES(TRACE_OTHER, 0, 254, 0), BYTES(255), BYTES(0, 254));
    letter("Other 0 255", BYTES(TRACE_OTHER, 0, 255, 0), empty, BYTES(0, 'a', 255));
    expect("Other 5 4", trace_check(BYTES(1, 0, 0, 0, TRACE_OTHER, 5, 4, 0).at, 8), REFUSED(4, 1));
    expect("kind 7", trace_check(BYTES(1, 0, 0, 0, 7, 0, 0, 0).at, 8), REFUSED(2, 1));

    /* the page's two ways to nest (a|ab)(c|bcd)(d*): the tokens 1, 2 and 3 are the three parts, those that are not empty */
#define PARTS 2, 'a', 'a', 0, 2, 'a', 'a', 0, 2, 'b', 'b', 0, 4, 1, 2, 0, 3, 0, 3, 1, 2, 'c', 'c', 0, 2, 'b', 'b', 0, 2, 'c', 'c', 0, 2, 'd', 'd', 0, \
        4, 6, 7, 0, 4, 9, 8, 0, 3, 5, 10, 2, 2, 'd', 'd', 0, 5, 12, 0, 3
    cut("A(BC)", BYTES(PARTS, 4, 11, 13, 0, 4, 4, 14, 0), 15, BYTES('a', 'b', 'c', 'd'), 3, BYTES(1, 0, 2, 2, 2, 1, 3, 3, 1));
    cut("(AB)C", BYTES(PARTS, 4, 4, 11, 0, 4, 14, 13, 0), 15, BYTES('a', 'b', 'c', 'd'), 2, BYTES(1, 0, 1, 2, 1, 3));
#undef PARTS

    /* empty tagged parts: between two tagged bytes, of a remark, with tagged parts inside; and a tagged part of one byte */
    Bytes between = BYTES(2, 'a', 'a', 1, 1, 0, 0, 2, 2, 'b', 'b', 3, 4, 1, 2, 0, 4, 0, 3, 0), one = BYTES(2, 'a', 'a', 7);
    Bytes between_reading = BYTES(R(4, 0, 2, 4), R(1, 'a', 1, 0), R(4, 0, 1, 3), R(0, 0, 0, 1), R(1, 'b', 1, 2)), one_reading = BYTES(R(1, 'a', 1, 0));
    Bytes empties = BYTES(1, 0, 0, 1, 1, 0, 0, 2, 4, 0, 1, 3), empties_reading = BYTES(R(4, 0, 0, 2), R(0, 0, 0, 0), R(0, 0, 0, 1));
    read("a, an empty part, b", between, 4, ab, 30, 20, 5, between_reading, 0);
    tokens("a, an empty part, b", between, 4, between_reading, 6, 2, BYTES(1, 0, 1, 3, 1, 1));
    tokens("a, an empty part, b, buffer of 5", between, 4, between_reading, 5, REFUSED(11, 6), empty);
    tokens("an empty remark", remark, 3, BYTES(R(4, 0, 1, 3), R(5, 0, 0, 1), R(1, ';', 1, 2)), 0, 0, empty);
    tokens("tagged parts inside an empty one", empties, 2, empties_reading, 0, 0, empty);
    tokens("one byte", one, 0, one_reading, 3, 1, BYTES(7, 0, 1));
    tokens("one byte, buffer of 2", one, 0, one_reading, 2, REFUSED(11, 3), empty);
    tokens("one byte, no buffer", one, 0, one_reading, 0, REFUSED(11, 3), empty);

    /* a table lent up to its start record, and the whole one: 29C's, and behind it more records */
    Bytes more = BYTES(2, '0', '9', 0, 5, 0, 0, 1, 2, 'C', 'C', 0, 4, 1, 2, 0, 2, 'x', 'x', 9, 3, 3, 4, 8);
    read("29C, more records", more, 3, line29, 60, 20, 5, reading29, 0);
    read("29C, more records and the work area of 4", more, 3, line29, 40, 20, REFUSED(10, 0), empty, 1);
    tokens("29C, more records", more, 3, reading29, 3, 1, BYTES(1, 0, 2));
    spell("29C, more records", more, 3, reading29, 3, 3, line29);
    compare("29C, more records", more, 3, reading29, reading29, 0);

    /* 1 to 6 and 9, before everything else */
    spell("a refused table", bad, 9, empty, 0, REFUSED(2, 0), empty);
    spell("start m - 1", t1, 9, stars, 0, 0, empty);
    spell("start m", t1, 10, stars, 0, REFUSED(9, 0), empty);
    spell("start 2^32 + 9", t1, (1ULL << 32) + 9, stars, 0, REFUSED(9, 0), empty);
    tokens("start m", t1, 10, empty, 0, REFUSED(9, 0), empty);
    compare("start m", t1, 10, empty, empty, REFUSED(9, 0));
    read("start m", t1, 10, abc, 0, 0, REFUSED(9, 0), empty, 1);
    read("the largest start", t1, UINT64_MAX, abc, 100, 32, REFUSED(9, 0), empty, 1);

    /* 11 and its detail */
    spell("buffer of 2 for abc", t1, 9, c, 2, REFUSED(11, 3), empty);
    tokens("buffer of 6 for two tokens", t1, 9, c, 6, 2, c_tokens);
    tokens("buffer of 5 for two tokens", t1, 9, c, 5, REFUSED(11, 6), empty);
    tokens("no buffer", t4, 0, void_, 0, 0, empty);
    read("buffer of 31 for abc", t1, 9, abc, 100, 31, REFUSED(11, 32), empty, 0);
    read("no buffer for abc", t1, 9, abc, 100, 0, REFUSED(11, 32), empty, 0);
    read("no buffer", t1, 9, empty, 10, 0, REFUSED(11, 4), empty, 0);
    read("buffer of 3", t1, 9, empty, 10, 3, REFUSED(11, 4), empty, 0);

    /* 12: too short, a byte over, a wrong argument, an empty iteration, the other table's reading */
    unfit("no byte", t1, 9, empty, stars);
    unfit("one byte", t1, 9, BYTES(5), stars);
    unfit("two bytes", t1, 9, BYTES(5, 0), stars);
    unfit("three bytes", t1, 9, BYTES(5, 0, 0), stars);
    unfit("a byte over", t1, 9, BYTES(R(5, 0, 0, 9), 0), stars);
    unfit("a record over", t1, 9, BYTES(R(5, 0, 0, 9), R(5, 0, 0, 9)), stars);
    unfit("a count too high", t1, 9, BYTES(R(5, 1, 0, 9)), stars);
    unfit("a count and a length too high", t1, 9, BYTES(R(5, 1, 1, 9)), stars);
    unfit("a length too high", t1, 9, BYTES(R(5, 0, 1, 9)), stars);
    unfit("another record number", t1, 9, BYTES(R(5, 0, 0, 8)), stars);
    unfit("a record number that is none", t1, 9, BYTES(R(5, 0, 0, 10)), stars);
    unfit("a wrong argument", t4, 0, BYTES(R(0, 1, 0, 0)), void_);
    unfit("records of two bytes", t4, 0, BYTES(0, 0), void_);
    unfit("an empty iteration", t3, 1, BYTES(R(5, 1, 0, 1), R(0, 0, 0, 0)), stars_3);
    compare("12 first", t2, 8, stars, f, REFUSED(12, 0));
    compare("12 second", t2, 8, f, stars, REFUSED(12, 1));
    compare("12 both", t2, 8, stars, stars, REFUSED(12, 0));
    compare("12 of the second, with another length, before 14", t1, 9, b, BYTES(R(5, 0, 3, 9)), REFUSED(12, 1));

    /* 12: every other kind, argument, length and record number, at each record */
    damaged("A", t1, 9, stars);
    damaged("B", t1, 9, b);
    damaged("C", t1, 9, c);
    damaged("D", t1, 9, d);
    damaged("F", t2, 8, f);
    damaged("G", t2, 8, g);
    damaged("I", t3, 1, stars_3);
    damaged("J", t4, 0, void_);
    damaged("29C", degrees, 3, reading29);
    damaged("ab;", remark, 3, remark_reading);
    damaged("a, an empty part, b", between, 4, between_reading);
    damaged("tagged parts inside an empty one", empties, 2, empties_reading);

    /* 12: lengths that are wrong together, and parts with the numbers of records that spell the same: (a|a)(a|a) */
    Bytes same = BYTES(2, 97, 97, 0, 2, 97, 97, 0, 3, 0, 1, 0, 2, 97, 97, 0, 2, 97, 97, 0, 3, 3, 4, 0, 4, 2, 5, 0);
    Bytes same_reading = BYTES(R(4, 0, 2, 6), R(2, 0, 1, 2), R(1, 97, 1, 0), R(3, 0, 1, 5), R(1, 97, 1, 4));
    damaged("(a|a)(a|a)", same, 6, same_reading);
    unfit("a length and those above it", same, 6, BYTES(R(4, 0, 3, 6), R(2, 0, 2, 2), R(1, 97, 2, 0), R(3, 0, 1, 5), R(1, 97, 1, 4)), same_reading);
    unfit("a Byte of 0", same, 6, BYTES(R(4, 0, 1, 6), R(2, 0, 0, 2), R(1, 97, 0, 0), R(3, 0, 1, 5), R(1, 97, 1, 4)), same_reading);
    unfit("one more and one less", same, 6, BYTES(R(4, 0, 2, 6), R(2, 0, 2, 2), R(1, 97, 2, 0), R(3, 0, 0, 5), R(1, 97, 0, 4)), same_reading);
    unfit("every length 0", same, 6, BYTES(R(4, 0, 0, 6), R(2, 0, 0, 2), R(1, 97, 0, 0), R(3, 0, 0, 5), R(1, 97, 0, 4)), same_reading);
    unfit("Left with the number of Right's record", same, 6, BYTES(R(4, 0, 2, 6), R(2, 0, 1, 2), R(1, 97, 1, 1), R(3, 0, 1, 5), R(1, 97, 1, 4)),
          same_reading);
    unfit("the numbers of the other Or", same, 6, BYTES(R(4, 0, 2, 6), R(2, 0, 1, 5), R(1, 97, 1, 3), R(3, 0, 1, 5), R(1, 97, 1, 4)), same_reading);
    unfit("the two changed about", same, 6, BYTES(R(4, 0, 2, 6), R(3, 0, 1, 5), R(1, 97, 1, 4), R(2, 0, 1, 2), R(1, 97, 1, 0)), same_reading);

    /* 12 at 256 bytes: (a*)(a*), 255 bytes in the first star and 0, 1 or 2 in the second, whatever the root's length is said to be */
    Bytes two = BYTES(2, 97, 97, 0, 5, 0, 0, 5, 2, 97, 97, 0, 5, 2, 0, 6, 4, 1, 3, 0);
    uint8_t long_[3][4 * 260], as[255];
    Bytes spells[3];
    memset(as, 'a', sizeof as);
    for (int more = 0; more < 3; more++) {
        uint8_t *at = long_[more], seq[] = {R(4, 0, (uint8_t)(255 + more), 4)}, first[] = {R(5, 255, 255, 1)};
        uint8_t second[] = {R(5, (uint8_t)more, (uint8_t)more, 3)}, byte[] = {R(1, 'a', 1, 0)};
        memcpy(at, seq, 4), at += 4;
        memcpy(at, first, 4), at += 4;
        for (int i = 0; i < 255; i++)
            memcpy(at, byte, 4), at += 4;
        memcpy(at, second, 4), at += 4;
        byte[3] = 2;
        for (int i = 0; i < more; i++)
            memcpy(at, byte, 4), at += 4;
        spells[more] = (Bytes){long_[more], (size_t)(at - long_[more])};
    }
    spell("255 bytes", two, 4, spells[0], 255, 255, (Bytes){as, 255});
    spell("255 bytes into 254", two, 4, spells[0], 254, REFUSED(11, 255), empty);
    tokens("255 bytes", two, 4, spells[0], 3, 1, BYTES(5, 0, 255));
    tokens("255 bytes, buffer of 2", two, 4, spells[0], 2, REFUSED(11, 3), empty);
    compare("255 bytes", two, 4, spells[0], spells[0], 0);
    for (int length = 0; length < 256; length++)
        for (int more = 1; more < 3; more++) {
            long_[more][2] = (uint8_t)length;
            unfit("256 and 257 bytes, every length", two, 4, spells[more], spells[0]);
        }
    compare("256 bytes in both", two, 4, spells[2], spells[1], REFUSED(12, 0));
    compare("256 bytes in the first, and a second that is no reading", two, 4, spells[1], stars, REFUSED(12, 0));

    /* the same by one Stars more: (a*)* of 255 and 1, and of 254 and 1 */
    Bytes nest = BYTES(2, 97, 97, 0, 5, 0, 0, 0, 5, 1, 0, 7);
    uint8_t nested[4 * 259];
    for (int more = 0; more < 2; more++) {
        uint8_t *at = nested, top[] = {R(5, 2, (uint8_t)(255 + more), 2)}, first[] = {R(5, (uint8_t)(254 + more), (uint8_t)(254 + more), 1)};
        uint8_t second[] = {R(5, 1, 1, 1)}, byte[] = {R(1, 'a', 1, 0)};
        memcpy(at, top, 4), at += 4;
        memcpy(at, first, 4), at += 4;
        for (int i = 0; i < 254 + more; i++)
            memcpy(at, byte, 4), at += 4;
        memcpy(at, second, 4), at += 4;
        memcpy(at, byte, 4), at += 4;
        Bytes reading = {nested, (size_t)(at - nested)};
        if (more == 0)
            tokens("254 and 1", nest, 2, reading, 3, 1, BYTES(7, 0, 255));
        for (int length = 0; length < 256; length++) {
            nested[2] = (uint8_t)length;
            if (more > 0 || length < 255)
                unfit("254 or 255 and 1, every length", nest, 2, reading, BYTES(R(5, 0, 0, 2)));
        }
    }

    /* the longest list: the same with the tag 5 on each byte in place of the first star */
    Bytes each = BYTES(2, 97, 97, 5, 5, 0, 0, 0, 2, 97, 97, 0, 5, 2, 0, 6, 4, 1, 3, 0);
    uint8_t each_tokens[765];
    for (int i = 0; i < 255; i++)
        each_tokens[3 * i] = 5, each_tokens[3 * i + 1] = (uint8_t)i, each_tokens[3 * i + 2] = 1;
    tokens("255 tagged bytes", each, 4, spells[0], 765, 255, (Bytes){each_tokens, 765});
    tokens("255 tagged bytes into 764", each, 4, spells[0], 764, REFUSED(11, 765), empty);

    /* 14 */
    compare("14", t1, 9, b, c, REFUSED(14, 0));
    compare("14, one of them empty", t1, 9, stars, c, REFUSED(14, 0));

    /* 7 and 10, in this order, and the work area's edge */
    uint8_t line[256], byte_star[1024];
    Bytes any = BYTES(2, 0, 255, 0, 5, 0, 0, 0);
    memset(line, 'a', sizeof line);
    memcpy(byte_star, BYTES(R(5, 255, 255, 1)).at, 4);
    for (int i = 1; i < 256; i++)
        memcpy(byte_star + 4 * i, BYTES(R(1, 'a', 1, 0)).at, 4);
    read("99 work bytes for abc", t1, 9, abc, 99, 32, REFUSED(10, 0), empty, 1);
    read("a line of 255", any, 1, (Bytes){line, 255}, 65792, 1024, 256, (Bytes){byte_star, 1024}, 0);
    read("a line of 255, a byte short", any, 1, (Bytes){line, 255}, 65792, 1023, REFUSED(11, 1024), empty, 0);
    read("a line of 255, one work byte short", any, 1, (Bytes){line, 255}, 65791, 1024, REFUSED(10, 0), empty, 1);
    read("a line of 256", any, 1, (Bytes){line, 256}, 0, 0, REFUSED(7, 0), empty, 1);
    read("a refused table", bad, 9, (Bytes){line, 256}, 0, 0, REFUSED(2, 0), empty, 1);

    /* the texts of document 02, and others: what stands for itself, escapes, brackets, tags, and how items group */
    Bytes made = BYTES(2, 97, 97, 1, 2, 97, 97, 0, 2, 98, 98, 0, 4, 1, 2, 2, 3, 0, 3, 0, 2, 98, 98, 0, 2, 99, 99, 0, 4, 5, 6, 3, 3, 4, 7, 0, 5, 8, 0, 0);
    table_of(TEXT("(a#001|(ab)#002|(bc)#003)*"), made);
    table_of(TEXT("a"), BYTES(2, 'a', 'a', 0));
    table_of(TEXT("(((a)))"), BYTES(2, 'a', 'a', 0));
    table_of(TEXT("()"), BYTES(1, 0, 0, 0));
    table_of(TEXT("(())"), BYTES(1, 0, 0, 0));
    table_of(TEXT("( )"), BYTES(2, ' ', ' ', 0));
    table_of(TEXT("\n"), BYTES(2, 10, 10, 0));
    table_of(TEXT("\0"), BYTES(2, 0, 0, 0));
    table_of(TEXT("\xff"), BYTES(2, 255, 255, 0));
    table_of(TEXT("-"), BYTES(2, '-', '-', 0));
    table_of(TEXT("\\a"), BYTES(2, 'a', 'a', 0));
    for (const char *c = "|*()[]\\#"; *c; c++)
        table_of(BYTES('\\', (uint8_t)*c), BYTES(2, (uint8_t)*c, (uint8_t)*c, 0));
    table_of(TEXT("[a-a]"), BYTES(2, 'a', 'a', 0));
    table_of(TEXT("[\0-\xff]"), BYTES(2, 0, 255, 0));
    table_of(TEXT("[]-]]"), BYTES(2, ']', ']', 0));
    table_of(TEXT("[\\-]]"), BYTES(2, '\\', ']', 0));
    table_of(TEXT("[---]"), BYTES(2, '-', '-', 0));
    table_of(TEXT("[#-[]"), BYTES(2, '#', '[', 0));
    table_of(TEXT("a#001"), BYTES(2, 'a', 'a', 1));
    table_of(TEXT("(a)#255"), BYTES(2, 'a', 'a', 255));
    table_of(TEXT("()#010"), BYTES(1, 0, 0, 10));
    table_of(TEXT("a#0012"), BYTES(2, 'a', 'a', 1, 2, '2', '2', 0, 4, 0, 1, 0));
    table_of(TEXT("a*#002"), BYTES(2, 'a', 'a', 0, 5, 0, 0, 2));
    table_of(TEXT("a#001*#002"), BYTES(2, 'a', 'a', 1, 5, 0, 0, 2));
    table_of(TEXT("(a#001b)#002"), BYTES(2, 'a', 'a', 1, 2, 'b', 'b', 0, 4, 0, 1, 2));
    table_of(TEXT("a**"), BYTES(2, 'a', 'a', 0, 5, 0, 0, 0, 5, 1, 0, 0));
    table_of(TEXT("abc"), BYTES(2, 'a', 'a', 0, 2, 'b', 'b', 0, 4, 0, 1, 0, 2, 'c', 'c', 0, 4, 2, 3, 0));
    table_of(TEXT("a(bc)"), BYTES(2, 'a', 'a', 0, 2, 'b', 'b', 0, 2, 'c', 'c', 0, 4, 1, 2, 0, 4, 0, 3, 0));
    table_of(TEXT("a|b|c"), BYTES(2, 'a', 'a', 0, 2, 'b', 'b', 0, 3, 0, 1, 0, 2, 'c', 'c', 0, 3, 2, 3, 0));
    table_of(TEXT("a|bc*"), BYTES(2, 'a', 'a', 0, 2, 'b', 'b', 0, 2, 'c', 'c', 0, 5, 2, 0, 0, 4, 1, 3, 0, 3, 0, 4, 0));

    /* 15: a side of | that is missing, an item that is, parentheses, brackets, a backslash at the end, tags */
    outside("| a| |a a||b (|a) (a|) (|) * (*a) a|* ( ) (a a) (() ()) ] a] [ [a [a- [a-b [a-b) [b-a] [ab] [a+b] [a-bc] [] [\\a-b] \\ a\\");
    outside("# #001 a# a#0 a#01 a#01a a#000 a#256 a#999 a#0:1 a#1/1 a|#001 (#001) a#001#002 (a#001)#002 ((a#001))#001");

    /* 15 at 4,097 bytes, 16 at 256 records, and their order: 15, 16, 11 */
    uint8_t text[4097], comb[1020];
    compile("no byte", empty, TRACE_MAX_TABLE, REFUSED(15, 0), empty);
    compile("no byte, no buffer", empty, 0, REFUSED(15, 0), empty);
    memset(text, '(', 2048), memset(text + 2048, ')', 2049);
    compile("4,096 bytes", (Bytes){text, TRACE_MAX_TEXT}, 4, 1, BYTES(1, 0, 0, 0));
    compile("4,096 bytes, buffer of 3", (Bytes){text, TRACE_MAX_TEXT}, 3, REFUSED(11, 4), empty);
    compile("4,096 bytes, the last one wrong", (Bytes){text + 1, TRACE_MAX_TEXT}, 4, REFUSED(15, 0), empty);
    memset(text, '(', 2048), memset(text + 2048, 'a', 1), memset(text + 2049, ')', 2048);
    compile("4,097 bytes", (Bytes){text, TRACE_MAX_TEXT + 1}, 4, REFUSED(15, 0), empty);
    memset(comb, 0, sizeof comb);
    for (size_t k = 0; k < 255; k++) {
        uint8_t *record = comb + TRACE_TABLE_RECORD * k;
        record[0] = k > 0 && k % 2 == 0 ? TRACE_OR : TRACE_RANGE;
        record[1] = record[0] == TRACE_RANGE ? 'a' : (uint8_t)(k - 2);
        record[2] = record[0] == TRACE_RANGE ? 'a' : (uint8_t)(k - 1);
    }
    size_t length = 254;
    for (size_t i = 0; i <= length; i++)
        text[i] = i % 2 ? '|' : 'a';
    compile("255 records", (Bytes){text, length + 1}, sizeof comb, 255, (Bytes){comb, sizeof comb});
    compile("255 records, a longer buffer", (Bytes){text, length + 1}, 1024, 255, (Bytes){comb, sizeof comb});
    compile("255 records, buffer of 1,019", (Bytes){text, length + 1}, sizeof comb - 1, REFUSED(11, 1020), empty);
    compile("255 records, no buffer", (Bytes){text, length + 1}, 0, REFUSED(11, 1020), empty);
    compile("15 before 11", (Bytes){text, length}, 0, REFUSED(15, 0), empty);
    text[length + 1] = '*';
    compile("256 records", (Bytes){text, length + 2}, 1024, REFUSED(16, 0), empty);
    compile("16 before 11", (Bytes){text, length + 2}, 0, REFUSED(16, 0), empty);
    text[length + 2] = '|';
    compile("15 before 16", (Bytes){text, length + 3}, 1024, REFUSED(15, 0), empty);
    compile("15 before 16 and 11", (Bytes){text, length + 3}, 0, REFUSED(15, 0), empty);
    memset(text, 'a', sizeof text);
    compile("4,096 bytes and 8,191 records", (Bytes){text, TRACE_MAX_TEXT}, 2048, REFUSED(16, 0), empty);
    compile("4,097 bytes and 8,193 records", (Bytes){text, TRACE_MAX_TEXT + 1}, 2048, REFUSED(15, 0), empty);

    /* names that must come first, a lift 8 before a brake 9: the worked example of docs/FORMATS.md */
    Pairs lift = PAIRS({8, 9});
    Bytes rule = TEXT("([0-9][0-9]:[0-9][0-9])#001( lift ([0-9][0-9]*)#008| brake ([0-9][0-9]*)#009)*");
    ordered("lift, brake", rule, TEXT("12:04 lift 29 brake 104"), BYTES(1, 0, 5, 8, 11, 2, 9, 20, 3), lift, 3);
    ordered("brake alone", rule, TEXT("12:04 brake 104"), BYTES(1, 0, 5, 9, 12, 3), lift, 1);
    ordered("lift behind the brake", rule, TEXT("12:04 brake 104 lift 29"), BYTES(1, 0, 5, 9, 12, 3, 8, 21, 2), lift, 1);

    /* kept: no token, no pair, names that are not there, two brakes for one lift, and a chain */
    named("no token", empty, lift, 0);
    named("no pair", BYTES(9, 9, 8), no_pairs, 3);
    named("no token and no pair", empty, no_pairs, 0);
    named("neither name", BYTES(1, 2, 3), lift, 3);
    named("the first name alone", BYTES(1, 8), lift, 2);
    named("two brakes for one lift", BYTES(8, 1, 9, 9), lift, 4);
    named("lifts on both sides", BYTES(8, 9, 8, 9), lift, 4);
    named("a chain", BYTES(7, 8, 9), PAIRS({8, 9}, {7, 8}), 3);

    /* broken: by the first token that breaks any pair, whatever the order of the pairs */
    named("the first token", BYTES(9, 8, 9), lift, 0);
    named("the last token", BYTES(1, 2, 3, 9), lift, 3);
    named("two that break one pair", BYTES(1, 9, 9), lift, 1);
    named("two pairs, the later one by the earlier token", BYTES(9, 5), PAIRS({4, 5}, {8, 9}), 0);
    named("two pairs, the earlier one by the earlier token", BYTES(9, 5), PAIRS({8, 9}, {4, 5}), 0);
    named("one token, both pairs", BYTES(1, 9), PAIRS({7, 9}, {8, 9}), 1);
    named("one second name, the later first name missing", BYTES(1, 8, 9), PAIRS({8, 9}, {7, 9}), 2);
    named("one second name, the earlier first name missing", BYTES(1, 8, 9), PAIRS({7, 9}, {8, 9}), 2);
    named("each before the other", BYTES(1, 8, 9), PAIRS({8, 9}, {9, 8}), 1);
    named("a chain, its first link missing", BYTES(1, 8, 9), PAIRS({8, 9}, {7, 8}), 1);
    named("a pair twice", BYTES(8, 9), PAIRS({8, 9}, {8, 9}), 2);
    named("a pair twice, broken", BYTES(1, 9), PAIRS({8, 9}, {8, 9}), 1);

    /* one name twice */
    named("one name twice", BYTES(1, 8, 8), PAIRS({8, 8}), 1);
    named("one name twice, one token", BYTES(8), PAIRS({8, 8}), 0);
    named("one name twice, which no token has", BYTES(1, 9), PAIRS({8, 8}), 2);
    named("one name twice, behind another pair", BYTES(8, 9, 1), PAIRS({8, 9}, {1, 1}), 2);

    /* names may be any bytes, as 0, which is no tag; offsets and lengths are not looked at */
    named("0 before 255", BYTES(0, 255), PAIRS({0, 255}), 2);
    named("255 before 0", BYTES(255, 0), PAIRS({255, 0}), 2);
    named("0 behind 255", BYTES(255, 0), PAIRS({0, 255}), 0);
    named("255 behind 0", BYTES(1, 0, 255), PAIRS({255, 0}), 1);
    named("0 twice", BYTES(1, 0), PAIRS({0, 0}), 1);
    named("127 for 255", BYTES(127, 255, 9), PAIRS({255, 9}, {127, 255}), 3);
    named("128 for 0", BYTES(128, 9), PAIRS({0, 9}), 1);
    order("offsets and lengths with the names", BYTES(1, 9, 9, 2, 8, 8), lift, 2);
    order("a first name in an offset and a length alone", BYTES(1, 8, 8, 9, 8, 8), lift, 1);
    order("tokens of length 0, out of place, one over the other", BYTES(8, 255, 0, 8, 0, 255, 9, 0, 0), lift, 3);
    order("a token of length 0 that breaks", BYTES(1, 255, 0, 9, 0, 0), lift, 1);

    /* 17 at 65 pairs, 18 at 1 and 2 bytes over, in this order; each pair of 64 is looked at */
    trace_pair sixty_five[TRACE_MAX_PAIRS + 1];
    for (size_t i = 0; i <= TRACE_MAX_PAIRS; i++)
        sixty_five[i] = (trace_pair){8, 9};
    Pairs most = {sixty_five, TRACE_MAX_PAIRS}, over = {sixty_five, TRACE_MAX_PAIRS + 1};
    Bytes kept = BYTES(8, 0, 1, 9, 1, 1, 7, 2, 1, 9, 3);
    for (size_t bytes = 0; bytes <= kept.length; bytes++) {
        Bytes list = {kept.at, bytes};
        uint64_t want = bytes % 3 ? REFUSED(18, 0) : bytes / 3;
        order("no pair", list, no_pairs, want);
        order("one pair", list, lift, want);
        order("64 pairs", list, most, want);
        order("65 pairs", list, over, REFUSED(17, 0));
        order("a name twice", list, PAIRS({8, 8}), bytes % 3 ? REFUSED(18, 0) : 0);
    }
    for (size_t i = 0; i < TRACE_MAX_PAIRS; i++) {
        sixty_five[i] = (trace_pair){6, 7};
        order("one of 64 pairs broken", (Bytes){kept.at, 9}, most, 2);
        order("one of 64 pairs broken, 2 bytes over", kept, most, REFUSED(18, 0));
        order("one of 65 pairs broken", (Bytes){kept.at, 9}, over, REFUSED(17, 0));
        order("one of so many pairs broken, the last", (Bytes){kept.at, 9}, (Pairs){sixty_five, i + 1}, 2);
        order("pairs before the broken one", (Bytes){kept.at, 9}, (Pairs){sixty_five, i}, 3);
        sixty_five[i] = (trace_pair){8, 9};
    }

    /* a pair is two bytes, and both lists may begin at any address */
    expect("a pair's bytes", sizeof(trace_pair), 2);
    for (size_t i = 0; i < 4; i++) {
        uint8_t moved[16], *list = moved + i, *pair = list + 7;
        memcpy(list, kept.at, 6), memcpy(pair, BYTES(8, 9).at, 2);
        expect("any address", trace_order(list, 6, (const trace_pair *)pair, 1), 2);
        expect("any address, broken", trace_order(list + 3, 3, (const trace_pair *)pair, 1), 0);
    }

    /* a million tokens, the last alone named 2 */
    enum { MILLION = 1000000 };
    uint8_t *million = malloc(3 * MILLION);
    if (million == NULL)
        return 2;
    for (size_t i = 0; i < MILLION; i++)
        million[3 * i] = 1, million[3 * i + 1] = 2, million[3 * i + 2] = 3;
    million[3 * (MILLION - 1)] = 2;
    Bytes long_list = {million, 3 * MILLION};
    order("a million tokens", long_list, PAIRS({1, 2}), MILLION);
    order("a million tokens, the last breaks", long_list, PAIRS({1, 2}, {3, 2}), MILLION - 1);
    order("a million tokens, the first breaks", long_list, PAIRS({3, 2}, {2, 1}), 0);
    order("a million tokens, one byte less", (Bytes){million, 3 * MILLION - 1}, PAIRS({3, 2}), REFUSED(18, 0));
    order("a million tokens and 65 pairs", long_list, over, REFUSED(17, 0));
    free(million);
    very_many_tokens(lift);

    /* live lines; of comb a byte is still wanted at no byte, and none after it */
    live_layout(t1, 9);
    live_made(t1, (Bytes){comb, sizeof comb});
    live_facts(t1, degrees);
    live_lengths(t1, (Bytes){comb, sizeof comb});
    live_by_hand(t1);

    pages();
    alternatives(t1, t2, (Bytes){comb, sizeof comb});

    /* null pointers: with a line, and where an empty line and an empty buffer are no refusal */
    nulls(t1, 9, abc, c, c);
    nulls(t1, 9, empty, stars, c);
    nulls(t2, 8, ab, f, g);
    nulls(t4, 0, empty, void_, void_);

    printf("edges: %d answers ok\n", answers);
    return 0;
}
