/*
 * Reads a lap: the lines of its trace by one rule, and by a second one the lap itself, which is the classes of its lines. Shows each line with its
 * class and the run that it belongs to, and then the parts of the lap by name, each with the lines that made it.
 *
 *     cc lap.c $(pkg-config --cflags --libs trace) -o lap
 *     ./lap                                   the sample rules on the sample lap
 *     ./lap 'LINE RULE' 'LAP RULE' <lap.txt   other rules, on the lap in a file
 *
 * The class of a line is the name of its first token. Names are numbers, and those of the sample's lines are the numbers of letters, so that the
 * lap's rule can be written with them: 108 is l. Lines and runs are counted from 1, as an editor counts lines; trace_page counts lines from 0.
 *
 * Exit status: 0 if the lap was read, 1 if a rule, a line or the lap was refused, 2 if the tool itself could not go on.
 */
#include <stdio.h>
#include <stdlib.h>
#include <string.h>

#include <trace.h>

/* The tokens of a line such as "10:00 lift 30g31", and the parts of a lap. */
static const char *const line_names[256] = {['p'] = "platform", ['l'] = "lift", ['b'] = "brake", ['t'] = "temperature", ['g'] = "gust"};
static const char *const lap_names[256] = {[1] = "departure", [2] = "climb", [3] = "braking", [4] = "arrival"};

/* A lap begins and ends at a platform; between them are lines of the lift, at least one, and then of the brake, at least one. */
static const char line_rule[] = "[0-9][0-9]*:[0-9][0-9] ((platform)#112|(lift)#108|(brake)#098) ([0-9][0-9]*)#116(g[0-9][0-9]*|())#103";
static const char lap_rule[] = "p#001(ll*)#002(bb*)#003p#004";
static const char sample[] = "9:57 platform 2\n"
                             "9:58 lift 29\n"
                             "9:58 lift 31\n"
                             "9:59 lift 31\n"
                             "10:00 lift 31\n"
                             "10:00 lift 30g31\n"
                             "10:01 brake 104\n"
                             "10:01 brake 98\n"
                             "10:02 platform 2\n";

/* A rule's table, whose last record is the start record; the names of its tokens; and what it is called in messages. */
typedef struct {
    uint8_t table[TRACE_MAX_TABLE];
    size_t table_len, start;
    const char *const *names;
    const char *title;
} Rules;
static Rules lines = {.names = line_names, .title = "the line rule"}, laps = {.names = lap_names, .title = "the lap rule"};

/* Room for every lap that can be read. */
typedef struct { uint8_t *bytes; size_t room; } Buffer;
static Buffer work, reading, first, second, out;

static Buffer buffer_of(size_t room)
{
    Buffer buffer = {malloc(room), room};
    if (buffer.bytes == NULL) {
        perror("lap");
        exit(2);
    }
    return buffer;
}

static void make_buffers(void)
{
    size_t line_records = lines.start + 1, lap_records = laps.start + 1;
    work = buffer_of(trace_work_size(line_records > lap_records ? line_records : lap_records, TRACE_MAX_LINE));
    reading = buffer_of(trace_reading_size(line_records, TRACE_MAX_LINE));
    first = buffer_of(trace_tokens_size(TRACE_MAX_LINE));
    second = buffer_of(trace_tokens_size(TRACE_MAX_LINE));
    out = buffer_of(trace_reading_size(lap_records, TRACE_MAX_LINES));
}

/* Says in words what is refused, where it is. */
static int is_refused(uint64_t answer)
{
    uint32_t refusal = trace_refusal(answer);
    if (!trace_is_refused(answer))
        return 0;
    switch (trace_who(answer)) {
    case TRACE_WHO_LINE: printf("line %u", (unsigned)trace_detail(answer) + 1); break;
    case TRACE_WHO_LINE_RULES: printf("%s", lines.title); break;
    case TRACE_WHO_PAGE_RULES: printf("%s", laps.title); break;
    default: printf("the lap"); break;
    }
    printf(": refused %u: %s\n", (unsigned)refusal, trace_refusal_text(refusal));
    return 1;
}

/* Makes a rule's table. trace_compile names nobody, so the rule is named here. */
static int make_rules(Rules *rules, const char *text)
{
    uint64_t answer = trace_compile((const uint8_t *)text, strlen(text), rules->table, sizeof rules->table);
    if (trace_is_refused(answer)) {
        printf("%s: refused %u: %s\n", rules->title, (unsigned)trace_refusal(answer), trace_refusal_text(trace_refusal(answer)));
        return 0;
    }
    rules->start = (size_t)answer - 1, rules->table_len = TRACE_TABLE_RECORD * (size_t)answer;
    return 1;
}

/* A name in words, or where it has none as a number. */
static void show_name(const Rules *rules, uint8_t name)
{
    if (rules->names != NULL && rules->names[name] != NULL)
        printf("%s", rules->names[name]);
    else
        printf("%d", name);
}

/* A line, which is a part of the lap, and its tokens. */
typedef struct { const uint8_t *text, *tokens; size_t count; } Line;

/* Lists a line's tokens, as trace_page does. It is asked only of lines that were not refused there. */
static Line list_tokens(const uint8_t *line, size_t length, Buffer tokens)
{
    uint64_t answer = trace_read(lines.table, lines.table_len, lines.start, line, length, work.bytes, work.room, reading.bytes, reading.room);
    answer = trace_tokens(lines.table, lines.table_len, lines.start, reading.bytes, TRACE_READING_RECORD * (size_t)answer, tokens.bytes, tokens.room);
    return (Line){line, tokens.bytes, (size_t)answer};
}

/* Neighbouring lines are alike if their tokens have the same names in the same order, and each token the same bytes of text. */
static int alike(Line one, Line two)
{
    if (one.count != two.count)
        return 0;
    for (size_t i = 0; i < TRACE_TOKEN * one.count; i += TRACE_TOKEN) {
        const uint8_t *a = one.tokens + i, *b = two.tokens + i;
        if (a[0] != b[0] || a[2] != b[2] || memcmp(one.text + a[1], two.text + b[1], a[2]) != 0)
            return 0;
    }
    return 1;
}

/* The line with which each run begins, from 0, and behind the last run the number of lines. */
static size_t begins[TRACE_MAX_LINES + 1], runs;

/* Shows the first lines of a lap, and finds the runs. */
static void show_lines(const uint8_t *lap, size_t length, size_t most)
{
    size_t number = 0;
    Line before = {NULL, NULL, 0};
    for (size_t at = 0, end; at < length && number < most; at = end + 1, number++) {
        const uint8_t *newline = memchr(lap + at, '\n', length - at);
        end = newline == NULL ? length : (size_t)(newline - lap);
        Line line = list_tokens(lap + at, end - at, number % 2 ? second : first);
        if (number == 0 || !alike(line, before))
            begins[runs++] = number;
        before = line;
        printf("line %zu: ", number + 1);
        if (line.count > 0)
            show_name(&lines, line.tokens[0]);
        else
            printf("no token");
        printf(", run %zu: ", runs);
        fwrite(lap + at, 1, end - at, stdout);
        printf("\n");
    }
    begins[runs] = number;
}

/* "line 3", or "lines 3 to 5". */
static void show_span(const char *what, size_t from, size_t to)
{
    if (from == to)
        printf("%s %zu", what, from);
    else
        printf("%ss %zu to %zu", what, from, to);
}

/* Shows the parts of the lap: the tokens of its reading, whose offsets and lengths count class bytes, which are the runs. */
static void show_parts(uint64_t records)
{
    uint8_t parts[TRACE_TOKEN * TRACE_MAX_LINES];
    uint64_t answer = trace_tokens(laps.table, laps.table_len, laps.start, out.bytes, TRACE_READING_RECORD * (size_t)records, parts, sizeof parts);
    for (const uint8_t *part = parts; part < parts + TRACE_TOKEN * answer; part += TRACE_TOKEN) {
        size_t from = part[1], to = from + part[2];
        show_name(&laps, part[0]);
        show_span(": run", from + 1, to);
        show_span(", line", begins[from] + 1, begins[to]);
        printf("\n");
    }
}

/* Reads a lap and shows it, up to a line that is refused; says whether it was read. */
static int show_lap(const uint8_t *lap, size_t length)
{
    uint64_t answer = trace_page(lines.table, lines.table_len, lines.start, laps.table, laps.table_len, laps.start, lap, length, work.bytes,
                                 work.room, reading.bytes, reading.room, first.bytes, first.room, second.bytes, second.room, out.bytes, out.room);
    if (trace_refusal(answer) != TRACE_REFUSED_LINES)
        show_lines(lap, length, trace_who(answer) == TRACE_WHO_LINE ? trace_detail(answer) : TRACE_MAX_LINES);
    if (is_refused(answer))
        return 0;
    show_parts(answer);
    return 1;
}

/* All of standard input. */
static Buffer read_input(void)
{
    Buffer input = buffer_of(65536);
    size_t length = 0, got;
    while ((got = fread(input.bytes + length, 1, input.room - length, stdin)) > 0) {
        length += got;
        if (length < input.room)
            continue;
        uint8_t *more = realloc(input.bytes, input.room *= 2);
        if (more == NULL) {
            perror("lap");
            exit(2);
        }
        input.bytes = more;
    }
    if (ferror(stdin)) {
        perror("lap: reading failed");
        exit(2);
    }
    input.room = length;
    return input;
}

int main(int count, char **arguments)
{
    if (count != 1 && count != 3) {
        fputs("usage: lap [LINE-RULE LAP-RULE]\n", stderr);
        return 2;
    }
    if (count == 3)
        lines.names = laps.names = NULL;
    if (!make_rules(&lines, count == 3 ? arguments[1] : line_rule) || !make_rules(&laps, count == 3 ? arguments[2] : lap_rule))
        return 1;
    make_buffers();
    Buffer input = {NULL, 0};
    if (count == 3)
        input = read_input();
    int read = count == 3 ? show_lap(input.bytes, input.room) : show_lap((const uint8_t *)sample, sizeof sample - 1);
    free(input.bytes);
    free(work.bytes);
    free(reading.bytes);
    free(first.bytes);
    free(second.bytes);
    free(out.bytes);
    if (fflush(stdout) != 0 || ferror(stdout)) {
        fputs("lap: writing failed\n", stderr);
        return 2;
    }
    return read ? 0 : 1;
}
