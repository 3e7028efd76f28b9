/*
 * The test console: colours a line as it is typed, by a rule written as text, and cuts it on Enter.
 *
 *     cc console.c $(pkg-config --cflags --libs trace) -o console
 *     ./console '([0-9][0-9]*)#001C'
 *
 * Green: the rule reads the line as it is. Yellow: it does not yet, and can with more bytes. Red: the first byte after which it no longer can, and all
 * behind it; the bytes before that one are yellow. A byte that is no printable ASCII is shown as an inverse question mark. Where the line is wider
 * than the terminal, its end is shown, behind a '<'.
 *
 * Enter shows the line's tokens, name and text, or why it is refused, and begins the next line. Backspace takes the last byte back. A key that
 * cannot be taken rings the bell. Ctrl-D ends the console, and so does Ctrl-C, by its signal. The terminal is left as it was, and Ctrl-Z hands it
 * back until the console goes on.
 *
 * Exit status: 0 at Ctrl-D, 1 if the rule was refused, 2 if the tool itself could not go on, as without a terminal or where it goes away.
 */
#define _POSIX_C_SOURCE 200809L
#include <errno.h>
#include <signal.h>
#include <stdio.h>
#include <stdlib.h>
#include <string.h>
#include <sys/ioctl.h>
#include <sys/select.h>
#include <termios.h>
#include <unistd.h>

#include <trace.h>

enum { CTRL_D = 4, BACKSPACE = 8, NEW_LINE = 10, ENTER = 13, DELETE = 127 };
enum { RED = 31, GREEN = 32, YELLOW = 33 };

/* The rule's table, and the buffers for a line of any length. */
static uint8_t table[TRACE_MAX_TABLE], *work, *reading;
static size_t table_len, start, work_len, reading_len;

/* The line, the facts of it, and how many of its first bytes can still be completed. */
static trace_live line;
static uint64_t facts;
static size_t good;

/* The terminal as it was, the signals that are waited for, and the one that came. */
static struct termios before;
static sigset_t waited, others;
static volatile sig_atomic_t caught;

static void restore(void) { tcsetattr(STDIN_FILENO, TCSADRAIN, &before); }

/* What was printed goes to the terminal in one piece. */
static void flush(void)
{
    if (fflush(stdout) != 0) {
        restore();
        exit(2);
    }
}

/* No byte of the line is sent to the terminal but a printable one. */
static void put_bytes(const uint8_t *bytes, size_t count)
{
    for (const uint8_t *byte = bytes; byte < bytes + count; byte++)
        if (' ' <= *byte && *byte <= '~')
            putchar(*byte);
        else
            printf("\033[7m?\033[27m");
}

/* Bytes of the line, if any, in a colour. */
static void put_part(size_t from, size_t to, int colour)
{
    if (from >= to)
        return;
    printf("\033[%dm", colour);
    put_bytes(line.bytes + from, to - from);
}

/* How many bytes fit behind the prompt; the cursor takes a place. */
static size_t room(void)
{
    struct winsize size;
    size_t columns = ioctl(STDOUT_FILENO, TIOCGWINSZ, &size) == 0 && size.ws_col > 0 ? size.ws_col : 80;
    return columns > 4 ? columns - 3 : 1;
}

/* The prompt and the end of the line, over what stands in the terminal's row. */
static void draw(void)
{
    size_t places = room(), from = line.count > places ? line.count - places : 0;
    printf("\r%c\033[K ", from > 0 ? '<' : '>');
    put_part(from, good, facts & TRACE_LIVE_READS ? GREEN : YELLOW);
    put_part(good > from ? good : from, line.count, RED);
    printf("\033[0m");
    flush();
}

/* A line without bytes. Its facts are not asked for: there is nothing to colour. */
static void begin(void)
{
    trace_live_new(&line, table, table_len, start);
    facts = 0;
    good = 0;
    draw();
}

/* A key that alters the line. A refused one, at 255 bytes or on a line without bytes, leaves it as it is. */
static void alter(uint8_t key)
{
    uint64_t answer = key == DELETE || key == BACKSPACE ? trace_live_take_back(&line, work, work_len)
                                                        : trace_live_add(&line, key, work, work_len);
    if (trace_is_refused(answer)) {
        printf("\a");
        flush();
        return;
    }
    facts = answer;
    if (facts & TRACE_LIVE_EXTENDS)
        good = line.count;
    draw();
}

static void show_token(const uint8_t *token)
{
    printf("%d: ", token[0]);
    put_bytes(line.bytes + token[1], token[2]);
    printf("\n");
}

/* Cuts the line, shows its tokens, and begins the next one. */
static void cut(void)
{
    uint8_t tokens[TRACE_TOKEN * TRACE_MAX_LINE];
    uint64_t answer = trace_read(table, table_len, start, line.bytes, line.count, work, work_len, reading, reading_len);
    if (!trace_is_refused(answer))
        answer = trace_tokens(table, table_len, start, reading, TRACE_READING_RECORD * (size_t)answer, tokens, sizeof tokens);
    printf("\n");
    if (trace_is_refused(answer))
        printf("refused %u: %s\n", (unsigned)trace_refusal(answer), trace_refusal_text(trace_refusal(answer)));
    else if (answer == 0)
        printf("no token\n");
    else
        for (size_t i = 0; i < answer; i++)
            show_token(tokens + TRACE_TOKEN * i);
    begin();
}

/* A signal that ends the console is kept whatever comes behind it. */
static void on_signal(int number)
{
    if (caught == 0 || caught == SIGTSTP || caught == SIGCONT)
        caught = number;
}

/* Signals come in where the next key is waited for, and nowhere else. */
static void catch_signals(void)
{
    static const int numbers[] = {SIGINT, SIGTERM, SIGHUP, SIGQUIT, SIGTSTP, SIGCONT};
    struct sigaction action;
    memset(&action, 0, sizeof action);
    action.sa_handler = on_signal;
    sigemptyset(&waited);
    for (size_t i = 0; i < sizeof numbers / sizeof *numbers; i++) {
        sigaddset(&waited, numbers[i]);
        sigaction(numbers[i], &action, NULL);
    }
    sigprocmask(SIG_BLOCK, &waited, &others);
}

/* The keys come one by one and are not shown; those of signals stay. */
static void take_terminal(void)
{
    struct termios raw = before;
    raw.c_iflag &= ~(tcflag_t)(ICRNL | INLCR | IGNCR | ISTRIP | PARMRK | IXON);
    raw.c_lflag &= ~(tcflag_t)(ICANON | ECHO | IEXTEN);
    raw.c_cc[VMIN] = 1;
    raw.c_cc[VTIME] = 0;
    tcsetattr(STDIN_FILENO, TCSADRAIN, &raw);
}

/* Does what a signal does by itself, with the terminal as it was. */
static void hand_back(int number)
{
    struct sigaction by_default, ours;
    memset(&by_default, 0, sizeof by_default);
    by_default.sa_handler = SIG_DFL;
    printf("\n");
    flush();
    restore();
    sigaction(number, &by_default, &ours);
    raise(number);
    sigprocmask(SIG_SETMASK, &others, NULL); /* here it ends, or stops and goes on */
    sigprocmask(SIG_BLOCK, &waited, NULL);
    sigaction(number, &ours, NULL);
}

/* Lets the signals in that have come, and waits for a key. Returns 0 if a signal came first. */
static int wait_for_key(void)
{
    fd_set input;
    sigprocmask(SIG_SETMASK, &others, NULL);
    sigprocmask(SIG_BLOCK, &waited, NULL);
    FD_ZERO(&input);
    FD_SET(STDIN_FILENO, &input);
    return caught == 0 && (pselect(STDIN_FILENO + 1, &input, NULL, NULL, NULL, &others) >= 0 || errno != EINTR);
}

/* The next key, or -1 where the terminal has gone. */
static int next_key(void)
{
    uint8_t key;
    while (!wait_for_key()) {
        if (caught != 0 && caught != SIGCONT)
            hand_back(caught);
        caught = 0;
        take_terminal();
        draw();
    }
    return read(STDIN_FILENO, &key, 1) == 1 ? key : -1;
}

/* Takes keys until the last one. Returns the exit status. */
static int run(void)
{
    int key;
    begin();
    while ((key = next_key()) >= 0 && key != CTRL_D)
        if (key == ENTER || key == NEW_LINE)
            cut();
        else
            alter((uint8_t)key);
    printf("\n");
    flush();
    return key == CTRL_D ? 0 : 2;
}

/* The table of the rule, and buffers for the longest line. Returns 0, or the exit status. */
static int prepare(const char *rule)
{
    uint64_t answer = trace_compile((const uint8_t *)rule, strlen(rule), table, sizeof table);
    if (trace_is_refused(answer)) {
        fprintf(stderr, "console: the rule is refused: %s\n", trace_refusal_text(trace_refusal(answer)));
        return 1;
    }
    size_t records = (size_t)answer;
    table_len = TRACE_TABLE_RECORD * records;
    start = records - 1;
    work = malloc(work_len = trace_work_size(records, TRACE_MAX_LINE));
    reading = malloc(reading_len = trace_reading_size(records, TRACE_MAX_LINE));
    if (work == NULL || reading == NULL)
        perror("console");
    return work == NULL || reading == NULL ? 2 : 0;
}

int main(int count, char **arguments)
{
    if (count != 2) {
        fputs("usage: console RULE\n", stderr);
        return 2;
    }
    int status = prepare(arguments[1]);
    if (status != 0)
        return status;
    if (!isatty(STDOUT_FILENO) || tcgetattr(STDIN_FILENO, &before) != 0) {
        fputs("console: its input and output must be a terminal; tracecut cuts the lines of a file\n", stderr);
        return 2;
    }
    setvbuf(stdout, NULL, _IOFBF, BUFSIZ);
    catch_signals();
    take_terminal();
    status = run();
    restore();
    return status;
}
