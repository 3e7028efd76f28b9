/*
 * pty PROGRAM SCRIPT: runs a program on a pseudo-terminal of 80 columns as the script says, and compares what it shows.
 *
 *     start ARGUMENT     starts the program with this argument; in it and in keys \xNN is any byte, and \\ a backslash
 *     keys TEXT          sends these bytes
 *     fill COUNT BYTE    sends a byte so many times
 *     | ROW              what the terminal shows in the last rows, the last of these in that of the cursor; _ stands for the cursor
 *     : COLOURS          under each row its colours: . none, g green, y yellow, r red, and in upper case where it is inverse
 *     bells COUNT        how often the bell has rung
 *     signal NAME        sends a signal
 *     stopped            the program has stopped
 *     halt               stops the program by a signal that it cannot catch, and sets the terminal back as a shell does
 *     hangup             the terminal goes away
 *     ended STATUS       the program has ended with this exit status, or by the signal of this name
 *
 * Each line waits for what it names, and fails after 20 seconds without it. Bytes that move the terminal in another way than a new line, a return, a
 * colour and the clearing of a row must not be sent. Where rows are compared the terminal must hand on each key; where the program has stopped or
 * ended, it must be as it was before, and at the end the cursor stands at the start of a row.
 */
#define _XOPEN_SOURCE 700
#include <ctype.h>
#include <errno.h>
#include <fcntl.h>
#include <poll.h>
#include <signal.h>
#include <stdio.h>
#include <stdlib.h>
#include <string.h>
#include <sys/ioctl.h>
#include <sys/wait.h>
#include <termios.h>
#include <time.h>
#include <unistd.h>

enum { ROWS = 400, COLUMNS = 80, SECONDS = 20 };

static char text[ROWS][COLUMNS + 1], colours[ROWS][COLUMNS + 1];
static int row, column, colour = '.', inverse, bells;
static int controller, terminal, line_number;
static struct termios before;
static pid_t program = -1;

static void fail(const char *what)
{
    printf("pty: line %d of the script: %s; the terminal shows\n", line_number, what);
    for (int i = row < 3 ? 0 : row - 3; i <= row; i++)
        printf("| %.80s\n: %.80s\n", text[i], colours[i]);
    printf("with the cursor at %d, and %d bells\n", column, bells);
    if (program > 0)
        kill(program, SIGKILL);
    exit(1);
}

static void clear_row(int from)
{
    memset(text[row] + from, ' ', (size_t)(COLUMNS - from));
    memset(colours[row] + from, '.', (size_t)(COLUMNS - from));
}

static void next_row(void)
{
    if (++row == ROWS)
        fail("too many rows");
    clear_row(0);
}

static void set_colour(int number)
{
    if (number == 0)
        colour = '.', inverse = 0;
    else if (number == 7 || number == 27)
        inverse = number == 7;
    else if (number >= 31 && number <= 33)
        colour = "rgy"[number - 31];
    else
        fail("another colour");
}

/* Takes a byte of the program's output; a sequence that begins with ESC is gathered first. */
static void show(unsigned char byte)
{
    static char sequence[16];
    size_t length = strlen(sequence);
    int number = 0;
    char last;
    if (length > 0 || byte == 27) {
        if (length + 1 == sizeof sequence)
            fail("a long sequence");
        sequence[length] = (char)byte;
        if (length < 2 || !isalpha(byte))
            return;
        if (sscanf(sequence, "\033[%d%c", &number, &last) == 2 && last == 'm')
            set_colour(number);
        else if (strcmp(sequence, "\033[K") == 0)
            clear_row(column);
        else
            fail("another sequence");
        memset(sequence, 0, sizeof sequence);
    } else if (byte == '\n') {
        next_row();
    } else if (byte == '\r') {
        column = 0;
    } else if (byte == '\a') {
        bells++;
    } else if (byte < ' ' || byte > '~' || column == COLUMNS - 1) {
        fail("a byte that must not be sent, or a row that is too long");
    } else {
        text[row][column] = (char)byte;
        colours[row][column++] = (char)(inverse ? colour == '.' ? '!' : toupper(colour) : colour);
    }
}

/* Waits for output and takes it; fails where none comes. */
static void listen_until(time_t end, const char *what)
{
    unsigned char bytes[256];
    struct pollfd output = {controller, POLLIN, 0};
    if (time(NULL) > end || (poll(&output, 1, 100) < 0 && errno != EINTR))
        fail(what);
    if (!(output.revents & POLLIN))
        return;
    ssize_t count = read(controller, bytes, sizeof bytes);
    for (ssize_t i = 0; i < count; i++)
        show(bytes[i]);
}

/* The row as it is, up to its last byte or the cursor. */
static void shown_row(int number, int with_cursor, char *to)
{
    int length = COLUMNS;
    while (length > 0 && text[number][length - 1] == ' ')
        length--;
    if (with_cursor && length < column)
        length = column;
    memcpy(to, text[number], (size_t)length);
    to[length] = 0;
    if (with_cursor) {
        memmove(to + column + 1, to + column, (size_t)(length - column) + 1);
        to[column] = '_';
    }
}

static char expected[16][2][COLUMNS + 4];
static int expected_rows;

static int as_expected(void)
{
    char is[COLUMNS + 4];
    if (row + 1 < expected_rows)
        return 0;
    for (int i = 0; i < expected_rows; i++) {
        int number = row + 1 - expected_rows + i;
        shown_row(number, i + 1 == expected_rows, is);
        if (strcmp(is, expected[i][0]) != 0 || strncmp(colours[number], expected[i][1], strlen(expected[i][1])) != 0)
            return 0;
    }
    return 1;
}

static int hands_on_each_key(void)
{
    struct termios now;
    return tcgetattr(terminal, &now) == 0 && (now.c_lflag & (ICANON | ECHO)) == 0;
}

static void compare_rows(void)
{
    if (expected_rows == 0)
        return;
    for (time_t end = time(NULL) + SECONDS; !as_expected() || !hands_on_each_key();)
        listen_until(end, "other rows than these, or keys that are not handed on");
    expected_rows = 0;
}

static void expect_restored(void)
{
    struct termios now;
    memset(&now, 0, sizeof now);
    if (tcgetattr(terminal, &now) != 0 || now.c_iflag != before.c_iflag || now.c_oflag != before.c_oflag || now.c_cflag != before.c_cflag
        || now.c_lflag != before.c_lflag || memcmp(now.c_cc, before.c_cc, sizeof now.c_cc) != 0)
        fail("the terminal is not as it was before");
}

static const struct {
    const char *name;
    int number;
} signals[] = {{"HUP", SIGHUP}, {"INT", SIGINT}, {"QUIT", SIGQUIT}, {"TERM", SIGTERM}, {"TSTP", SIGTSTP}, {"CONT", SIGCONT}};

static int signal_number(const char *name)
{
    for (size_t i = 0; i < sizeof signals / sizeof *signals; i++)
        if (strcmp(signals[i].name, name) == 0)
            return signals[i].number;
    return 0;
}

/* Waits until the program has stopped or ended. */
static int wait_for_program(const char *what)
{
    int status;
    pid_t changed;
    for (time_t end = time(NULL) + SECONDS; (changed = waitpid(program, &status, WNOHANG | WUNTRACED)) == 0;) {
        struct pollfd output = {controller, POLLIN, 0};
        if (poll(&output, 1, 10) > 0 && output.revents & POLLIN)
            listen_until(end, what);
        else if (time(NULL) > end)
            fail(what);
    }
    if (changed != program)
        fail(what);
    return status;
}

static void stopped(void)
{
    int status = wait_for_program("the program does not stop");
    if (!WIFSTOPPED(status))
        fail("the program has ended");
    expect_restored();
}

static void halt(void)
{
    kill(program, SIGSTOP);
    if (!WIFSTOPPED(wait_for_program("the program does not stop")))
        fail("the program has ended");
    tcsetattr(terminal, TCSANOW, &before);
}

static void ended(const char *how)
{
    int status = wait_for_program("the program does not end");
    if (WIFEXITED(status) ? !isdigit((unsigned char)*how) || WEXITSTATUS(status) != atoi(how)
                          : !WIFSIGNALED(status) || WTERMSIG(status) != signal_number(how))
        fail("another end");
    program = -1;
    if (controller < 0)
        return;
    expect_restored();
    for (struct pollfd output = {controller, POLLIN, 0}; poll(&output, 1, 0) > 0 && output.revents & POLLIN;)
        listen_until(time(NULL) + SECONDS, "the end of the output");
    if (column > 0)
        fail("the cursor is left inside a row");
}

/* The bytes that a text stands for, written over it; returns how many. */
static size_t unescape(char *text)
{
    char *to = text;
    unsigned number;
    for (const char *at = text; *at;)
        if (sscanf(at, "\\x%2x", &number) == 1)
            *to++ = (char)number, at += 4;
        else
            at += *at == '\\', *to++ = *at++;
    *to = 0;
    return (size_t)(to - text);
}

/* Starts the program in a group of its own, which has the terminal. */
static void start(const char *path, const char *argument)
{
    bells = 0;
    program = fork();
    if (program == 0) {
        setpgid(0, 0);
        tcsetpgrp(terminal, getpid());
        for (int i = 0; i < 3; i++)
            dup2(terminal, i);
        signal(SIGTTOU, SIG_DFL);
        signal(SIGHUP, SIG_DFL);
        execl(path, path, argument, (char *)NULL);
        _exit(127);
    }
    if (program < 0)
        fail("fork");
}

static void send_bytes(const char *bytes, size_t count)
{
    for (size_t at = 0; at < count;) {
        ssize_t sent = write(controller, bytes + at, count - at);
        if (sent < 0)
            fail("the keys cannot be sent");
        at += (size_t)sent;
    }
}

static void fill(const char *what)
{
    char bytes[1000], byte;
    size_t count;
    if (sscanf(what, "%zu %c", &count, &byte) != 2 || count > sizeof bytes)
        fail("how many of which byte?");
    memset(bytes, byte, count);
    send_bytes(bytes, count);
}

static void expect_bells(int count)
{
    for (time_t end = time(NULL) + SECONDS; bells < count;)
        listen_until(end, "fewer bells");
    if (bells > count)
        fail("more bells");
}

static void hang_up(void)
{
    close(terminal);
    close(controller);
    controller = -1;
}

/* One line of the script. */
static void perform(const char *path, char *line)
{
    char *rest = line + strcspn(line, " ");
    if (*rest)
        *rest++ = 0;
    if (*line == '|' && expected_rows < 16) {
        snprintf(expected[expected_rows][1], sizeof expected[0][1], "%s", "");
        snprintf(expected[expected_rows++][0], sizeof expected[0][0], "%s", rest);
        return;
    }
    if (*line == ':' && expected_rows > 0) {
        snprintf(expected[expected_rows - 1][1], sizeof expected[0][1], "%s", rest);
        return;
    }
    compare_rows();
    if (strcmp(line, "start") == 0)
        unescape(rest), start(path, rest);
    else if (strcmp(line, "keys") == 0)
        send_bytes(rest, unescape(rest));
    else if (strcmp(line, "fill") == 0)
        fill(rest);
    else if (strcmp(line, "bells") == 0)
        expect_bells(atoi(rest));
    else if (strcmp(line, "signal") == 0)
        kill(program, signal_number(rest));
    else if (strcmp(line, "stopped") == 0)
        stopped();
    else if (strcmp(line, "halt") == 0)
        halt();
    else if (strcmp(line, "hangup") == 0)
        hang_up();
    else if (strcmp(line, "ended") == 0)
        ended(rest);
    else if (*line && *line != '#')
        fail("no such line");
}

/* The terminal becomes that of this process, which leads a session of its own. */
static void open_terminal(void)
{
    struct winsize size = {24, COLUMNS, 0, 0};
    setsid();
    signal(SIGTTOU, SIG_IGN);
    signal(SIGHUP, SIG_IGN);
    controller = posix_openpt(O_RDWR | O_NOCTTY);
    if (controller < 0 || grantpt(controller) != 0 || unlockpt(controller) != 0 || (terminal = open(ptsname(controller), O_RDWR)) < 0
        || ioctl(controller, TIOCSWINSZ, &size) != 0 || tcgetattr(terminal, &before) != 0) {
        perror("pty");
        exit(1);
    }
    fcntl(controller, F_SETFD, FD_CLOEXEC);
    clear_row(0);
}

int main(int count, char **arguments)
{
    char line[512];
    int status, steps = 0;
    FILE *script = count == 3 ? fopen(arguments[2], "r") : NULL;
    if (script == NULL) {
        fputs("usage: pty PROGRAM SCRIPT\n", stderr);
        return 2;
    }
    /* the leader of a group cannot lead a session */
    pid_t leader = fork();
    if (leader != 0)
        return leader < 0 || waitpid(leader, &status, 0) != leader || status != 0;
    open_terminal();
    for (line_number = 1; fgets(line, sizeof line, script); line_number++, steps++) {
        line[strcspn(line, "\n")] = 0;
        perform(arguments[1], line);
    }
    compare_rows();
    if (program > 0)
        fail("the program has not ended");
    printf("console: %d lines of the script ok\n", steps);
    return 0;
}
