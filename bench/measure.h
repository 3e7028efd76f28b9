/* Timing, the same for every peer. */
#ifndef MEASURE_H
#define MEASURE_H

#include <time.h>

enum { REPEATS = 7 };

static double seconds(void)
{
    struct timespec t;
    clock_gettime(CLOCK_MONOTONIC, &t);
    return (double)t.tv_sec + (double)t.tv_nsec * 1e-9;
}

/* Puts a number into its place among count sorted ones. */
static void insert(double *sorted, int count, double number)
{
    for (; count > 0 && sorted[count - 1] > number; count--)
        sorted[count] = sorted[count - 1];
    sorted[count] = number;
}

/*
 * Microseconds for one call: the median of 7 repeats, each with as many rounds as take about ms milliseconds. No repeat is started after
 * 5 seconds in all; if none is, the time is that of the rounds by which their number was found.
 */
static double measure(void (*call)(void *), void *arg, double ms)
{
    double begin = seconds(), each = 0, times[REPEATS];
    long rounds = 1;
    int count = 0;
    for (int repeat = -1; repeat < REPEATS; repeat++) {
        double took;
        if (repeat >= 0 && seconds() - begin > 5)
            break;
        for (;;) {
            double from = seconds();
            for (long i = 0; i < rounds; i++)
                call(arg);
            took = seconds() - from;
            if (repeat >= 0 || took * 1e4 >= ms)
                break;
            rounds *= 4;
        }
        each = took / (double)rounds;
        if (repeat >= 0) {
            insert(times, count++, each);
        } else {
            rounds = (long)(ms * 1e-3 / each);
            if (rounds < 1)
                rounds = 1;
        }
    }
    return (count ? (times[(count - 1) / 2] + times[count / 2]) / 2 : each) * 1e6;
}

#endif
