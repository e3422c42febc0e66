/* Timing, and the table. Times are processor time, so that other work on the machine hardly counts; the sides
 * take turns, so that what noise there is hits both alike; and the best time of each counts. */
#include "bench.h"

#include <stdio.h>
#include <stdlib.h>
#include <string.h>
#include <sys/resource.h>
#include <time.h>

/* Short jobs are timed in batches that take so long, and a turn is as many batches; one at least. */
static const double BATCH_SECONDS = 0.002;
static const double TURN_SECONDS = 0.05;

/* Ours is to take at most 1.2 times the peer's time: the one goal of every row. */
static const double GOAL = 1 / 1.2;

static int runs, misses;

void fail(const char *what)
{
    perror(what);
    exit(1);
}

/* Memory that is touched already: no page is met for the first time while a job is timed. */
void *buffer(size_t length)
{
    void *bytes = malloc(length);
    if (!bytes)
        fail("malloc");
    memset(bytes, 0, length);
    return bytes;
}

uint64_t next_random(void)
{
    static uint64_t x = 88172645463325252u;
    x ^= x << 13, x ^= x >> 7, x ^= x << 17;
    return x * 0x2545F4914F6CDD1Du;
}

size_t below(size_t n)
{
    return (size_t)((next_random() >> 16) % n);
}

void fill_random(uint8_t *bytes, size_t length)
{
    for (size_t i = 0; i < length; i++)
        bytes[i] = (uint8_t)next_random();
}

/* Processor time of this program and of those that it has run. */
static double now(void)
{
    struct timespec t;
    struct rusage u;
    if (clock_gettime(CLOCK_PROCESS_CPUTIME_ID, &t) != 0 || getrusage(RUSAGE_CHILDREN, &u) != 0)
        fail("clock");
    return (double)(t.tv_sec + u.ru_utime.tv_sec + u.ru_stime.tv_sec) + (double)t.tv_nsec * 1e-9 +
           (double)(u.ru_utime.tv_usec + u.ru_stime.tv_usec) * 1e-6;
}

static double time_batch(const Side *side, long jobs)
{
    double start = now();
    for (long k = 0; k < jobs; k++)
        side->job(side->context);
    return now() - start;
}

static double min(double a, double b)
{
    return a < b ? a : b;
}

/* How many jobs make a batch. The last that was tried counts as one. */
static long find_batch(const Side *side, double *best)
{
    double seconds;
    long jobs = 1;
    while ((seconds = time_batch(side, jobs)) < BATCH_SECONDS)
        jobs *= 2;
    *best = min(*best, seconds / (double)jobs);
    return jobs;
}

/* A side's turn: the best seconds for one job so far, or better ones. */
static double take_turn(const Side *side, double best)
{
    double end = now() + TURN_SECONDS;
    long jobs = find_batch(side, &best);
    while (now() < end)
        best = min(best, time_batch(side, jobs) / (double)jobs);
    return best;
}

/* Both sides gave the same answer in every field, or the program ends. */
static void compare_answers(const Row *row)
{
    Answer ours = row->ours.answer(row->ours.context), peer = row->peer.answer(row->peer.context);
    int different = 0;
    for (int i = 0; i < FIELDS && ours.names[i]; i++) {
        if (ours.values[i] == peer.values[i])
            continue;
        printf("%s: %s is %zu, but %s says %zu\n", row->name, ours.names[i], ours.values[i], row->peer.name, peer.values[i]);
        different = 1;
    }
    if (different)
        exit(1);
}

static const char *time_text(double seconds, char *text, size_t size)
{
    if (seconds < 1e-6)
        snprintf(text, size, "%.1f ns", seconds * 1e9);
    else if (seconds < 1e-3)
        snprintf(text, size, "%.1f us", seconds * 1e6);
    else
        snprintf(text, size, "%.2f ms", seconds * 1e3);
    return text;
}

/* Three digits, or all before the point. */
static int decimals(double number)
{
    return number < 10 ? 2 : number < 100 ? 1 : 0;
}

static void print_ours(const Row *row, double ours)
{
    char time[32];
    printf("%-40s %9zu %10s  %-8s", row->name, row->size, time_text(ours, time, sizeof time), row->peer.name);
}

static void print_peer(double ours, double peer)
{
    char time[32];
    double ratio = peer / ours;
    printf(" %10s %8.*fx %4s\n", time_text(peer, time, sizeof time), decimals(ratio), ratio, ratio < GOAL ? "NO" : "yes");
    misses += ratio < GOAL;
}

void table_begin(int wanted_runs)
{
    runs = wanted_runs;
    printf("%-40s %9s %10s  %-8s %10s %9s %4s\n", "job", "bytes", "ours", "peer", "peer's", "ours is", "goal");
}

void table_row(const Row *row)
{
    double ours = 1e9, peer = 1e9;
    if (!row->ours.job(row->ours.context))
        fail(row->name);
    int installed = row->peer.job(row->peer.context);
    if (installed)
        compare_answers(row);
    for (int k = 0; k < runs; k++) {
        ours = take_turn(&row->ours, ours);
        if (!installed)
            continue;
        peer = take_turn(&row->peer, peer);
        compare_answers(row);
    }
    print_ours(row, ours);
    if (installed)
        print_peer(ours, peer);
    else
        printf(" not installed\n");
    fflush(stdout);
}

void table_end(void)
{
    printf("Processor time, best of %d turns. \"ours is\": how many times as fast as the peer. Goal: %.2f. Below it: %d.\n",
           runs, GOAL, misses);
}
