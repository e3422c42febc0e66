/* How far a run is: a bar on a terminal, lines elsewhere. All on standard error. */
#define _DEFAULT_SOURCE
#include "tool.h"

#include <sys/ioctl.h>
#include <time.h>
#include <unistd.h>

enum {
    CELLS = 24,       /* of the bar */
    WORDS = 26,       /* the most that a phase has, in characters */
    LINE = CELLS + WORDS + 24,
    SHOWN_EVERY = 50, /* milliseconds */
};

static bool shown;      /* is there a bar? */
static uint32_t last;   /* the phase that was shown last */
static long long begun; /* when the run began, in milliseconds, */
static long long next;  /* and when the bar is to be drawn again, also in the same phase */

static long long milliseconds(void)
{
    struct timespec now;
    clock_gettime(CLOCK_MONOTONIC, &now);
    return now.tv_sec * 1000LL + now.tv_nsec / 1000000;
}

const char *phase_words(uint32_t phase)
{
    static const char *const words[] = {
        "erase the switch segment",  "look at the switch segment", "erase the update area",   "program the image",
        "look at the update area",   "program the switch word",    "look at the switch word",
    };
    return phase < sizeof words / sizeof *words ? words[phase] : "nothing";
}

/* The time left, in seconds, if the orders to come take as long as those before them. */
static long long seconds_left(size_t done, size_t total)
{
    return (milliseconds() - begun) * (long long)(total - done) / (long long)done / 1000;
}

static void draw_bar(uint32_t phase, size_t done, size_t total)
{
    static const char full[] = "########################", empty[] = "........................";
    int cells = (int)(done * CELLS / total);
    char left[32] = "-:--";
    if (done > 0) {
        long long seconds = seconds_left(done, total);
        snprintf(left, sizeof left, "%lld:%02lld", seconds / 60, seconds % 60);
    }
    fprintf(stderr, "\r[%.*s%.*s] %3zu%%  %s left  %-*s", cells, full, CELLS - cells, empty, done * 100 / total, left,
            WORDS, phase_words(phase));
    shown = true;
}

/* A terminal on which the bar is one line. (One that does not say how wide it is has 80 columns.) */
static bool has_room_for_bar(void)
{
    struct winsize size;
    if (!isatty(STDERR_FILENO))
        return false;
    return ioctl(STDERR_FILENO, TIOCGWINSZ, &size) != 0 || size.ws_col == 0 || size.ws_col > LINE;
}

void show_progress(uint32_t phase, size_t number, size_t total)
{
    long long now = milliseconds();
    bool begins = number == 1 || phase != last;
    if (number == 1)
        begun = now;
    last = phase;
    if (!has_room_for_bar()) {
        end_progress();
        if (begins)
            fprintf(stderr, "order %zu of %zu: %s\n", number, total, phase_words(phase));
    } else if (begins || now >= next) {
        next = now + SHOWN_EVERY;
        draw_bar(phase, number - 1, total);
    }
}

void end_progress(void)
{
    if (shown)
        fprintf(stderr, "\r%*s\r", LINE, "");
    shown = false;
}
