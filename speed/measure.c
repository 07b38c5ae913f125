#define _DEFAULT_SOURCE /* syscall */
#include "measure.h"

#include <linux/perf_event.h>
#include <stdlib.h>
#include <string.h>
#include <sys/ioctl.h>
#include <sys/syscall.h>
#include <time.h>
#include <unistd.h>

enum { MOST_ROUNDS = 10000, FEWEST_ROUNDS = 25, UNITS_OF_FULL_ROUNDS = 1 << 18 };

static struct result result;

static double now(clockid_t clock)
{
    struct timespec t;
    clock_gettime(clock, &t);
    return (double)t.tv_sec * 1e9 + (double)t.tv_nsec;
}

/* Nanoseconds a unit. A replay gets a fresh array for each call, outside the time taken; image calls need none, and are short:
 * they are timed together. A dump may take longer than the turn that a busy machine gives a process, so that no round would be
 * undisturbed: of it the processor's own time is taken. */
static double time_once(const struct side *side, const struct input *input)
{
    bool dumps = input->job->operation == REPLAY_DUMP;
    clockid_t clock = dumps ? CLOCK_THREAD_CPUTIME_ID : CLOCK_MONOTONIC;
    double took = 0, began;

    if (dumps || input->job->operation == REPLAY) {
        for (size_t call = 0; call < input->calls; call++) {
            fresh_result(&result, input);
            began = now(clock);
            perform(side, input, call, &result);
            took += now(clock) - began;
        }
    } else {
        began = now(clock);
        for (size_t call = 0; call < input->calls; call++)
            perform(side, input, call, &result);
        took = now(clock) - began;
    }
    return took / (double)input->units;
}

/* As many as were asked for, or fewer of a large input. */
static unsigned rounds_of(const struct input *input, unsigned rounds)
{
    unsigned times = (unsigned)(input->units / UNITS_OF_FULL_ROUNDS), fewer = times > 1 ? rounds / times : rounds;

    if (fewer < FEWEST_ROUNDS)
        fewer = rounds < FEWEST_ROUNDS ? rounds : FEWEST_ROUNDS;
    return fewer > MOST_ROUNDS ? MOST_ROUNDS : fewer;
}

static int ascending(const void *a, const void *b)
{
    double x = *(const double *)a, y = *(const double *)b;
    return (x > y) - (x < y);
}

void measure_time(const struct input *input, unsigned rounds, struct cost costs[SIDES])
{
    static double took[SIDES][MOST_ROUNDS];

    rounds = rounds_of(input, rounds);
    for (int i = 0; i < SIDES; i++) /* warm caches and branch predictors for both alike */
        time_once(&sides[i], input);
    for (unsigned round = 0; round < rounds; round++)
        for (unsigned turn = 0; turn < SIDES; turn++) {
            unsigned i = (round + turn) % SIDES; /* neither is always first */
            took[i][round] = time_once(&sides[i], input);
        }
    for (int i = 0; i < SIDES; i++) {
        qsort(took[i], rounds, sizeof took[i][0], ascending);
        costs[i] = (struct cost){took[i][0], took[i][rounds / 2]};
    }
}

static int open_counter(void)
{
    struct perf_event_attr attr;
    memset(&attr, 0, sizeof attr);
    attr.size = sizeof attr;
    attr.type = PERF_TYPE_HARDWARE;
    attr.config = PERF_COUNT_HW_INSTRUCTIONS;
    attr.disabled = attr.exclude_kernel = attr.exclude_hv = 1;
    return (int)syscall(SYS_perf_event_open, &attr, 0, -1, -1, 0);
}

bool can_count(void)
{
    int counter = open_counter();
    if (counter < 0)
        return false;
    close(counter);
    return true;
}

double count_instructions(const struct side *side, const struct input *input)
{
    uint64_t count = 0;
    int counter = open_counter();

    for (size_t call = 0; call < input->calls; call++) {
        fresh_result(&result, input);
        ioctl(counter, PERF_EVENT_IOC_ENABLE, 0);
        perform(side, input, call, &result);
        ioctl(counter, PERF_EVENT_IOC_DISABLE, 0);
    }
    if (read(counter, &count, sizeof count) != sizeof count)
        count = 0;
    close(counter);
    return (double)count / (double)input->units;
}
