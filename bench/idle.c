// Runs a command where processors are known to be idle, and tells how long it took. For Linux on x86-64; bench/idle_sweep calls it.
//
//   idle shortest SECONDS
//       looks at each processor for so long, and prints the shortest look in nanoseconds
//   idle run PROCESSORS LIMIT SECONDS COMMAND..
//       looks at each processor until so many were quiet for a tenth of a second, for at most so many seconds, and runs the command
//       on these, its output thrown away. Prints its milliseconds, the processor's milliseconds that it used, and of the
//       processor that was quiet least the share of quiet looks while it ran; or "none" where no processors were quiet
//
// A look is a loop of 384,000 additions, of which four at a time need not wait for each other. A processor does them at its full
// width, so whoever else computes on the same core makes a look longer, up to twice as long; a chain in which each waits for the
// one before sees no such neighbour. A look is quiet if it is shorter than the limit, in nanoseconds. Before the command begins
// the looks follow each other, since a processor that rests may be given to others; while it runs there is one each three
// milliseconds, of a fixed priority where the system permits it (who may not have it sees fewer quiet looks, and not more).
#define _GNU_SOURCE
#include <fcntl.h>
#include <pthread.h>
#include <sched.h>
#include <stdio.h>
#include <stdlib.h>
#include <string.h>
#include <sys/resource.h>
#include <sys/wait.h>
#include <time.h>
#include <unistd.h>

enum { PROCESSORS = 256, KEPT = 16384 };
enum { WAITING, RUNNING, ENDED };

static const double WINDOW = 0.1, QUIET = 0.95;

static int processors;
static double limit;
static _Atomic int phase = WAITING;
static _Atomic int is_used[PROCESSORS];
static _Atomic double shortest[PROCESSORS], share[PROCESSORS];
static long looks[PROCESSORS], quiet_looks[PROCESSORS];

static double seconds(void) {
    struct timespec now;
    clock_gettime(CLOCK_MONOTONIC, &now);
    return now.tv_sec + now.tv_nsec * 1e-9;
}

// How many nanoseconds a look took.
static double look(void) {
    long a = 0, b = 0, c = 0, d = 0, turns = 6000;
    double begun = seconds();
    __asm__ volatile("1:\n\t.rept 16\n\tadd $1, %0\n\tadd $1, %1\n\tadd $1, %2\n\tadd $1, %3\n\t.endr\n\tdec %4\n\tjnz 1b"
                     : "+r"(a), "+r"(b), "+r"(c), "+r"(d), "+r"(turns)
                     :
                     : "cc");
    return (seconds() - begun) * 1e9;
}

// Looks without a rest: the shortest one, and the share of quiet ones among those of the last tenth of a second.
static void wait_on(int processor) {
    static _Thread_local struct { double at; int is_quiet; } kept[KEPT];
    long newest = 0, oldest = 0, quiet = 0;
    shortest[processor] = 1e9;
    while (phase == WAITING) {
        double at = seconds(), took = look();
        if (took < shortest[processor]) shortest[processor] = took;
        if (newest - oldest == KEPT) quiet -= kept[oldest++ % KEPT].is_quiet;
        kept[newest % KEPT].at = at;
        quiet += kept[newest++ % KEPT].is_quiet = took < limit;
        while (kept[oldest % KEPT].at < at - WINDOW) quiet -= kept[oldest++ % KEPT].is_quiet;
        share[processor] = (double)quiet / (newest - oldest);
    }
}

static void *look_at(void *argument) {
    int processor = (int)(long)argument;
    cpu_set_t one;
    CPU_ZERO(&one);
    CPU_SET(processor, &one);
    sched_setaffinity(0, sizeof one, &one);
    wait_on(processor);
    if (!is_used[processor]) return NULL;
    struct sched_param priority = {.sched_priority = 50};
    sched_setscheduler(0, SCHED_FIFO, &priority);
    while (phase == RUNNING) {
        quiet_looks[processor] += look() < limit;
        looks[processor]++;
        usleep(3000);
    }
    return NULL;
}

// The processors that were quiet most, in that order.
static void by_share(int order[]) {
    for (int at = 0; at < processors; at++) {
        int to = at;
        while (to > 0 && share[order[to - 1]] < share[at]) {
            order[to] = order[to - 1];
            to--;
        }
        order[to] = at;
    }
}

// Whether so many processors are quiet, at most so many seconds from now.
static int become_quiet(int wanted, double most, int order[]) {
    double begun = seconds();
    do {
        usleep(5000);
        by_share(order);
        if (seconds() - begun > 1.5 * WINDOW && share[order[wanted - 1]] >= QUIET) return 1;
    } while (seconds() - begun < most);
    return 0;
}

static void start_looks(pthread_t threads[]) {
    for (long at = 0; at < processors; at++) pthread_create(&threads[at], NULL, look_at, (void *)at);
}

static int show_shortest(double most) {
    pthread_t threads[PROCESSORS];
    double least = 1e9;
    start_looks(threads);
    usleep(most * 1e6);
    for (int at = 0; at < processors; at++) least = shortest[at] < least ? shortest[at] : least;
    printf("%.0f\n", least);
    return 0;
}

// Whether a command failed, on these processors.
static int run(cpu_set_t *used, char *command[]) {
    int status;
    pid_t child = fork();
    if (child == 0) {
        sched_setaffinity(0, sizeof *used, used);
        dup2(open("/dev/null", O_WRONLY), 1);
        execvp(command[0], command);
        _exit(127);
    }
    return child < 0 || waitpid(child, &status, 0) < 0 || status != 0;
}

static double milliseconds(struct timeval time) {
    return time.tv_sec * 1e3 + time.tv_usec / 1e3;
}

static int run_idle(int wanted, double most, char *command[]) {
    pthread_t threads[PROCESSORS];
    int order[PROCESSORS];
    start_looks(threads);
    if (!become_quiet(wanted, most, order)) {
        puts("none");
        return 0;
    }
    cpu_set_t used;
    CPU_ZERO(&used);
    for (int at = 0; at < wanted; at++) {
        is_used[order[at]] = 1;
        CPU_SET(order[at], &used);
    }
    phase = RUNNING;
    double begun = seconds(), least = 1;
    int failed = run(&used, command);
    double took = seconds() - begun;
    phase = ENDED;
    for (int at = 0; at < processors; at++) pthread_join(threads[at], NULL);
    for (int at = 0; at < wanted; at++) {
        double quiet = looks[order[at]] == 0 ? 0 : (double)quiet_looks[order[at]] / looks[order[at]];
        least = quiet < least ? quiet : least;
    }
    struct rusage usage;
    getrusage(RUSAGE_CHILDREN, &usage);
    printf("%.1f %.1f %.2f\n", took * 1e3, milliseconds(usage.ru_utime) + milliseconds(usage.ru_stime), least);
    return failed;
}

int main(int count, char *words[]) {
    processors = sysconf(_SC_NPROCESSORS_ONLN);
    if (processors > PROCESSORS) processors = PROCESSORS;
    if (count == 3 && strcmp(words[1], "shortest") == 0) return show_shortest(atof(words[2]));
    if (count >= 6 && strcmp(words[1], "run") == 0) {
        int wanted = atoi(words[2]);
        limit = atof(words[3]);
        if (wanted >= 1 && wanted <= processors) return run_idle(wanted, atof(words[4]), words + 5);
    }
    fputs("usage: idle shortest SECONDS, or idle run PROCESSORS LIMIT SECONDS COMMAND..\n", stderr);
    return 2;
}
